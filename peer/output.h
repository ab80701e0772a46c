/*
 * The output of the player: it is kept until the end, and then written.
 */
#ifndef OUTPUT_H
#define OUTPUT_H
#include "base.h"

#include <string.h>

typedef struct {
    u8 *octets;
    size_t len, room;
} Output;

extern Output output;

void output_grow(size_t more);
void output_digits(const u8 *octets, size_t len);
/* Writes all of it to the standard output. */
void output_write(void);
void write_all(const u8 *octets, size_t len);

/* Makes room for so many octets. What adds octets needs it beforehand. */
static inline void output_need(size_t more)
{
    if (UNLIKELY(output.room - output.len < more))
        output_grow(more);
}

static inline void output_raw(const void *octets, size_t len)
{
    memcpy(output.octets + output.len, octets, len);
    output.len += len;
}

#define OUTPUT(text) output_raw("" text, sizeof(text) - 1)

static inline void output_number(u64 number)
{
    static const char pairs[] = "00010203040506070809101112131415161718192021222324252627282930313233"
                                "34353637383940414243444546474849505152535455565758596061626364656667"
                                "6869707172737475767778798081828384858687888990919293949596979899";
    char digits[20];
    int at = 20;
    while (number >= 100) {
        at -= 2;
        memcpy(digits + at, pairs + 2 * (number % 100), 2);
        number /= 100;
    }
    if (number >= 10) {
        at -= 2;
        memcpy(digits + at, pairs + 2 * number, 2);
    } else {
        digits[--at] = (char)('0' + number);
    }
    output_raw(digits + at, (size_t)(20 - at));
}

#endif
