/*
 * Traces: see traces.h.
 */
#define _DEFAULT_SOURCE
#include "traces.h"
#include "toml.h"

#include <errno.h>
#include <stdio.h>
#include <stdlib.h>
#include <string.h>
#include <unistd.h>

enum { BLOCK = 1 << 18, LONGEST = 8192, NO_DIGIT = 0x100 };

/* One look-up for two digits. A bit beyond the octet says that one of them is none. */
static u16 pairs[65536];

void prepare_traces(void)
{
    static const char digits[] = "0123456789abcdefABCDEF";
    for (size_t i = 0; i < sizeof pairs / sizeof *pairs; i++)
        pairs[i] = NO_DIGIT | 1;
    for (int i = 0; i < 22; i++)
        for (int j = 0; j < 22; j++) {
            unsigned upper = (u8)digits[i], lower = (u8)digits[j];
            pairs[upper | lower << 8] = (u16)(digit_of((int)upper) << 4 | digit_of((int)lower));
        }
}

_Noreturn void trace_not_read(char net)
{
    fail(ST_IO, net == 'A' ? "trace A not read" : "trace B not read");
}

/* Where the reading of a trace stands. */
typedef struct {
    int file;
    char net;
    u8 *block;
    size_t line;
    u64 before; /* the time of the frame before */
    Trace trace;
    size_t room;
} Reading;

static size_t read_some(const Reading *reading, u8 *to, size_t most)
{
    for (;;) {
        ssize_t count = read(reading->file, to, most);
        if (count >= 0)
            return (size_t)count;
        if (errno != EINTR)
            trace_not_read(reading->net);
    }
}

static _Noreturn void refuse(const Reading *reading, const char *cause)
{
    char rest[96];
    while (read_some(reading, reading->block, BLOCK) > 0)
        ;
    snprintf(rest, sizeof rest, "trace %c line %zu: %s", reading->net, reading->line, cause);
    fail(ST_REFUSED, rest);
}

/* The time that a line begins with. `at` goes past it. */
static inline u64 read_time(const Reading *reading, const u8 **at, const u8 *stop)
{
    const u8 *p = *at;
    u64 time = 0;
    if (UNLIKELY(*p < '0' || *p > '9'))
        refuse(reading, "time");
    if (*p == '0') {
        *at = p + 1;
        return 0;
    }
    for (; p < stop && *p >= '0' && *p <= '9'; p++) {
        u64 digit = (u64)(*p - '0');
        if (UNLIKELY(time >= UINT64_MAX / 10) && (time > UINT64_MAX / 10 || digit > UINT64_MAX % 10))
            refuse(reading, "time");
        time = time * 10 + digit;
    }
    *at = p;
    return time;
}

/* Decodes this many octets. Returns whether all digits were some. */
static inline bool decode(u8 *to, const u8 *from, size_t count)
{
    unsigned bad = 0;
    size_t i = 0;
    for (; i + 4 <= count; i += 4) {
        const u8 *s = from + 2 * i;
        unsigned a = pairs[s[0] | s[1] << 8], b = pairs[s[2] | s[3] << 8];
        unsigned c = pairs[s[4] | s[5] << 8], d = pairs[s[6] | s[7] << 8];
        bad |= a | b | c | d;
        u32 word = (a & 255) | (b & 255) << 8 | (c & 255) << 16 | (d & 255) << 24;
        to[i] = (u8)word;
        to[i + 1] = (u8)(word >> 8);
        to[i + 2] = (u8)(word >> 16);
        to[i + 3] = (u8)(word >> 24);
    }
    for (; i < count; i++) {
        unsigned pair = pairs[from[2 * i] | from[2 * i + 1] << 8];
        bad |= pair;
        to[i] = (u8)pair;
    }
    return !(bad & NO_DIGIT);
}

static inline void add_frame(Reading *reading, Frame frame)
{
    if (UNLIKELY(reading->trace.len == reading->room)) {
        reading->room = reading->room ? reading->room * 2 : 4096;
        reading->trace.frames = grow_memory(reading->trace.frames, reading->room * sizeof(Frame));
    }
    reading->trace.frames[reading->trace.len++] = frame;
}

/* A line, without its end. */
static inline void read_line(Reading *reading, const u8 *at, const u8 *stop)
{
    reading->line++;
    if (UNLIKELY(stop - at > LONGEST))
        refuse(reading, "long line");
    if (UNLIKELY(at == stop || *at == '#'))
        return;
    u64 time = read_time(reading, &at, stop);
    if (UNLIKELY(at == stop || *at != ' '))
        refuse(reading, "space");
    at++;
    size_t digits = (size_t)(stop - at);
    u8 *octets = arena(digits / 2);
    if (UNLIKELY(!decode(octets, at, digits / 2) || digits % 2))
        refuse(reading, "hex");
    if (UNLIKELY(time < reading->before))
        refuse(reading, "time falls");
    reading->before = time;
    add_frame(reading, (Frame){.time = time, .octets = octets, .len = (u32)(digits / 2)});
}

/* Reads the whole lines of the block, of which so many octets were there before, without an end of line. Returns how
 * many octets are left: they come to the beginning of the block. */
static size_t read_block(Reading *reading, size_t before, size_t have)
{
    const u8 *at = reading->block, *end = reading->block + have, *stop;
    const u8 *from = reading->block + before;
    while (from < end && (stop = memchr(from, '\n', (size_t)(end - from)))) {
        read_line(reading, at, stop);
        at = from = stop + 1;
    }
    size_t left = (size_t)(end - at);
    if (left > LONGEST) {
        reading->line++;
        refuse(reading, "long line");
    }
    memmove(reading->block, at, left);
    return left;
}

Trace read_trace(char net, int file)
{
    Reading reading = {.file = file, .net = net, .block = take_memory(BLOCK)};
    size_t left = 0, count;
    while ((count = read_some(&reading, reading.block + left, BLOCK - left)) > 0)
        left = read_block(&reading, left, left + count);
    if (left)
        read_line(&reading, reading.block, reading.block + left);
    free(reading.block);
    return reading.trace;
}
