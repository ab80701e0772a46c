/*
 * The output of the player: see output.h.
 */
#define _DEFAULT_SOURCE
#include "output.h"

#include <errno.h>
#include <unistd.h>

Output output;

void output_grow(size_t more)
{
    size_t room = output.room ? output.room : 1 << 16;
    while (room - output.len < more) {
        if (room > SIZE_MAX / 2)
            out_of_memory();
        room *= 2;
    }
    output.octets = grow_memory(output.octets, room);
    output.room = room;
}

void output_digits(const u8 *octets, size_t len)
{
    static const char digits[] = "0123456789abcdef";
    u8 *to = output.octets + output.len;
    for (size_t i = 0; i < len; i++) {
        to[2 * i] = (u8)digits[octets[i] >> 4];
        to[2 * i + 1] = (u8)digits[octets[i] & 15];
    }
    output.len += 2 * len;
}

void write_all(const u8 *octets, size_t len)
{
    while (len > 0) {
        ssize_t written = write(1, octets, len);
        if (written < 0 && errno == EINTR)
            continue;
        if (written <= 0)
            fail(ST_IO, "output not written");
        octets += written;
        len -= (size_t)written;
    }
}

void output_write(void)
{
    write_all(output.octets, output.len);
}
