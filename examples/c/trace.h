/* The frames of two traces (docs/FORMATS.md, trace), one of each network, in order of time: in the place of a driver. */
#ifndef TRACE_H
#define TRACE_H
#include <stdbool.h>
#include <stdint.h>
#include <stdio.h>
#include <stdlib.h>

struct frame {
    uint64_t time;
    size_t len;
    uint8_t octets[4096];
    bool is_there;
};

struct traces {
    FILE *files[2];
    struct frame next[2];
};

static int digit_of(int c) {
    if (c >= '0' && c <= '9') return c - '0';
    if (c >= 'a' && c <= 'f') return c - 'a' + 10;
    return c >= 'A' && c <= 'F' ? c - 'A' + 10 : -1;
}

static void read_frame(FILE *file, struct frame *to) {
    char line[8194];
    to->is_there = false;
    while (!to->is_there && fgets(line, sizeof line, file)) {
        char *at = line;
        if (digit_of(*at) < 0) continue;
        to->time = strtoull(at, &at, 10);
        to->len = 0;
        for (at++; digit_of(at[0]) >= 0 && digit_of(at[1]) >= 0; at += 2)
            to->octets[to->len++] = (uint8_t)(16 * digit_of(at[0]) + digit_of(at[1]));
        to->is_there = true;
    }
}

/* Opens both traces. False if one can't be. */
static bool open_traces(struct traces *traces, const char *a, const char *b) {
    const char *names[2] = {a, b};
    for (int net = 0; net < 2; net++) {
        traces->files[net] = fopen(names[net], "r");
        if (!traces->files[net]) return false;
        read_frame(traces->files[net], &traces->next[net]);
    }
    return true;
}

/* The network of the next frame, of A on equal times; -1 if there is none. It stands in traces->next[net]. */
static int next_network(const struct traces *traces) {
    const struct frame *a = &traces->next[0], *b = &traces->next[1];
    if (!a->is_there && !b->is_there) return -1;
    return !a->is_there || (b->is_there && b->time < a->time);
}

/* What a file has, up to `size` octets. */
static size_t read_file(const char *name, uint8_t *to, size_t size) {
    FILE *file = fopen(name, "rb");
    if (!file) return 0;
    size_t len = fread(to, 1, size, file);
    fclose(file);
    return len;
}
#endif
