/* What the programs here share: an answer that is wanted of a call, and the configuration and the frame that they begin with. */
#ifndef WANTED_H
#define WANTED_H
#include "yelunnavi.h"
#include <stdio.h>
#include <stdlib.h>

#define WANT(code, call)                                                                  \
    do {                                                                                  \
        uint32_t found = (call);                                                          \
        if (found != YELUNNAVI_##code) {                                                  \
            fprintf(stderr, "line %d: %s, and not %u\n", __LINE__, #code, (unsigned)found); \
            exit(1);                                                                      \
        }                                                                                 \
    } while (0)
#define TEXT(text) (const uint8_t *)(text), sizeof(text) - 1

#define LINK_17 \
    "[[link]]\nvl = 17\nskew_max_us = 1000\nreassembly_us = 50000\n" \
    "[[link.port]]\nname = \"pos\"\nkind = \"sampling\"\naddress = \"224.224.0.17\"\nudp = 5000\nrefresh_us = 20000\n" \
    "[[link.port]]\nname = \"nav\"\nkind = \"queuing\"\naddress = \"224.224.0.17\"\nudp = 5002\nmax = 64\ndepth = 2\n"
static const char CONFIG[] = LINK_17;
/* A sample of 17 octets for `pos`. */
static const uint8_t FRAME[60] = {3, 0, 0, 0, 0, 17, 2, 0, 0, 0, 1, 32, 8, 0, 69, 0, 0, 45, 0, 1, 0, 0, 1, 17, 205, 204, 10, 1, 1, 1,
    224, 224, 0, 17, 19, 137, 19, 136, 0, 25, 0, 0, 1, 2, 3};
#endif
