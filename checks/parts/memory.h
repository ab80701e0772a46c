/* The three functions for memory, over malloc: requests are counted, and so are blocks that weren't given back; the request with the
   number `refused` is refused. */
#ifndef MEMORY_H
#define MEMORY_H
#include "yelunnavi.h"
#include <stdatomic.h>
#include <stdlib.h>

static atomic_ulong requests, refused, blocks;

static struct rattle_tried answered(void *at, void *instead) { return (struct rattle_tried){at != NULL, at ? at : instead}; }

struct rattle_tried rattle_alloc(size_t octets, size_t align) {
    (void)align;
    void *at = ++requests == refused ? NULL : malloc(octets ? octets : 1);
    blocks += at != NULL;
    return answered(at, (void *)&blocks);
}

struct rattle_tried rattle_realloc(void *at, size_t kept, size_t octets, size_t align) {
    (void)kept, (void)align;
    return answered(++requests == refused ? NULL : realloc(at, octets ? octets : 1), at);
}

void rattle_dealloc(void *at) {
    blocks--;
    free(at);
}
#endif
