/* Memory for yelunnavi_receiver_open from a static pool, in the place of malloc. Nothing is given back: a program opens its
   receiver once, and keeps it; any thread may close, one at a time opens. Each page that is given is written to at once: an
   operating system may bring a page in only when it is first touched, and then that is done with at the opening, and not in
   the midst of a receive. */
#include "yelunnavi.h"
#include <string.h>

#ifndef POOL_OCTETS
#define POOL_OCTETS (16u << 20)
#endif

/* How many requests there were. */
unsigned long pool_requests;
static _Alignas(16) unsigned char pool[POOL_OCTETS];
static size_t used;

/* Writes to each page of these octets; a page has 4,096 at least. */
static void touch(volatile unsigned char *at, size_t octets) {
    for (size_t k = 0; k < octets; k += 4096) at[k] = 0;
    if (octets) at[octets - 1] = 0;
}

struct rattle_tried rattle_alloc(size_t octets, size_t align) {
    (void)align;
    pool_requests++;
    if (octets > sizeof pool - used) return (struct rattle_tried){false, pool};
    void *at = pool + used;
    size_t taken = (octets + 15) / 16 * 16;
    used = taken > sizeof pool - used ? sizeof pool : used + taken;
    touch(at, octets);
    return (struct rattle_tried){true, at};
}

struct rattle_tried rattle_realloc(void *at, size_t kept, size_t octets, size_t align) {
    struct rattle_tried made = rattle_alloc(octets, align);
    if (made.ok) memcpy(made.at, at, kept < octets ? kept : octets);
    return made;
}

void rattle_dealloc(void *at) { (void)at; }
