/*
 * The memory of a pass: see pass_pool.h.
 */
#define _DEFAULT_SOURCE
#include "pass_pool.h"
#include "yelunnavi.h"

#include <string.h>
#include <sys/mman.h>

#ifndef POOL_OCTETS
#define POOL_OCTETS ((size_t)256 << 20)
#endif

static u8 *pool;
static bool is_touched;

void begin_pool(bool touched)
{
    if (!pool) {
        pool = mmap(NULL, POOL_OCTETS, PROT_READ | PROT_WRITE, MAP_PRIVATE | MAP_ANONYMOUS, -1, 0);
        if (pool == MAP_FAILED)
            out_of_memory();
    }
    if (!touched)
        (void)madvise(pool, POOL_OCTETS, MADV_DONTNEED);
    else if (!is_touched)
        memset(pool, 0xFF, POOL_OCTETS);
    is_touched = touched;
    arena_at = pool;
    arena_end = pool + POOL_OCTETS;
}

/* ---- what the library calls */

struct rattle_tried rattle_alloc(size_t octets, size_t align)
{
    (void)align;
    size_t rounded = (octets + 15) & ~(size_t)15;
    arena_at = (u8 *)(((uintptr_t)arena_at + 15) & ~(uintptr_t)15);
    if (rounded < octets || rounded > (size_t)(arena_end - arena_at))
        return (struct rattle_tried){false, pool};
    void *found = arena_at;
    arena_at += rounded;
    return (struct rattle_tried){true, found};
}

struct rattle_tried rattle_realloc(void *at, size_t kept, size_t octets, size_t align)
{
    struct rattle_tried made = rattle_alloc(octets, align);
    if (made.ok)
        memcpy(made.at, at, kept < octets ? kept : octets);
    return made;
}

void rattle_dealloc(void *at)
{
    (void)at;
}
