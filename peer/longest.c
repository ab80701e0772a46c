/*
 * The longest call: see longest.h.
 */
#define _DEFAULT_SOURCE
#include "longest.h"

#include <pthread.h>
#include <stdio.h>
#include <stdlib.h>
#include <time.h>

enum { LONG = 2500, BETWEEN_TAKES = 1024 };

/* ---- partitions on threads of their own: one for each place of readers, and one that takes */

static const Side *of_threads;
static _Atomic bool is_over;

static void *read_on(void *place)
{
    static _Thread_local u8 out[MOST_SAMPLE];
    u64 last[MOST_LINKS * MOST_PORTS] = {0};
    while (!atomic_load_explicit(&is_over, memory_order_relaxed))
        for (size_t port = 0; port < count_of_ports(); port++) {
            if (!is_sampling(port))
                continue;
            Found found = read_at(of_threads, port, (unsigned)(uintptr_t)place, out);
            if (found.number < last[port])
                stop("a reader found an older message");
            last[port] = found.number;
        }
    return NULL;
}

static void *take_on(void *unused)
{
    while (!atomic_load_explicit(&is_over, memory_order_relaxed))
        (void)take_all(of_threads);
    return unused;
}

static pthread_t threads[MOST_READERS + 1];

static void begin_threads(const Side *side)
{
    if (!side->is_library && side->form == PLAIN)
        stop("nobody may read a port of the form plain meanwhile");
    of_threads = side;
    atomic_store(&is_over, false);
    bool all = pthread_create(&threads[side->readers], NULL, take_on, NULL) == 0;
    for (unsigned i = 0; i < side->readers; i++)
        all &= pthread_create(&threads[i], NULL, read_on, (void *)(uintptr_t)i) == 0;
    if (!all)
        stop("no thread");
}

static void end_threads(const Side *side)
{
    atomic_store(&is_over, true);
    for (unsigned i = 0; i <= side->readers; i++)
        pthread_join(threads[i], NULL);
}

/* ---- the calls */

static u64 now(void)
{
    struct timespec time;
    clock_gettime(CLOCK_MONOTONIC, &time);
    return (u64)time.tv_sec * 1000000000u + (u64)time.tv_nsec;
}

static u32 time_of(const Side *side, const Arrived *arrived, u64 later)
{
    u64 begun = now();
    by_side(side, arrived, later);
    u64 took = now() - begun;
    return took > UINT32_MAX ? UINT32_MAX : (u32)took;
}

/* All frames in all rounds. Of each call the lesser time is kept. Returns the longest call. */
static u32 pass(const Side *side, const Calls *calls, u32 *least)
{
    u32 longest = 0;
    u64 span = calls->frames[calls->len - 1].frame.time + 1000000;
    for (unsigned round = 0; round < calls->rounds; round++)
        for (size_t i = 0; i < calls->len; i++, least++) {
            u32 took = time_of(side, &calls->frames[i], round * span);
            longest = took > longest ? took : longest;
            *least = took < *least ? took : *least;
            if (!calls->beside && i % BETWEEN_TAKES == 0)
                (void)take_all(side);
        }
    return longest;
}

void print_longest(const Side *side, const Calls *calls)
{
    size_t all = calls->len * calls->rounds, above = 0;
    u32 *least = take_memory(all * sizeof *least), longest = 0, longest_least = 0;
    u64 sum = 0;
    memset(least, 0xFF, all * sizeof *least);
    for (unsigned i = 0; i < calls->passes; i++) {
        open_side(side, calls->touched);
        if (calls->beside)
            begin_threads(side);
        u32 found = pass(side, calls, least);
        longest = found > longest ? found : longest;
        if (calls->beside)
            end_threads(side);
    }
    for (size_t i = 0; i < all; i++) {
        sum += least[i];
        above += least[i] > LONG;
        longest_least = least[i] > longest_least ? least[i] : longest_least;
    }
    free(least);
    printf("%.1f %u %zu %u\n", (double)sum / (double)all, longest_least, above, longest);
}
