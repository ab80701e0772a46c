/* Refuses one growth of the program that this library is loaded into before it starts (LD_PRELOAD): the one with the
   number in the variable GROWTH, counted from 1 over all threads; or, if GROWTH_MARK is set, each growth after the
   first that asks for just that many octets; or, if GROWTH_MOST is set too, of those after it each with which more octets
   than that are asked for in all; or, if GROWTH_AFTER is set too, the first of those after it that another thread asks for.
   A growth is a call of malloc or realloc from the program's own code; it counts with all octets that it asks for. To the
   file named by GROWTH_REPORT it adds an `r` for each growth that it refuses, an `m` at the mark, and an `x` once more
   growths than GROWTH_AFTER follow the one that it refused. */
#define _GNU_SOURCE
#include <fcntl.h>
#include <link.h>
#include <pthread.h>
#include <stdatomic.h>
#include <stdint.h>
#include <stdlib.h>
#include <unistd.h>

#include "own_code.h"

void *__libc_malloc(size_t);
void *__libc_realloc(void *, size_t);

static long wanted, after = -1;
static size_t mark, most;
static int report = -1;
static atomic_long asked, followed;
static atomic_size_t octets_asked;
static atomic_int marked, is_one_refused;
static pthread_t thread_of_mark;

__attribute__((constructor)) static void begin(void)
{
    const char *number = getenv("GROWTH"), *octets = getenv("GROWTH_MARK"), *file = getenv("GROWTH_REPORT");
    const char *in_all = getenv("GROWTH_MOST"), *following = getenv("GROWTH_AFTER");
    dl_iterate_phdr(find_program, NULL);
    if (file != NULL)
        report = open(file, O_WRONLY | O_APPEND | O_CREAT, 0600);
    if (octets != NULL)
        mark = strtoul(octets, NULL, 10);
    if (in_all != NULL)
        most = strtoul(in_all, NULL, 10);
    if (following != NULL)
        after = strtol(following, NULL, 10);
    if (number != NULL)
        wanted = strtol(number, NULL, 10);
}

static void tell(const char *letter)
{
    if (write(report, letter, 1) != 1)
        _exit(99);
}

/* Whether a growth after the mark is the first that another thread asks for. Counts those that follow it. */
static int is_first_beside(void)
{
    if (!pthread_equal(pthread_self(), thread_of_mark) && !atomic_exchange(&is_one_refused, 1))
        return 1;
    if (atomic_load(&is_one_refused) && atomic_fetch_add(&followed, 1) == after)
        tell("x");
    return 0;
}

/* Whether a growth after the mark is one too many. */
static int is_past_most(size_t octets)
{
    if (after >= 0)
        return is_first_beside();
    return most == 0 || atomic_fetch_add(&octets_asked, octets) + octets > most;
}

/* From here on growths are those after the mark. */
static void begin_after_mark(void)
{
    thread_of_mark = pthread_self();
    atomic_store(&marked, 1);
    tell("m");
}

/* Whether this growth, which the code at `caller` asks for, is refused. */
static int is_refused(void *caller, size_t octets)
{
    if ((uintptr_t)caller < first || (uintptr_t)caller >= end)
        return 0;
    int refused = mark != 0 ? atomic_load(&marked) && is_past_most(octets) : atomic_fetch_add(&asked, 1) + 1 == wanted;
    if (mark != 0 && octets == mark && !atomic_load(&marked))
        begin_after_mark();
    if (refused)
        tell("r");
    return refused;
}

void *malloc(size_t octets)
{
    return is_refused(__builtin_return_address(0), octets) ? NULL : __libc_malloc(octets);
}

void *realloc(void *memory, size_t octets)
{
    return is_refused(__builtin_return_address(0), octets) ? NULL : __libc_realloc(memory, octets);
}
