/*
 * What all files of the peer share: short types, faults that end the program, and memory.
 */
#ifndef BASE_H
#define BASE_H
#include <stdbool.h>
#include <stddef.h>
#include <stdint.h>

typedef uint8_t u8;
typedef uint16_t u16;
typedef uint32_t u32;
typedef uint64_t u64;

#define LIKELY(x) __builtin_expect(!!(x), 1)
#define UNLIKELY(x) __builtin_expect(!!(x), 0)

/* Exit statuses, as docs/FORMATS.md has them. */
enum { ST_OK = 0, ST_REFUSED = 1, ST_LINE = 2, ST_IO = 3, ST_MEMORY = 4 };

/* Writes to standard error, as far as that can be written. */
void tell(const char *text);
/* Ends the program with a line on standard error, which this is the rest of. */
_Noreturn void fail(int status, const char *rest);
_Noreturn void out_of_memory(void);

void *take_memory(size_t size);
void *grow_memory(void *memory, size_t size);

/* Whether the arena advises huge pages for its pieces: yes, if nobody says no before the first call. */
extern bool huge_pages;

/* The arena: memory that lives to the end of the run, taken from large pieces. */
extern u8 *arena_at, *arena_end;
void *arena_slow(size_t size);
void *arena_zero(size_t size);

static inline size_t arena_rounded(size_t size)
{
    return (size + 7) & ~(size_t)7;
}

static inline void *arena(size_t size)
{
    size_t rounded = arena_rounded(size);
    if (LIKELY(arena_at && (size_t)(arena_end - arena_at) >= rounded)) {
        void *found = arena_at;
        arena_at += rounded;
        return found;
    }
    return arena_slow(size);
}

/* Keeps the first octets of what the arena gave last. */
static inline void arena_cut(u8 *last, size_t size)
{
    arena_at = last + arena_rounded(size);
}

#endif
