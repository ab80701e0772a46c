/*
 * Faults and memory: see base.h.
 */
#define _DEFAULT_SOURCE
#include "base.h"

#include <stdio.h>
#include <stdlib.h>
#include <string.h>
#include <sys/mman.h>
#include <unistd.h>

void tell(const char *text)
{
    size_t left = strlen(text);
    while (left > 0) {
        ssize_t written = write(2, text, left);
        if (written <= 0)
            return;
        text += written;
        left -= (size_t)written;
    }
}

_Noreturn void fail(int status, const char *rest)
{
    char line[256];
    snprintf(line, sizeof line, "afdx_play: %s\n", rest);
    tell(line);
    exit(status);
}

_Noreturn void out_of_memory(void)
{
    fail(ST_MEMORY, "out of memory");
}

void *take_memory(size_t size)
{
    void *memory = malloc(size ? size : 1);
    if (!memory)
        out_of_memory();
    return memory;
}

void *grow_memory(void *memory, size_t size)
{
    memory = realloc(memory, size ? size : 1);
    if (!memory)
        out_of_memory();
    return memory;
}

/* A piece of the arena. They form a list, so that none looks lost. */
typedef struct Piece {
    struct Piece *before;
} Piece;

bool huge_pages = true;
u8 *arena_at, *arena_end;
static Piece *newest;

/* The first piece is small; the later ones are whole huge pages. */
static Piece *new_piece(size_t wanted, size_t *size)
{
    size_t huge = (size_t)2 << 20;
    *size = newest ? 2 * huge : (size_t)256 << 10;
    if (wanted > *size)
        *size = (wanted + huge - 1) / huge * huge;
    Piece *piece = newest ? aligned_alloc(huge, *size) : malloc(*size);
    if (!piece)
        out_of_memory();
#ifdef MADV_HUGEPAGE
    if (newest && huge_pages)
        (void)madvise(piece, *size, MADV_HUGEPAGE);
#endif
    piece->before = newest;
    newest = piece;
    return piece;
}

void *arena_slow(size_t size)
{
    size_t piece_size, wanted = size + sizeof(Piece) + 24;
    if (wanted < size)
        out_of_memory();
    Piece *piece = new_piece(wanted, &piece_size);
    u8 *begin = (u8 *)piece + ((sizeof(Piece) + 15) & ~(size_t)15);
    arena_at = begin + arena_rounded(size);
    arena_end = (u8 *)piece + piece_size;
    return begin;
}

void *arena_zero(size_t size)
{
    void *found = arena(size);
    memset(found, 0, size);
    return found;
}
