/* Counts the octets that the program keeps into which this library is loaded before it starts (LD_PRELOAD): those that it asked
   for and hasn't given back. A request of a size in KEPT_MARKS, with commas between them, has a line `kept OCTETS` written into
   the file named by KEPT_REPORT first. Each block has its size before it, which isn't counted. */
#define _GNU_SOURCE
#include <fcntl.h>
#include <stdio.h>
#include <stdlib.h>
#include <string.h>
#include <unistd.h>

enum { BEFORE = 16 };

void *__libc_malloc(size_t);
void *__libc_realloc(void *, size_t);
void __libc_free(void *);

static size_t marks[16], kept;
static int many, report = -1;

__attribute__((constructor)) static void begin(void)
{
    const char *sizes = getenv("KEPT_MARKS"), *file = getenv("KEPT_REPORT");
    if (file == NULL || sizes == NULL)
        return;
    report = open(file, O_WRONLY | O_TRUNC | O_CREAT, 0600);
    for (char *rest; many < 16 && *sizes != '\0'; sizes = *rest == ',' ? rest + 1 : rest)
        marks[many++] = strtoul(sizes, &rest, 10);
}

static void tell_at_mark(size_t octets)
{
    char line[64];
    for (int k = 0; k < many; k++) {
        int len = marks[k] == octets ? snprintf(line, sizeof line, "kept %zu\n", kept) : 0;
        if (report >= 0 && write(report, line, (size_t)len) != len)
            _exit(99);
    }
}

static void *with_size(char *block, size_t octets)
{
    if (block == NULL)
        return NULL;
    *(size_t *)block = octets;
    kept += octets;
    return block + BEFORE;
}

void *malloc(size_t octets)
{
    tell_at_mark(octets);
    return with_size(__libc_malloc(octets + BEFORE), octets);
}

void *calloc(size_t many_of, size_t size)
{
    void *made = malloc(many_of * size);
    return made == NULL ? NULL : memset(made, 0, many_of * size);
}

void *realloc(void *at, size_t octets)
{
    if (at == NULL)
        return malloc(octets);
    char *block = (char *)at - BEFORE;
    size_t before = *(size_t *)block;
    char *moved = __libc_realloc(block, octets + BEFORE);
    if (moved != NULL)
        kept -= before;
    return with_size(moved, octets);
}

void free(void *at)
{
    if (at == NULL)
        return;
    char *block = (char *)at - BEFORE;
    kept -= *(size_t *)block;
    __libc_free(block);
}
