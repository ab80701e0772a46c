/* Counts the growths of the program that this library is loaded into before it starts (LD_PRELOAD): calls of malloc and
   realloc from the program's own code. The variable GROWTH_MARKS has sizes in octets, with commas between them: a growth
   of the first one begins the count, one of the next ends a part of it and begins another, and so on. The file named by
   GROWTH_REPORT gets a line `OCTETS` for each growth that is counted, a line `mark` at each mark, and at each mark a line
   `peak KIB`: the greatest resident memory until then. */
#define _GNU_SOURCE
#include <fcntl.h>
#include <link.h>
#include <stdint.h>
#include <stdio.h>
#include <stdlib.h>
#include <string.h>
#include <unistd.h>

#include "../checks/parts/own_code.h"

void *__libc_malloc(size_t);
void *__libc_realloc(void *, size_t);

static size_t marks[16];
static int many, at, report = -1;

__attribute__((constructor)) static void begin(void)
{
    const char *sizes = getenv("GROWTH_MARKS"), *file = getenv("GROWTH_REPORT");
    dl_iterate_phdr(find_program, NULL);
    if (file == NULL || sizes == NULL)
        return;
    report = open(file, O_WRONLY | O_TRUNC | O_CREAT, 0600);
    for (char *rest; many < 16 && *sizes != '\0'; sizes = *rest == ',' ? rest + 1 : rest)
        marks[many++] = strtoul(sizes, &rest, 10);
}

/* The greatest resident memory of the process so far, in KiB. */
static long peak(void)
{
    char text[4096], *found;
    int status = open("/proc/self/status", O_RDONLY);
    ssize_t len = read(status, text, sizeof text - 1);
    close(status);
    text[len < 0 ? 0 : len] = '\0';
    found = strstr(text, "VmHWM:");
    return found == NULL ? 0 : strtol(found + 6, NULL, 10);
}

static void note(void *caller, size_t octets)
{
    char line[64];
    if (report < 0 || (uintptr_t)caller < first || (uintptr_t)caller >= end)
        return;
    int is_mark = at < many && octets == marks[at];
    if (!is_mark && at == 0)
        return;
    at += is_mark;
    int len = is_mark ? snprintf(line, sizeof line, "peak %ld\nmark\n", peak()) : snprintf(line, sizeof line, "%zu\n", octets);
    if (write(report, line, (size_t)len) != len)
        _exit(99);
}

void *malloc(size_t octets)
{
    note(__builtin_return_address(0), octets);
    return __libc_malloc(octets);
}

void *realloc(void *memory, size_t octets)
{
    note(__builtin_return_address(0), octets);
    return __libc_realloc(memory, octets);
}
