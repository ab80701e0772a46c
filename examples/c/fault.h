/* The fault of a configuration as the examples print it. */
#ifndef FAULT_H
#define FAULT_H
#include "yelunnavi_words.h"

#include <inttypes.h>
#include <stdio.h>

/* A line on the standard error, after the name of the program: the fault as afdx_play words it, where it stands, and what is
   allowed. */
static void show_fault(const char *program, const struct yelunnavi_fault *fault) {
    const char *key = yelunnavi_key_word(fault->key);
    fprintf(stderr, "%s: %s%s%s", program, yelunnavi_fault_before(fault->fault), key, yelunnavi_fault_after(fault->fault));
    if (fault->level >= YELUNNAVI_LEVEL_LINK) fprintf(stderr, ", link %zu", fault->link);
    if (fault->level == YELUNNAVI_LEVEL_PORT) fprintf(stderr, ", port %zu", fault->port);
    if (fault->line) fprintf(stderr, ", line %" PRIu64, fault->line);
    if (fault->key) fprintf(stderr, " (%s: %s)", key, yelunnavi_key_allowed(fault->key));
    fputc('\n', stderr);
}
#endif
