/*
 * The words that the player is called with.
 */
#ifndef COMMAND_LINE_H
#define COMMAND_LINE_H
#include "base.h"

typedef struct {
    const char *config, *a, *b;
    const char *at_word; /* NULL if the time of the report isn't given */
    u64 at;
    bool no_history, no_huge_pages;
} Words;

/* Reads the words after the program's name. Words that are refused end the program, and so does a request for help. */
Words read_words(int count, char **words);

#endif
