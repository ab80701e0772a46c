/*
 * What each single call takes, and the longest of them.
 */
#ifndef LONGEST_H
#define LONGEST_H
#include "sides.h"

typedef struct {
    const Arrived *frames;
    size_t len;
    unsigned rounds; /* how often all frames come, each time later */
    unsigned passes;
    bool touched;
    bool beside; /* whether partitions read and take all the while, on threads of their own */
} Calls;

/* Prints nanoseconds: the mean and the longest call, where of each call the least of all passes counts, and how many took
   more than 2.5 microseconds; and the longest call of all passes. The clock is in each of them. */
void print_longest(const Side *side, const Calls *calls);

#endif
