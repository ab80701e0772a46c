/*
 * Traces: docs/FORMATS.md states what they are, and their faults.
 *
 * A trace is read by blocks, and its text isn't kept. Where a fault is found, the rest is read to its end before the
 * fault is told, since a read that fails comes first. So a trace that never ends is never answered.
 */
#ifndef TRACES_H
#define TRACES_H
#include "base.h"

typedef struct {
    u64 time;
    const u8 *octets;
    u32 len;
} Frame;

typedef struct {
    Frame *frames;
    size_t len;
} Trace;

/* Has to be called once before a trace is read. */
void prepare_traces(void);
/* Reads the trace of network 'A' or 'B'. One that is refused ends the program. */
Trace read_trace(char net, int file);
_Noreturn void trace_not_read(char net);

#endif
