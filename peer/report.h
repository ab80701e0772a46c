/*
 * The report that follows the lines of the frames.
 */
#ifndef REPORT_H
#define REPORT_H
#include "receiver.h"

/* Adds the report for this time to the output. */
void report(const Receiver *receiver, u64 at);

#endif
