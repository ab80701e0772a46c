/*
 * The settings of a receiver, as a configuration has them: docs/FORMATS.md states the keys and the order of the faults.
 */
#ifndef SETTINGS_H
#define SETTINGS_H
#include "receiver.h"

/* Makes a receiver of a configuration. One that is refused ends the program. */
void read_settings(Receiver *receiver, const u8 *text, size_t len);

#endif
