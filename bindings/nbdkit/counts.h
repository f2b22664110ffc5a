// The counts of a device, as a file: a line for each count, and then one for each block.
#ifndef NBDKIT_COUNTS_H
#define NBDKIT_COUNTS_H

#include "device.h"

// From here on SIGUSR1 does no harm; one that comes before the thread has started writes nothing. 0, or -1 with an error reported.
int counts_mind_signals(void);

// Starts the thread that writes the file at each SIGUSR1: 0, or -1 with an error reported.
int counts_start(struct device *device);

// Ends that thread.
void counts_stop(struct device *device);

// Writes the file, and replaces the old one in one step: 0, or -1 with an error reported.
int counts_write(struct device *device);

#endif
