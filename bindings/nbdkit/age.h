// Use before the first client: the device is written as a device in use was, the same by each run with the same seed.
#ifndef NBDKIT_AGE_H
#define NBDKIT_AGE_H

#include "device.h"

// Writes as many times its size as options->age says: the sectors in order, and then at random. All of them read as zeros then. It tells what was
// done, also if no block is left before that.
void age(struct device *device);

#endif
