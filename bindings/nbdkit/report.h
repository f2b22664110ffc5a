// What a drive tells of itself by SMART, as a text in JSON.
#ifndef NBDKIT_REPORT_H
#define NBDKIT_REPORT_H

#include <stddef.h>

#include "device.h"
#include "layers.h"

// The report of this moment, padded with spaces to whole pages of 4096 bytes, since some clients read whole blocks only. NULL if there
// is no memory; who has it frees it.
char *report_make(struct device *device, size_t *size);
char *report_of_image(struct layers *layers, size_t *size);

#endif
