/* What is in an image: a look that writes nothing. */
#ifndef CHECK_IMAGE_H
#define CHECK_IMAGE_H

#include <stdint.h>

/* Shows what is in an image, and checks each page of it. With an endurance that isn't 0 it shows the rest of the device's life too. Returns a status. */
int check_image(const char *path, uint32_t endurance);

#endif
