// Cold data: pages that clients hardly write. A block of them keeps all its pages live, so no broom drains it, and its erases would be left when those
// of the other blocks are used up. So one of its pages is written anew, with what it holds: then the block has a dead page, and can be drained.
#ifndef NBDKIT_COLD_H
#define NBDKIT_COLD_H

#include <stdint.h>

#include "brooms.h"

// Looks for a block of cold data, and writes one of its pages anew: 1, and `until` says when the program ends; or 0 if it found none, or no page is
// free. It waits for nothing.
int cold_loosen(struct broom *broom, uint64_t *until);

#endif
