// The times of a part, from a file as the tools of this repository take it: TOML, with one key on each line.
#ifndef NBDKIT_PART_H
#define NBDKIT_PART_H

#include <stdint.h>

// In nanoseconds. A part without a copyback copies by a read and a program.
struct part {
    uint64_t read, program, copyback, erase, transfer;
    int has_copyback;
};

// 0, or -1 with an error reported.
int part_read(const char *file, struct part *part);

#endif
