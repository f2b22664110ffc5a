/* The list of bad blocks that a block device keeps beside its image: docs/BLOCK_DEVICE.md. This file is plain C, and not proved. */
#define _GNU_SOURCE
#define _FILE_OFFSET_BITS 64
#include "flash.h"
#include "image_format.h"
#include <errno.h>
#include <fcntl.h>
#include <stdio.h>
#include <stdlib.h>
#include <string.h>
#include <unistd.h>

/* The line that says that too few blocks are good. */
static const char WORN[] = "worn";

/* A line: 1, or 0 if it is none of such a list. Where no block is asked for, each number is one. */
static int read_line(const char *line, uint32_t blocks, uint8_t *bad, int *is_worn)
{
    char *end;
    unsigned long block = strtoul(line, &end, 10);
    if (strcmp(line, WORN) == 0)
        return *is_worn = 1;
    if (*end != 0 || line[0] < '0' || line[0] > '9' || (bad && block >= blocks))
        return 0;
    if (bad)
        bad[block] = 1;
    return 1;
}

static int read_lines(FILE *file, uint32_t blocks, uint8_t *bad, int *is_worn)
{
    char line[64];
    int has_lines = 0;
    for (; fscanf(file, "%63s", line) == 1; has_lines = 1)
        if (!read_line(line, blocks, bad, is_worn))
            return -1;
    return ferror(file) ? -1 : has_lines;
}

int mtl_bad_blocks(const char *image, uint32_t blocks, uint8_t *bad, int *is_worn)
{
    size_t room = strlen(image) + sizeof ".bad";
    char *name = malloc(room);
    *is_worn = 0;
    if (!name)
        return -1;
    snprintf(name, room, "%s.bad", image);
    int fd = mtl_open_file(name, O_RDONLY), error = errno;
    free(name);
    FILE *file = fd >= 0 ? fdopen(fd, "r") : NULL;
    if (!file) {
        if (fd >= 0)
            close(fd);
        return fd < 0 && (error == ENOENT || error == ENAMETOOLONG) ? 0 : -1;
    }
    int result = read_lines(file, blocks, bad, is_worn);
    fclose(file);
    return result;
}
