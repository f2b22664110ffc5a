/* There is no heap: the device has the memory that it was opened in. The library names an allocator for those who open a device without memory, and these
 * are never called. Leave this file out where your C library has them. */
#include "board.h"
#include "log.h"
#include <stdlib.h>

static void *refuse(void)
{
    say("WRONG: the heap is called\n");
    board_end(3);
}

void *malloc(size_t bytes) { return (void)bytes, refuse(); }
void *calloc(size_t count, size_t bytes) { return (void)count, (void)bytes, refuse(); }
void *realloc(void *at, size_t bytes) { return (void)at, (void)bytes, refuse(); }
void free(void *at) { (void)at, refuse(); }
