/* What WebAssembly lacks: the product of two 128-bit numbers, which clang calls for; and a heap, which nothing calls. */
#include <stdint.h>
#include <stdlib.h>

void *malloc(size_t bytes) { (void)bytes; __builtin_trap(); }
void *calloc(size_t count, size_t bytes) { (void)count, (void)bytes; __builtin_trap(); }
void *realloc(void *at, size_t bytes) { (void)at, (void)bytes; __builtin_trap(); }
void free(void *at) { (void)at; __builtin_trap(); }

__int128 __multi3(__int128 a, __int128 b);

__int128 __multi3(__int128 a, __int128 b)
{
    unsigned __int128 x = (unsigned __int128)a, y = (unsigned __int128)b;
    uint64_t x_low = (uint64_t)x, x_high = (uint64_t)(x >> 64), y_low = (uint64_t)y, y_high = (uint64_t)(y >> 64);
    uint64_t low = (uint64_t)(uint32_t)x_low * (uint32_t)y_low, middle = (x_low >> 32) * (uint32_t)y_low + (low >> 32);
    uint64_t other = (uint64_t)(uint32_t)x_low * (y_low >> 32) + (uint32_t)middle;
    uint64_t high = (x_low >> 32) * (y_low >> 32) + (middle >> 32) + (other >> 32) + x_low * y_high + x_high * y_low;
    return (__int128)((unsigned __int128)high << 64 | (other << 32 | (uint32_t)low));
}
