/* CRC-32C by the instructions of SSE 4.2 and PCLMULQDQ, where the processor has them. This file is plain C, and not proved; the function that it falls
 * back to is. */
#include "crc.h"
#include "mintlintel_durable.h"
#include <string.h>

#if defined __x86_64__ && defined __GNUC__

#include <wmmintrin.h>

/* Three runs of so many words are taken side by side, since the instruction gives its result only after three cycles. */
enum { RUN_WORDS = 170, RUN_BYTES = 8 * RUN_WORDS };
/* x to the number of bits of one run and of two, less 33, modulo the polynomial, with its bits reversed. */
enum { OVER_ONE_RUN = 0x3f70cc6f, OVER_TWO_RUNS = 0x5aa1f3cf };

static uint64_t word_at(const uint8_t *bytes)
{
    uint64_t word;
    memcpy(&word, bytes, sizeof word);
    return word;
}

/* The remainder once as many zeros follow as the factor stands for. */
__attribute__((target("sse4.2,pclmul"))) static uint64_t moved(uint64_t remainder, int factor)
{
    __m128i product = _mm_clmulepi64_si128(_mm_cvtsi64_si128((long long)remainder), _mm_cvtsi32_si128(factor), 0);
    return __builtin_ia32_crc32di(0, (uint64_t)_mm_cvtsi128_si64(product));
}

__attribute__((target("sse4.2,pclmul"))) static uint32_t by_instruction(uint32_t crc, const uint8_t *bytes, size_t count)
{
    uint64_t remainder = ~crc;
    for (; count >= 3 * RUN_BYTES; bytes += 3 * RUN_BYTES, count -= 3 * RUN_BYTES) {
        uint64_t second = 0, third = 0;
        for (const uint8_t *word = bytes; word < bytes + RUN_BYTES; word += 8) {
            remainder = __builtin_ia32_crc32di(remainder, word_at(word));
            second = __builtin_ia32_crc32di(second, word_at(word + RUN_BYTES));
            third = __builtin_ia32_crc32di(third, word_at(word + 2 * RUN_BYTES));
        }
        remainder = moved(remainder, OVER_TWO_RUNS) ^ moved(second, OVER_ONE_RUN) ^ third;
    }
    for (; count >= 8; bytes += 8, count -= 8)
        remainder = __builtin_ia32_crc32di(remainder, word_at(bytes));
    uint32_t rest = (uint32_t)remainder;
    for (; count > 0; bytes++, count--)
        rest = __builtin_ia32_crc32qi(rest, *bytes);
    return ~rest;
}

uint32_t mtl_crc(uint32_t crc, const uint8_t *bytes, size_t count)
{
    int has_instructions = __builtin_cpu_supports("sse4.2") && __builtin_cpu_supports("pclmul");
    return has_instructions ? by_instruction(crc, bytes, count) : mintlintel_crc32c(crc, bytes, count);
}

#else

uint32_t mtl_crc(uint32_t crc, const uint8_t *bytes, size_t count)
{
    return mintlintel_crc32c(crc, bytes, count);
}

#endif
