/* CRC-32C by the processor's instruction, or else by the proved function. */
#ifndef CRC_H
#define CRC_H

#include <stddef.h>
#include <stdint.h>

uint32_t mtl_crc(uint32_t crc, const uint8_t *bytes, size_t count);

#endif
