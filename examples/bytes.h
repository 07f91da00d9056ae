/*
 * Little-endian numbers in bytes.
 */
#ifndef EXAMPLES_BYTES_H
#define EXAMPLES_BYTES_H

#include <stddef.h>
#include <stdint.h>

static inline uint64_t little(const uint8_t *at, size_t bytes)
{
    uint64_t x = 0;
    for (size_t i = bytes; i-- > 0;)
        x = x << 8 | at[i];
    return x;
}

static inline void put_little(uint8_t *at, size_t bytes, uint64_t x)
{
    for (size_t i = 0; i < bytes; i++)
        at[i] = (uint8_t)(x >> 8 * i);
}

#endif
