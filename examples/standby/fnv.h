/* The hash FNV-1a, of 64 bits. */
#ifndef FNV_H
#define FNV_H

#include <stddef.h>
#include <stdint.h>

static const uint64_t FNV_START = 0xcbf29ce484222325u;

static inline uint64_t fnv_add(uint64_t hash, const void *bytes, size_t length) {
    const uint8_t *at = bytes;
    for (size_t i = 0; i < length; i++) hash = (hash ^ at[i]) * 0x100000001b3u;
    return hash;
}

#endif
