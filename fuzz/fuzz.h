/* What the fuzz programs share: the bytes that the fuzzer makes, taken one after another, and the buffers that are lent to a call. Each is
 * a block of its own with exactly its length, so that the address sanitizer stops a touch outside it. */
#ifndef FUZZ_H
#define FUZZ_H

#include "dukthari.h"
#include <stdio.h>
#include <stdlib.h>
#include <string.h>

#define CHECK(fact) ((fact) ? (void)0 : (printf("FAILED: %s:%d: %s\n", __FILE__, __LINE__, #fact), fflush(stdout), abort()))

/* the bytes that are left of the input */
static const uint8_t *input;
static size_t left;

/* The next byte; 0 where there is none. */
static inline uint8_t next(void) {
    if (left == 0)
        return 0;
    left--;
    return *input++;
}

static inline uint32_t next16(void) {
    uint32_t low = next();
    return low | (uint32_t)next() << 8;
}

/* A block of so many bytes, copied from others, or 77 in each where those are NULL. */
static inline uint8_t *lent(const uint8_t *from, size_t count) {
    uint8_t *block = (uint8_t *)malloc(count);
    if (count == 0)
        return block;
    CHECK(block != NULL);
    if (from != NULL)
        memcpy(block, from, count);
    else
        memset(block, 77, count);
    return block;
}

static inline int same(const uint8_t *a, const uint8_t *b, size_t count) { return count == 0 || memcmp(a, b, count) == 0; }

/* Whether so many bytes are as lent(NULL, ..) made them. */
static inline int untouched(const uint8_t *block, size_t count) {
    size_t k;
    for (k = 0; k < count; k++)
        if (block[k] != 77)
            return 0;
    return 1;
}

static inline int in_range(uint32_t w, uint32_t h, uint32_t d) { return w >= 2 && w <= 16 && h >= 2 && h <= 16 && d >= 1 && d <= 16; }

#endif
