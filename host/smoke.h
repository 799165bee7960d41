/*
 * What the smoke tests share: expected values, and slices that are lent with guard bytes around them.
 *
 * Expected values are written from documents 01 and 02 by hand. After each call every slice is looked at: after a refusal none
 * has changed, else at most the one that the call may write, and guards never.
 */
#ifndef SMOKE_H
#define SMOKE_H

#include <stdio.h>
#include <string.h>

#include "rpr.h"

/* The guard is odd, so that no slice is aligned. */
enum { SLICES = 4, NONE = SLICES, GUARD = 33, MOST_LENT = 2048, WHOLE = GUARD + MOST_LENT + GUARD };

/* A slice begins GUARD bytes into its memory; `before` is the memory as the last call left it. */
static struct slice {
    uint8_t memory[WHOLE];
    uint8_t before[WHOLE];
    size_t length;
} slices[SLICES];

/* A slice as a call takes it: pointer and length. */
#define LENT(slice) (slices[slice].memory + GUARD), (slices[slice].length)

/* Bytes as lend takes them: pointer and length. */
#define BYTES(...) (const uint8_t[]){__VA_ARGS__}, sizeof((const uint8_t[]){__VA_ARGS__})

static int failures;

static inline void expect(const char *what, uint64_t got, uint64_t want) {
    if (got == want) return;
    printf("%s: %llu, not %llu\n", what, (unsigned long long)got, (unsigned long long)want);
    failures++;
}

/* Lends a copy of the bytes; all other memory of the slice is guard. */
static inline void lend(int slice, const void *bytes, size_t length) {
    uint8_t *memory = slices[slice].memory;
    for (size_t i = 0; i < WHOLE; i++) memory[i] = (uint8_t)(0xa5 ^ i * 29);
    memcpy(memory + GUARD, bytes, length);
    memcpy(slices[slice].before, memory, WHOLE);
    slices[slice].length = length;
}

/* Lends bytes that all have one value. */
static inline void lend_filled(int slice, uint8_t value, size_t length) {
    uint8_t bytes[MOST_LENT];
    memset(bytes, value, sizeof bytes);
    lend(slice, bytes, length);
}

/* After a call: its answer is the one wanted. Only the slice `written` may differ, and only if it was carried out. */
static inline void answered(const char *what, uint64_t got, int written, uint64_t want) {
    expect(what, got, want);
    for (int i = 0; i < SLICES; i++) {
        struct slice *slice = &slices[i];
        int may_differ = i == written && rpr_refusal_of(want) == RPR_CARRIED_OUT;
        size_t end = GUARD + (may_differ ? slice->length : 0);
        if (memcmp(slice->memory, slice->before, GUARD) != 0 ||
            memcmp(slice->memory + end, slice->before + end, WHOLE - end) != 0) {
            printf("%s: changed what it may not\n", what);
            failures++;
        }
        memcpy(slice->before, slice->memory, WHOLE);
    }
}

/* The last line, and the exit status. */
static inline int told(const char *good) {
    if (failures == 0) puts(good);
    return failures == 0 ? 0 : 1;
}

#endif
