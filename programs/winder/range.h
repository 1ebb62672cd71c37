/* Ranges of numbers. */
#ifndef WINDER_RANGE_H
#define WINDER_RANGE_H

#include <stdbool.h>
#include <stdint.h>

/* From `first` to `last` in steps of `by`, which is at least 1. */
struct range {
    uint32_t first, last, by;
};

/* `text` as a range within low to high: N, A-B or A-B:STEP. Where it is none, `why` says why. */
bool take_range(const char *text, uint32_t low, uint32_t high, struct range *range, char *why);

/* The bytes of a range as text. */
#define RANGE_BYTES 36

/* It as text, as take_range takes it. Answers `text`. */
const char *range_text(const struct range *range, char *text);

/* How many numbers it has. */
uint32_t range_count(const struct range *range);

#endif
