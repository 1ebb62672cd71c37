/* The commands set, each a command of a card. */
#ifndef VIEWER_SET_H
#define VIEWER_SET_H

#include "machine.h"

#include <stdbool.h>

#define SET_WORDS "byte ADDR B, G0.. FP SSP USP PC FLAG W, entry K BITS, mmu on|off, lines W, input B"

/* Sets by words as "byte 1200 FF" or "G0 1234". If they are bad, or the library refuses, `why` says why. */
bool set_by_words(struct machine *machine, int count, char *const *words, char *why);

#endif
