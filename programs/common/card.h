/* A bench card. */
#ifndef COMMON_CARD_H
#define COMMON_CARD_H

#include "machine.h"

struct card {
    uint8_t bytes[TAC_CARD_BYTES + 1]; /* one more than the library takes, so that it refuses a longer card */
    size_t length;
};

/* What the library says to the whole card: refused as by tac_card, or good. No run of it is done. */
uint64_t card_test(const struct card *card);

/* Carries out a card that was tested, its runs too. */
void card_carry_out(const struct card *card, struct machine *machine);

#endif
