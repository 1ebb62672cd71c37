/* A machine, and the library's calls on it. */
#ifndef COMMON_MACHINE_H
#define COMMON_MACHINE_H

#include "tac.h"

struct machine {
    uint8_t memory[TAC_MEMORY_BYTES];
    uint8_t image[TAC_IMAGE_BYTES];
};

/* The report of a run. */
struct report {
    unsigned ending, number, steps;
    uint32_t states;
    unsigned pc, flag;
};

/* The fault record. */
struct fault {
    unsigned cause, missed, violation;
};

/* A word in bytes, upper byte first. */
unsigned word_in(const uint8_t *bytes, int at);
void put_word(uint8_t *bytes, int at, unsigned word);

/* Zero but FLAG 0040h. */
void machine_reset(struct machine *machine);

/* The answer of tac_view: a machine from outside is good if nothing is refused. No field of it is used before that is known. */
uint64_t machine_test(const struct machine *machine);

struct report machine_run(struct machine *machine, unsigned allowance);

/* The answer of tac_card to commands of a card, with a report of no bytes: a run among them is refused for that, and changes nothing. */
uint64_t machine_commands(struct machine *machine, const uint8_t *bytes, size_t length);

#define MILLISECONDS_MOST 0xFFFF

/* Lets milliseconds pass, up to MILLISECONDS_MOST. */
void machine_pass(struct machine *machine, unsigned milliseconds);

/* The answer of tac_fault: the machine keeps its cause. */
struct fault machine_fault(const struct machine *machine);

#endif
