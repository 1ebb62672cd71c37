/* Faults in words. */
#ifndef VIEWER_FAULT_H
#define VIEWER_FAULT_H

#include "machine.h"

#include <stddef.h>

#define WORDS_BYTES 160

/* What a number entered says, as "11: no write right at 1210h, entry 0", by the record as it stands. For 11 there is a cause. The text has
 * WORDS_BYTES. */
void entry_words(const struct machine *machine, unsigned number, char *text, size_t room);

/* The cause and the violation address of a record, as "cause 1, no write right at 1210h, entry 0", or "no cause, violation address 1210h".
 * The text has WORDS_BYTES. */
void cause_words(const struct machine *machine, struct fault fault, char *text, size_t room);

#endif
