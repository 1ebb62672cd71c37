/* A machine in words and letters. Nothing here changes it. */
#ifndef VIEWER_SHOW_H
#define VIEWER_SHOW_H

#include "look.h"

/* Registers, FLAG, MMU and TLB, lines, bytes, timers, condition, fault record, and the instructions round PC. */
void show_machine(const struct machine *machine);

/* The fault record, in a line. */
void show_fault(const struct machine *machine);

/* Input and output byte, pending lines, and a line for each timer. */
void show_timers(const struct machine *machine);

void show_memory(const struct machine *machine, enum space space, unsigned address, unsigned bytes);
void show_instructions(const struct machine *machine, enum space space, unsigned address, unsigned count);

/* The instruction at PC, in a line. */
void show_next(const struct machine *machine);

/* A report as a line of a card's listing. */
void show_report(const struct report *report);

/* A step in a line: PC, words, instruction, states, what changed; and a line for what it entered. */
void show_step(const struct machine *before, const struct machine *after, const struct report *report);

#endif
