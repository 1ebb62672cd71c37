/* What the viewer reads in a machine: parts of the image, and memory by an address. Nothing here changes it. */
#ifndef VIEWER_LOOK_H
#define VIEWER_LOOK_H

#include "machine.h"

/* How an address is taken: as the machine would now, as a user program would (by the TLB if the MMU is on), or as it is. */
enum space { SPACE_NOW, SPACE_LOGICAL, SPACE_PHYSICAL };

unsigned machine_pc(const struct machine *machine);

/* An entry of the TLB, all its 24 bits. */
uint32_t machine_entry(const struct machine *machine, int entry);

/* The bytes of Timer0 or Timer1. */
const uint8_t *machine_timer(const struct machine *machine, int timer);

/* The entry that serves the page of an address, or -1. */
int machine_serving(const struct machine *machine, unsigned address);

/* The physical address, or -1 where no entry serves. The image is only read, so no R-bit is set. */
long machine_translate(const struct machine *machine, enum space space, unsigned address);

/* The byte at an address, or -1 where no entry serves. */
int machine_byte(const struct machine *machine, enum space space, unsigned address);

/* The word at an even address, or -1; also -1 at an odd one. */
long machine_word(const struct machine *machine, enum space space, unsigned address);

#endif
