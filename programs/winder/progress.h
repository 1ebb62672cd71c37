/* A long work: a line on standard error that says how far it is, where that is a terminal, and Ctrl-C, which stops it. */
#ifndef WINDER_PROGRESS_H
#define WINDER_PROGRESS_H

#include "message.h"

#include <stdbool.h>
#include <stdint.h>

/* From here on the first Ctrl-C is a wish to stop; another one ends the program, without the line. */
void progress_begin(void);

bool progress_stopped(void);

/* Whether it is time for a line: there is a terminal, and the work takes longer than half a second, or the last line is a tenth old. */
bool progress_due(void);

/* Puts a line in the place of the last one, cut to the terminal's width. */
LIKE_PRINTF(1, 2) void progress_show(const char *format, ...);

/* Says that the ticks done are checked, where the user waits. Where the wish to stop has ended the ticks, it is fulfilled, and the next
 * Ctrl-C is another one. */
void progress_checking(uint32_t done, bool fulfilled);

/* Clears the line. Ctrl-C ends the program again. */
void progress_end(void);

#endif
