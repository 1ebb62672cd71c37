/* The notches standing over the ticks, as letters in a terminal. */
#ifndef WINDER_PLOT_H
#define WINDER_PLOT_H

#include "ticks.h"

#include <stdbool.h>

#define PLOT_COLUMNS_LEAST 40

/* The columns of the terminal that standard output is: by COLUMNS, else by the terminal, else 80. */
unsigned terminal_columns(void);

/* Whether colour is wanted there: it is a terminal, and NO_COLOR is unset or empty. */
bool terminal_colour(void);

/* Prints a plot so many columns wide, but at least PLOT_COLUMNS_LEAST: # up to the label, ! over it. A column shows the most standing within
 * its ticks. */
void print_plot(const struct winding *winding, unsigned columns, bool colour);

#endif
