/* What a simulation came to, in lines: a listing, and a table of its ticks. */
#ifndef WINDER_LISTING_H
#define WINDER_LISTING_H

#include "origin.h"
#include "ticks.h"

#include <stdio.h>

/* A simulation, and what it started with. */
struct outcome {
    const struct origin *origin;
    const struct winding *winding;
};

/* A fact a line, its name and its value. */
void print_listing(const struct outcome *outcome);

/* The first tick over the label, or that there is none: whether the label was reached, and how many stood where it was not. */
void write_verdict(FILE *file, const struct winding *winding, const struct summary *summary);

/* A line for each tick of a struct outcome, under a line of names: tick,standing,motor,input. */
void write_csv(FILE *file, const void *outcome);

#endif
