/* What simulations start with, by the names that were given: a card or a machine, loaded words, an input byte. */
#ifndef WINDER_ORIGIN_H
#define WINDER_ORIGIN_H

#include "option.h"
#include "range.h"

#include <stdio.h>

struct origin {
    const char *file;
    const struct loads *loads;
    bool has_input; /* whether one was given */
    struct range input;
};

/* A line for the file, and one for each file of words. */
void print_origin(const struct origin *origin);

/* The line of the input byte, or of a range of them, if one was given. */
void print_input(const struct origin *origin);

/* The same in one line of XML, cut where it has more than so many characters. */
void write_origin(FILE *file, const struct origin *origin, unsigned most);

#endif
