/* The winder's command line. */
#ifndef WINDER_OPTIONS_H
#define WINDER_OPTIONS_H

#include "option.h"
#include "range.h"

enum number { NUMBER_TURNS, NUMBER_NOTCHES, NUMBER_RUNDOWN, NUMBER_TICKS, NUMBER_STEPS, NUMBER_INPUT, NUMBER_PROCESSES, NUMBERS };

/* What is written, in this order. */
enum written { WRITTEN_CSV, WRITTEN_SVG, WRITTEN_MACHINE, WRITTENS };

struct options {
    const char *file;
    const char *written[WRITTENS]; /* the names of the files, or NULL; - is standard output */
    const char *words[NUMBERS];    /* as given, or NULL */
    struct range numbers[NUMBERS]; /* without --vary from a number to itself */
    struct loads loads;
    bool plot, vary;
};

/* Takes the options, and fails where one is bad or missing. False where only help is asked for. */
bool take_options(struct options *options, int argc, char **argv);

/* Whether a file to write is standard output. */
bool is_standard(const char *name);

void print_help(void);

#endif
