/* What the command lines of programs share. Where a word is missing, or it or its file is bad, the program ends with a line that says so. */
#ifndef COMMON_OPTION_H
#define COMMON_OPTION_H

#include "card.h"

#include <stdbool.h>

#define LOADS_MOST 16

/* The bare words that --load names, with their addresses. */
struct loads {
    struct {
        unsigned address;
        const char *file;
    } files[LOADS_MOST];
    int count;
};

/* What is missing behind an option that names a file. */
#define NAME_MISSING "the name of its file is missing"

/* Whether a word asks for help. */
bool is_help(const char *word);

/* The word behind an option that is given once, to `place`, which is NULL before. Where there is none, `missing` says what is missing.
 * Another option is none; ./--name is a file with such a name. */
void take_operand(const char **place, const char *missing, int argc, char **argv, int *at);

/* An option of one word, that is given once. */
void take_flag(bool *place, const char *option);

/* The words behind --load, which may be given several times: an address and a file. */
void take_load(struct loads *loads, int argc, char **argv, int *at);

/* A word that is no option, or none by itself: the file to open, at most one. `operands` are the options that take a word behind them, up to
 * NULL. */
void take_file(const char **file, const char *word, const char *const *operands);

/* The machine to start with: that of the file, if it is not NULL and no card, and the loaded words, in their order. Says whether the file is
 * a card, which is `card` then. */
bool open_all(const char *file, const struct loads *loads, struct machine *machine, struct card *card);

/* Whether a name to write is not that of the file, which may be NULL, nor of loaded words. If it is, `why` says so. */
bool test_unread(const char *name, const char *file, const struct loads *loads, char *why);

/* For a file that is written at the end: before the work. */
void must_be_writable(const char *name);

#endif
