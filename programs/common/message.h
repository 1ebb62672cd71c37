/* What programs say where something goes wrong: a line on standard error, or a line `why` for one who goes on. */
#ifndef COMMON_MESSAGE_H
#define COMMON_MESSAGE_H

#include <stdbool.h>

/* The bytes of a `why`. */
#define WHY_BYTES 512

/* The compiler holds the arguments from `first` on against the format, the argument `at`, as for printf. */
#ifdef __GNUC__
#define LIKE_PRINTF(at, first) __attribute__((format(printf, at, first)))
#else
#define LIKE_PRINTF(at, first)
#endif

/* The program's name, with which its lines on standard error begin. Each program defines its own. */
extern const char program_name[];

/* Prints a line on standard error and ends the program with status 2. */
LIKE_PRINTF(1, 2) void fail(const char *format, ...);

/* Writes a `why`, which is cut where it is too long. Answers false. */
LIKE_PRINTF(2, 3) bool because(char *why, const char *format, ...);

/* A refusal of the library in words. */
const char *refusal_words(unsigned refusal);

/* Lets what was printed go out. Where it can't, end_output says why. */
void flush_output(void);

/* Fails if what was printed can't be written. Before another file is opened, which could get the number of an output that is closed. */
void end_output(void);

#endif
