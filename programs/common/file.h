/* The files that programs open and write. Where one of these does not go well, `why` holds a line that says why, with the file's name.
 *
 * A card is raw bytes (.card), or text (.hex): pairs of hexadecimal digits with blanks between them, and comments from # to the end of a
 * line. A machine (.machine) is an image of TAC_IMAGE_BYTES and then TAC_MEMORY_BYTES of memory, nothing else. Bare words are words upper
 * byte first. */
#ifndef COMMON_FILE_H
#define COMMON_FILE_H

#include "card.h"
#include "machine.h"
#include "message.h"

#include <stdio.h>

enum opened { OPENED_NOTHING, OPENED_CARD, OPENED_MACHINE };

/* A card or a machine, by the name's ending. One that the library refuses is not opened. */
enum opened open_file(const char *name, struct machine *machine, struct card *card, char *why);

/* Whether a name has an ending, as .machine. */
bool ends_in(const char *name, const char *ending);

/* Whether two names are those of one file. One that is not there is known by its folder and its name in it. */
bool same_file(const char *one, const char *other);

/* Bare words, to memory from a physical address on. The name of a card or a machine is none of words. */
bool load_words(const char *name, unsigned address, struct machine *machine, char *why);

/* Whether a file can be opened for writing. It is left as it is: one that is not there is made and removed again. Of a pipe or a device, and
 * of a link to nothing, only writing itself shows it: one who reads a pipe would take the test for all there is. */
bool test_writing(const char *name, char *why);

/* What `write` writes of `what`. Where that fails, what is there of it is said to be cut short. */
bool write_file(const char *name, void (*write)(FILE *file, const void *what), const void *what, char *why);

/* To a name by which the machine can be opened again: one that ends in .machine. */
bool test_machine_name(const char *name, char *why);
bool save_machine(const char *name, const struct machine *machine, char *why);

#endif
