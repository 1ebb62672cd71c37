/* The viewer's commands. Addresses, bytes and words are hexadecimal, counts and milliseconds decimal. */
#ifndef VIEWER_COMMAND_H
#define VIEWER_COMMAND_H

#include "session.h"

enum done { DONE_GOOD, DONE_BAD, DONE_QUIT };

/* Does a line: a command and its words, or nothing. The line is cut into its words. If it is bad, `why` (WHY_BYTES) says why. */
enum done do_line(struct session *session, char *line, char *why);

void print_commands(void);

#endif
