/* Processes that are started beside the program, and signals. */
#ifndef WINDER_PROCESS_H
#define WINDER_PROCESS_H

#include <stddef.h>
#include <sys/types.h>

/* Room that is zero, and that the program shares with the processes that it starts, until it ends. It fails where there is none. */
void *share(size_t bytes);

/* Sets what a signal does; `flags` as sigaction has them. */
void take_signal(int number, void (*handler)(int), int flags);

/* Starts a process. Answers its number, 0 in the process itself, and -1 where there can be none. In it Ctrl-C is left to the program, and
 * when the program is gone it ends, also in the middle of a call: it looks once a second, by SIGALRM. */
pid_t start_process(void);

/* As waitpid, but no signal ends the waiting. */
pid_t wait_for_process(pid_t process, int *status, int options);

#endif
