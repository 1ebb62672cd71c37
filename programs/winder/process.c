/* MAP_ANONYMOUS is in no standard of C or POSIX up to 2017. */
#define _POSIX_C_SOURCE 200809L
#define _DEFAULT_SOURCE

#include "process.h"

#include "message.h"

#include <errno.h>
#include <signal.h>
#include <string.h>
#include <sys/mman.h>
#include <sys/wait.h>
#include <unistd.h>

static pid_t parent;

void *share(size_t bytes)
{
    void *room = mmap(NULL, bytes, PROT_READ | PROT_WRITE, MAP_SHARED | MAP_ANONYMOUS, -1, 0);
    if (room == MAP_FAILED)
        fail("no memory to share: %s", strerror(errno));
    return room;
}

void take_signal(int number, void (*handler)(int), int flags)
{
    struct sigaction action;
    memset(&action, 0, sizeof action);
    sigemptyset(&action.sa_mask);
    action.sa_handler = handler;
    action.sa_flags = flags;
    sigaction(number, &action, NULL);
}

static void look_at_parent(int number)
{
    (void)number;
    if (getppid() != parent)
        _exit(2);
    alarm(1);
}

/* The process goes on without Ctrl-C, and ends with its parent, whatever signals were ignored or blocked before the program. */
static void live_with_parent(void)
{
    sigset_t looks;
    sigemptyset(&looks);
    sigaddset(&looks, SIGALRM);
    take_signal(SIGINT, SIG_IGN, 0);
    take_signal(SIGALRM, look_at_parent, SA_RESTART);
    sigprocmask(SIG_UNBLOCK, &looks, NULL);
    alarm(1);
}

pid_t start_process(void)
{
    parent = getpid();
    take_signal(SIGCHLD, SIG_DFL, 0); /* where it is ignored there is nothing to wait for */
    pid_t process = fork();
    if (process == 0)
        live_with_parent();
    return process;
}

pid_t wait_for_process(pid_t process, int *status, int options)
{
    pid_t ended;
    while ((ended = waitpid(process, status, options)) < 0 && errno == EINTR)
        ;
    return ended;
}
