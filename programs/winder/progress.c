#define _POSIX_C_SOURCE 200809L

#include "progress.h"

#include "process.h"

#include <errno.h>
#include <signal.h>
#include <stdarg.h>
#include <stdio.h>
#include <string.h>
#include <sys/ioctl.h>
#include <time.h>
#include <unistd.h>

#define FIRST_AFTER 0.5 /* seconds */
#define AGAIN_AFTER 0.1
#define LINE_BYTES 160
#define CLEAR_BEHIND "\033[K" /* the rest of the line */
#define CLEAR_LINE "\r" CLEAR_BEHIND

static volatile sig_atomic_t stopped, shown;
static bool terminal;
static struct timespec since; /* the begin, or the last line */

/* The second time it ends the program, when the handler is done. */
static void stop(int number)
{
    int before = errno;
    if (stopped != 0) {
        if (shown != 0 && write(STDERR_FILENO, CLEAR_LINE, sizeof CLEAR_LINE - 1) < 0)
            shown = 0;
        take_signal(SIGINT, SIG_DFL, 0);
        raise(number);
    }
    stopped = 1;
    errno = before;
}

/* The columns of the terminal. */
static size_t columns(void)
{
    struct winsize size;
    return ioctl(STDERR_FILENO, TIOCGWINSZ, &size) == 0 && size.ws_col > 0 ? size.ws_col : 80;
}

void progress_begin(void)
{
    stopped = 0;
    shown = 0;
    terminal = isatty(STDERR_FILENO) == 1;
    clock_gettime(CLOCK_MONOTONIC, &since);
    take_signal(SIGINT, stop, 0);
}

bool progress_stopped(void) { return stopped != 0; }

bool progress_due(void)
{
    struct timespec now;
    if (!terminal)
        return false;
    clock_gettime(CLOCK_MONOTONIC, &now);
    double passed = (double)(now.tv_sec - since.tv_sec) + (double)(now.tv_nsec - since.tv_nsec) / 1e9;
    return passed >= (shown != 0 ? AGAIN_AFTER : FIRST_AFTER);
}

void progress_show(const char *format, ...)
{
    char line[LINE_BYTES];
    size_t width = columns(), most = width > 2 ? width - 2 : 0; /* with the blank behind it, the last column stays free */
    va_list arguments;
    va_start(arguments, format);
    vsnprintf(line, sizeof line, format, arguments);
    va_end(arguments);
    if (most < strlen(line))
        line[most] = '\0';
    fprintf(stderr, "\r%s " CLEAR_BEHIND, line);
    fflush(stderr);
    shown = 1;
    clock_gettime(CLOCK_MONOTONIC, &since);
}

void progress_checking(uint32_t done, bool fulfilled)
{
    if (shown != 0 || (terminal && fulfilled))
        progress_show("checking %lu ticks; Ctrl-C ends the check", (unsigned long)done);
    if (fulfilled)
        stopped = 0;
}

void progress_end(void)
{
    if (shown != 0)
        fputs(CLEAR_LINE, stderr);
    shown = 0;
    take_signal(SIGINT, SIG_DFL, 0);
}
