#define _POSIX_C_SOURCE 200809L

#include "simulation.h"

#include "message.h"
#include "process.h"
#include "progress.h"
#include "proved.h"

#include <errno.h>
#include <poll.h>
#include <signal.h>
#include <stdio.h>
#include <string.h>
#include <sys/wait.h>
#include <unistd.h>

#define LOOK_EVERY 100 /* milliseconds from one look for a wish to stop to the next */

/* tac_wind in a process of its own. */
struct check {
    pid_t process;
    int working; /* the end of a pipe that the process holds open, and nobody writes to */
};

static struct check start_check(struct proved *proved, const struct machine *start, const struct settings *settings)
{
    int ends[2];
    if (pipe(ends) != 0)
        fail("no pipe for tac_wind: %s", strerror(errno));
    struct check check = {start_process(), ends[0]};
    if (check.process < 0)
        fail("no process for tac_wind: %s", strerror(errno));
    if (check.process == 0) {
        wind_proved(proved, start, settings);
        _exit(0);
    }
    close(ends[1]);
    return check;
}

/* Ends it, whether it has come to its end or not. Answers its status, as waitpid gives it. */
static int break_check(struct check *check)
{
    int status = 0;
    kill(check->process, SIGKILL);
    if (wait_for_process(check->process, &status, 0) < 0)
        status = -1;
    close(check->working);
    return status;
}

/* Waits until it has come to its end, or the user stops it, and says whether it has: by then its line of progress is gone. */
static bool await_check(struct check *check)
{
    struct pollfd working = {check->working, POLLIN, 0};
    int status = 0;
    while (!progress_stopped() && poll(&working, 1, LOOK_EVERY) <= 0) /* 1 where the process has ended */
        ;
    bool stopped = progress_stopped();
    if (!stopped && wait_for_process(check->process, &status, 0) < 0)
        status = -1;
    if (stopped)
        break_check(check);
    else
        close(check->working);
    progress_end();
    if (status != 0)
        fail("tac_wind has not come to its end");
    return !stopped;
}

/* The ticks one by one, at least one. */
static void do_ticks(struct winding *winding)
{
    uint32_t ticks = winding->settings.ticks;
    do {
        winding_tick(winding);
        if (progress_due())
            progress_show("tick %lu of %lu, %lu %%; Ctrl-C stops here", (unsigned long)winding->done, (unsigned long)ticks,
                          100ul * winding->done / ticks);
    } while (winding->done < ticks && !progress_stopped());
}

void simulate(struct winding *winding, const struct machine *start, const struct settings *settings)
{
    char why[WHY_BYTES];
    struct proved *proved = share(sizeof *proved);
    struct settings done = *settings;
    progress_begin();
    struct check check = start_check(proved, start, settings);
    winding_begin(winding, start, settings);
    do_ticks(winding);
    progress_checking(winding->done, winding->done < settings->ticks);
    if (winding->done < settings->ticks) {
        break_check(&check);
        done.ticks = winding->done;
        check = start_check(proved, start, &done);
    }
    winding->checked = await_check(&check);
    if (winding->checked && !same_as_proved(winding, proved, why))
        fail("THE SIMULATION IS WRONG: %s", why);
}
