/* A card that is fed to a machine command by command, a run of it step by step. */
#ifndef VIEWER_FEED_H
#define VIEWER_FEED_H

#include "card.h"
#include "machine.h"

#include <stdbool.h>

struct feed {
    struct card card;
    size_t at;         /* the next command */
    bool open;         /* something may be left of the card */
    unsigned left;     /* allowance left of the run */
    struct report run; /* what the run has done */
};

enum fed { FED_END, FED_COMMAND, FED_RUN };

/* The next command: done, or begun if it is a run. The card was tested. */
enum fed feed_command(struct feed *feed, struct machine *machine);

/* Whether the run is over. */
bool feed_over(const struct feed *feed);

/* One step of the run, which is not over. Answers the report of the step alone. */
struct report feed_step(struct feed *feed, struct machine *machine);

#endif
