/* A machine at work: steps, in the runs of a card as long as one is open. */
#ifndef VIEWER_SESSION_H
#define VIEWER_SESSION_H

#include "feed.h"
#include "option.h"

struct session {
    struct machine machine;
    struct machine before; /* the machine before the step, for the trace */
    struct feed feed;
    bool in_run; /* a run of the card is begun and not over */
    bool trace;
    const char *file, *script; /* what is read, or NULL */
    const struct loads *loads;
};

/* What ends a motion before its limit. */
enum until { UNTIL_LIMIT, UNTIL_ADDRESS, UNTIL_ENTRY, UNTIL_CHANGE };

/* Steps up to a limit or an earlier end, a halt, a loss or the end of the card, and says how many and why. `address` is PC's, or the
 * physical one of the byte. */
void session_move(struct session *session, enum until until, unsigned address, unsigned long limit);

/* Whether the machine may be saved under a name: not over a card, loaded words or commands that are read, but over the machine that was
 * opened. If not, `why` says why. */
bool session_may_save(const struct session *session, const char *name, char *why);

/* The next commands of the card, at most so many; a run that is begun is one of them. */
void session_feed(struct session *session, unsigned long commands);

#endif
