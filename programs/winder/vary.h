/* A campaign: a simulation for each of many settings, on all processors. */
#ifndef WINDER_VARY_H
#define WINDER_VARY_H

#include "machine.h"
#include "origin.h"

/* The settings of a campaign, and its processes, at most. */
#define CAMPAIGN_MOST 1000000
#define PROCESSES_MOST 1024

/* What a campaign varies. The input bytes are those that were given, or the image's at the start; bit 0 is cleared in any case. */
struct campaign {
    struct range turns, notches, rundown, steps;
    uint32_t ticks;
    const struct origin *origin;
    unsigned processes; /* 0: as many as there are processors */
};

/* Runs a simulation for each setting, side by side, lists those in which the label was passed, and gives the exit status. The list is cut
 * where standard output is a terminal. Ctrl-C ends it
 * with what was tried so far, and the status goes by that. The program fails where the settings are too many or a process dies. */
int vary(const struct machine *machine, const struct campaign *campaign);

#endif
