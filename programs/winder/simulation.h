/* A simulation: tick by tick, and beside it by tac_wind in a process of its own, which has to agree. */
#ifndef WINDER_SIMULATION_H
#define WINDER_SIMULATION_H

#include "ticks.h"

/* Simulates from the start on. Ctrl-C ends it after the tick that is under way, so that fewer ticks are done than were set, but at least
 * one; then these are checked. Ctrl-C while the program only waits for tac_wind ends that: `checked` stays false. The program fails where
 * tac_wind differs. */
void simulate(struct winding *winding, const struct machine *start, const struct settings *settings);

#endif
