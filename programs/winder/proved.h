/* The proved simulation, tac_wind, and whether the ticks done one by one agree with it. */
#ifndef WINDER_PROVED_H
#define WINDER_PROVED_H

#include "ticks.h"

#include <stdbool.h>

struct proved {
    uint64_t answer;
    struct machine machine; /* after the last tick */
    uint8_t places[TAC_WIND_TICKS * TAC_WIND_PLACE_BYTES];
};

/* Calls tac_wind on a copy of the start. */
void wind_proved(struct proved *proved, const struct machine *start, const struct settings *settings);

/* Whether both have the same places, first tick over, image and memory. The settings of the call had the ticks done. If not, `why` says
 * what differs. */
bool same_as_proved(const struct winding *winding, const struct proved *proved, char *why);

#endif
