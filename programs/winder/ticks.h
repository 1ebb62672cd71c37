/* A winder, tick by tick, on runs of the machine: what stands on the barrel, and for each tick what the motor and the input byte were. */
#ifndef WINDER_TICKS_H
#define WINDER_TICKS_H

#include "machine.h"

#include <stdbool.h>

struct settings {
    uint32_t turns;   /* the label's maximum turns */
    uint32_t notches; /* notches per turn */
    uint32_t rundown; /* every so many ticks the train takes a notch */
    uint32_t ticks;
    uint32_t steps; /* steps of the machine in a tick */
};

struct tick {
    uint16_t standing; /* notches, after it */
    uint8_t motor;     /* 1 if the output byte wound a notch */
    uint8_t input;     /* the input byte in it */
};

struct winding {
    struct settings settings;
    struct machine machine; /* after the ticks done */
    uint32_t done;
    uint32_t first_over; /* the first tick, from 1, with more standing than the label allows, or 0 */
    uint32_t rest;       /* the tick in which the machine was halted or lost; 0 where that was before, or it is running */
    bool checked;        /* tac_wind has given the same */
    struct tick ticks[TAC_WIND_TICKS];
};

/* What the ticks done come to. */
struct summary {
    uint32_t wound, taken; /* notches */
    uint32_t most;         /* standing */
    uint32_t most_at;      /* the first tick with them, from 1; 0 where none stood */
    bool reached;          /* the label */
    uint32_t end;          /* standing after the last tick */
    uint32_t over;         /* ticks with more standing than the label allows */
};

/* The notches that the label allows. */
uint32_t label_notches(const struct settings *settings);

/* A barrel on which no notch stands. */
void winding_begin(struct winding *winding, const struct machine *start, const struct settings *settings);

/* The next tick. */
void winding_tick(struct winding *winding);

/* Of at least one tick. */
struct summary winding_summary(const struct winding *winding);

#endif
