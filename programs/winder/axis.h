/* The axes of plot and picture. */
#ifndef WINDER_AXIS_H
#define WINDER_AXIS_H

#include <stdint.h>

/* The distance of marks on an axis of some length: the least of 1, 2, 5, 10, 20, 50... that gives no more than so many. */
uint32_t axis_step(uint32_t length, uint32_t marks);

#endif
