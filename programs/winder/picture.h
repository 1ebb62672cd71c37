/* The notches standing over the ticks, as a picture. */
#ifndef WINDER_PICTURE_H
#define WINDER_PICTURE_H

#include "listing.h"

#include <stdio.h>

/* Writes an SVG picture of a struct outcome. Where ticks are many not each of them has a point, but each peak has. */
void write_svg(FILE *file, const void *outcome);

#endif
