/* The load of the motor: the busiest window of a run of tick records, of a run shorter than the window, and of no records; widths that are
 * refused. */
#include "tac.h"

#include <stdio.h>

/* A record for each tick. Only TAC_RECORD_ON is on: the 7 counts as off, like a 0. */
static const uint8_t records[] = {1, 1, 0, 0, 1, 0, 1, 1, 7, 1, 0, 0};

static void show(size_t ticks, uint32_t width)
{
    uint64_t answer = tac_busiest(records, ticks, width);
    printf("%u ticks, windows of %u: ", (unsigned)ticks, (unsigned)width);
    if (TAC_REFUSAL(answer) != TAC_GOOD)
        printf("refused: %u\n", TAC_REFUSAL(answer));
    else
        printf("at most %u on\n", (unsigned)TAC_RECORDS_ON(answer));
}

int main(void)
{
    show(sizeof records, 2);
    show(sizeof records, 4);
    show(sizeof records, sizeof records);
    show(3, 4); /* shorter than the width: a single window */
    show(0, 4);
    show(sizeof records, 0);
    show(sizeof records, TAC_WINDOW_RECORDS + 1);
    return 0;
}
