#include "proved.h"

#include "message.h"

#include <string.h>

void wind_proved(struct proved *proved, const struct machine *start, const struct settings *settings)
{
    struct machine *machine = &proved->machine;
    *machine = *start;
    proved->answer =
        tac_wind(machine->memory, sizeof machine->memory, machine->image, sizeof machine->image, settings->turns, settings->notches,
                 settings->rundown, settings->ticks, settings->steps, proved->places, settings->ticks * TAC_WIND_PLACE_BYTES);
}

bool same_as_proved(const struct winding *winding, const struct proved *proved, char *why)
{
    unsigned refusal = TAC_REFUSAL(proved->answer);
    if (refusal != TAC_GOOD)
        return because(why, "tac_wind is refused %u: %s", refusal, refusal_words(refusal));
    for (uint32_t k = 0; k < winding->done; k++) {
        unsigned place = word_in(proved->places + k * TAC_WIND_PLACE_BYTES, 0);
        if (place != winding->ticks[k].standing)
            return because(why, "after tick %lu %u notches stand by tac_wind, %u by the ticks", (unsigned long)k + 1, place,
                           winding->ticks[k].standing);
    }
    if (TAC_FIRST_OVER(proved->answer) != winding->first_over)
        return because(why, "the first tick over is %lu by tac_wind, %lu by the ticks", (unsigned long)TAC_FIRST_OVER(proved->answer),
                       (unsigned long)winding->first_over);
    if (memcmp(proved->machine.image, winding->machine.image, TAC_IMAGE_BYTES) != 0)
        return because(why, "the image after tac_wind is not the one after the ticks");
    if (memcmp(proved->machine.memory, winding->machine.memory, TAC_MEMORY_BYTES) != 0)
        return because(why, "memory after tac_wind is not that after the ticks");
    return true;
}
