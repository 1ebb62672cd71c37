/* Null pointers with length 0: each call answers, and leaves the other buffers, as with a buffer of no bytes. */
#include "tac.h"

#include <stdio.h>
#include <string.h>

enum { RUN, CARD, VIEW, FAULT, WIND, CALLS };
enum { MEMORY = 1, IMAGE = 2, CARD_BYTES = 4, REPORT = 8, PLACES = 16, ALL = 32 };

struct buffers {
    uint8_t memory[TAC_MEMORY_BYTES], image[TAC_IMAGE_BYTES], card[3], report[TAC_REPORT_BYTES], places[2 * TAC_WIND_PLACE_BYTES];
};

static uint8_t nothing[1];

/* A call in which the buffers of `empty` have length 0, and a null pointer if `null`. */
static uint64_t call(int which, struct buffers *lent, int empty, int null)
{
    uint8_t *none = null ? NULL : nothing;
    uint8_t *memory = empty & MEMORY ? none : lent->memory, *image = empty & IMAGE ? none : lent->image;
    uint8_t *card = empty & CARD_BYTES ? none : lent->card, *report = empty & REPORT ? none : lent->report;
    uint8_t *places = empty & PLACES ? none : lent->places;
    size_t memory_len = empty & MEMORY ? 0 : sizeof lent->memory, image_len = empty & IMAGE ? 0 : sizeof lent->image;
    size_t card_len = empty & CARD_BYTES ? 0 : sizeof lent->card, report_len = empty & REPORT ? 0 : sizeof lent->report;
    size_t places_len = empty & PLACES ? 0 : sizeof lent->places;
    if (which == RUN)
        return tac_run(memory, memory_len, image, image_len, 3, report, report_len);
    if (which == CARD)
        return tac_card(memory, memory_len, image, image_len, card, card_len, report, report_len);
    if (which == VIEW)
        return tac_view(memory, memory_len, image, image_len, report, report_len);
    if (which == FAULT)
        return tac_fault(image, image_len);
    return tac_wind(memory, memory_len, image, image_len, 1, 1, 2, 2, 3, places, places_len);
}

/* What the header says of a call with those buffers empty. */
static uint64_t expected(int which, int empty)
{
    int runs = which != CARD || (empty & CARD_BYTES) == 0;
    if ((empty & MEMORY) && which != FAULT)
        return (uint64_t)TAC_MEMORY_LENGTH << 32;
    if (empty & IMAGE)
        return (uint64_t)TAC_IMAGE_LENGTH << 32;
    if (which == FAULT)
        return (uint64_t)TAC_CAUSE_ODD << 24 | 0x401201;
    if (which == WIND)
        return empty & PLACES ? (uint64_t)TAC_WIND_SETTING << 32 : 0;
    if ((empty & REPORT) && runs)
        return (uint64_t)TAC_REPORT_LENGTH << 32;
    return runs ? TAC_REPORT_BYTES : 0;
}

static void fill(struct buffers *lent)
{
    static const uint8_t run[3] = {TAC_COMMAND_RUN, 0, 3};
    static const uint8_t record[4] = {0x12, 0x01, TAC_CAUSE_ODD, 0x40}; /* violation address, cause, missed page */
    memset(lent, 0, sizeof *lent);
    memset(lent->report, 0x5A, sizeof lent->report);
    memset(lent->places, 0x5A, sizeof lent->places);
    memcpy(lent->card, run, sizeof run);
    lent->image[TAC_IMAGE_FLAG + 1] = TAC_FLAG_P;
    memcpy(lent->image + TAC_IMAGE_VIOLATION, record, sizeof record);
}

int main(void)
{
    static struct buffers with, without;
    for (int which = 0; which < CALLS; which++)
        for (int empty = 0; empty < ALL; empty++) {
            fill(&with);
            fill(&without);
            uint64_t answer = call(which, &with, empty, 1), other = call(which, &without, empty, 0);
            if (answer != expected(which, empty) || answer != other || memcmp(&with, &without, sizeof with) != 0) {
                printf("call %d, empty buffers %d: another answer or outcome with null pointers\n", which, empty);
                return 1;
            }
        }
    printf("null: as the header says\n");
    return 0;
}
