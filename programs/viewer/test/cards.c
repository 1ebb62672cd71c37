/* The stored cards, fed command by command and step by step, beside one call of tac_card: memory, image and reports are the same at the
 * end, and a card is refused on opening exactly as by that call. Prints the listings. Usage: cards CASES, in the form that crates/stored
 * reads. */
#include "feed.h"
#include "message.h"
#include "show.h"

#include <stdio.h>
#include <stdlib.h>
#include <string.h>

const char program_name[] = "cards";

static uint8_t cases[65536];

/* A machine with a report behind it. */
struct outcome {
    struct machine machine;
    uint8_t report[TAC_CARD_REPORT_BYTES];
};

static void must(bool good, const char *what, size_t at)
{
    if (good)
        return;
    printf("the case at %lu: %s\n", (unsigned long)at, what);
    exit(1);
}

static void put_report(uint8_t *bytes, const struct report *report)
{
    bytes[TAC_REPORT_ENDING] = (uint8_t)report->ending;
    bytes[TAC_REPORT_NUMBER] = (uint8_t)report->number;
    put_word(bytes, TAC_REPORT_STEPS, report->steps);
    put_word(bytes, TAC_REPORT_STATES, report->states >> 16);
    put_word(bytes, TAC_REPORT_STATES + 2, report->states & 0xFFFF);
    put_word(bytes, TAC_REPORT_PC, report->pc);
    put_word(bytes, TAC_REPORT_FLAG, report->flag);
}

/* Feeds the card, prints the line of each run, and answers how many there were. */
static unsigned feed_all(struct feed *feed, struct outcome *fed)
{
    unsigned runs = 0;
    for (enum fed what; (what = feed_command(feed, &fed->machine)) != FED_END;) {
        if (what != FED_RUN)
            continue;
        while (!feed_over(feed))
            feed_step(feed, &fed->machine);
        put_report(fed->report + TAC_REPORT_BYTES * runs++, &feed->run);
        show_report(&feed->run);
    }
    return runs;
}

/* The case at `at`. Answers where the next one stands. */
static size_t try_case(size_t at)
{
    static struct outcome called, fed;
    static struct feed feed;
    const uint8_t *head = cases + at;
    size_t memory_length = TAC_MEMORY_BYTES - word_in(head, 0), image_length = TAC_IMAGE_BYTES - (size_t)head[2];
    size_t length = word_in(head, 7);
    memset(&called, 0, sizeof called);
    memcpy(called.machine.image + TAC_IMAGE_FLAG, head + 3, 2);
    fed = called;
    memset(&feed, 0, sizeof feed);
    memcpy(feed.card.bytes, head + 9, length);
    feed.card.length = length;
    uint64_t answer = tac_card(called.machine.memory, memory_length, called.machine.image, image_length, head + 9, length, called.report,
                               word_in(head, 5));
    unsigned refusal = TAC_REFUSAL(answer);
    if (refusal == TAC_GOOD || refusal == TAC_REPORT_LENGTH)
        must(card_test(&feed.card) == 0, "a good card is refused", at);
    else if (refusal >= TAC_CARD_LENGTH)
        must(card_test(&feed.card) == answer, "it is not refused as by the call", at);
    if (refusal != TAC_GOOD) {
        printf("refused %u %u\n", refusal, (unsigned)TAC_PLACE(answer));
        return at + 9 + length;
    }
    printf("runs %u\n", (unsigned)TAC_FILLED(answer) / TAC_REPORT_BYTES);
    must(TAC_FILLED(answer) == TAC_REPORT_BYTES * feed_all(&feed, &fed), "the number of runs", at);
    must(memcmp(&called.machine, &fed.machine, sizeof fed.machine) == 0, "memory or image", at);
    must(memcmp(called.report, fed.report, sizeof fed.report) == 0, "a report", at);
    return at + 9 + length;
}

int main(int argc, char **argv)
{
    FILE *file = argc == 2 ? fopen(argv[1], "rb") : NULL;
    if (file == NULL)
        return 2;
    size_t length = fread(cases, 1, sizeof cases, file), at = 0;
    fclose(file);
    while (at < length)
        at = try_case(at);
    return 0;
}
