#include "feed.h"

enum fed feed_command(struct feed *feed, struct machine *machine)
{
    const uint8_t *command = feed->card.bytes + feed->at;
    size_t length = 0;
    uint64_t answer;
    if (feed->at == feed->card.length)
        return FED_END;
    do /* the library knows where the command ends */
        answer = machine_commands(machine, command, ++length);
    while (TAC_REFUSAL(answer) == TAC_CARD_SHORT);
    feed->at += length;
    if (TAC_REFUSAL(answer) != TAC_REPORT_LENGTH)
        return FED_COMMAND;
    feed->left = word_in(command, 1);
    feed->run = machine_run(machine, 0);
    return FED_RUN;
}

bool feed_over(const struct feed *feed) { return feed->left == 0 || feed->run.ending != TAC_ENDING_SPENT; }

struct report feed_step(struct feed *feed, struct machine *machine)
{
    struct report one = machine_run(machine, 1);
    struct report sum = one;
    sum.steps += feed->run.steps;
    sum.states += feed->run.states;
    feed->run = sum;
    feed->left--;
    return one;
}
