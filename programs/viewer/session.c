#include "session.h"

#include "fault.h"
#include "file.h"
#include "look.h"
#include "show.h"

#include <stdio.h>

/* Behind a command or a step of the card: the report of a run that is over, and the end of the card. */
static void settle(struct session *session, bool run)
{
    session->in_run = run && !feed_over(&session->feed);
    if (run && !session->in_run) {
        printf("run ");
        show_report(&session->feed.run);
    }
    session->feed.open = session->in_run || session->feed.at < session->feed.card.length;
    if (!session->feed.open)
        printf("the card is at its end\n");
}

/* One command of the card: done, or begun if it is a run. */
static void feed_next(struct session *session)
{
    size_t at = session->feed.at;
    enum fed fed = feed_command(&session->feed, &session->machine);
    if (session->trace && fed != FED_END) {
        printf("card %lu ", (unsigned long)at);
        for (; at < session->feed.at; at++)
            printf(" %02X", session->feed.card.bytes[at]);
        printf("\n");
    }
    settle(session, fed == FED_RUN);
}

/* One step: in the card's run, in its next one, or free where no card is open. False where there is none: the card has come to its end
 * without a run, or the machine is halted or lost. */
static bool step(struct session *session, struct report *one)
{
    bool fed = session->feed.open;
    while (session->feed.open && !session->in_run)
        feed_next(session);
    one->ending = TAC_ENDING_SPENT;
    if (fed && !session->in_run)
        return false;
    if (session->trace)
        session->before = session->machine;
    *one = fed ? feed_step(&session->feed, &session->machine) : machine_run(&session->machine, 1);
    if (session->trace && one->steps > 0)
        show_step(&session->before, &session->machine, one);
    if (fed)
        settle(session, true);
    return one->steps > 0;
}

/* Whether a step ended the motion; if so, says why. */
static bool ended(const struct session *session, const struct report *one, enum until until, unsigned address, uint8_t byte)
{
    const struct machine *machine = &session->machine;
    if (until == UNTIL_ENTRY && one->ending == TAC_ENDING_ENTERED)
        return true;
    if (until == UNTIL_ADDRESS && machine_pc(machine) == address) {
        printf("at %04Xh\n", address);
        return true;
    }
    if (until == UNTIL_CHANGE && machine->memory[address] != byte) {
        printf("byte %04Xh changed from %02X to %02X\n", address, byte, machine->memory[address]);
        return true;
    }
    return one->ending >= TAC_ENDING_HALTED;
}

/* What the last step entered, and the instruction to come. */
static void say_where(const struct session *session, const struct report *last)
{
    char words[WORDS_BYTES];
    if (last->ending == TAC_ENDING_ENTERED) {
        entry_words(&session->machine, last->number, words, sizeof words);
        printf("entered %s\n", words);
    }
    show_next(&session->machine);
}

void session_move(struct session *session, enum until until, unsigned address, unsigned long limit)
{
    static const char *const conditions[] = {"", ", halted", ", lost"};
    unsigned long steps = 0, entries = 0;
    unsigned long long states = 0;
    struct report one = {0};
    bool over = false, open = session->feed.open;
    uint8_t byte = session->machine.memory[address];
    while (!over && steps < limit) {
        over = !step(session, &one);
        if (over)
            break;
        steps++;
        states += one.states;
        entries += one.ending == TAC_ENDING_ENTERED;
        over = ended(session, &one, until, address, byte) || open != session->feed.open;
    }
    if (!over && until != UNTIL_LIMIT)
        printf("gave up: %lu steps are the limit\n", limit);
    printf("steps %lu, states %llu, entries %lu%s\n", steps, states, entries,
           conditions[session->machine.image[TAC_IMAGE_CONDITION]]);
    say_where(session, &one);
}

void session_feed(struct session *session, unsigned long commands)
{
    struct report one;
    for (; session->feed.open && commands > 0; commands--) {
        if (!session->in_run)
            feed_next(session);
        while (session->in_run)
            step(session, &one);
    }
}

bool session_may_save(const struct session *session, const char *name, char *why)
{
    const char *card = session->file != NULL && !ends_in(session->file, ".machine") ? session->file : NULL;
    if (!test_unread(name, card, session->loads, why))
        return false;
    if (session->script != NULL && same_file(name, session->script))
        return because(why, "%s: it has the commands that are read", name);
    return test_machine_name(name, why);
}
