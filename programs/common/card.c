#include "card.h"

#include "message.h"

uint64_t card_test(const struct card *card)
{
    static struct machine scratch;
    machine_reset(&scratch);
    uint64_t answer = machine_commands(&scratch, card->bytes, card->length);
    return TAC_REFUSAL(answer) == TAC_REPORT_LENGTH ? 0 : answer;
}

void card_carry_out(const struct card *card, struct machine *machine)
{
    static uint8_t report[TAC_CARD_REPORT_BYTES];
    uint64_t answer = tac_card(machine->memory, sizeof machine->memory, machine->image, sizeof machine->image, card->bytes, card->length,
                               report, sizeof report);
    if (TAC_REFUSAL(answer) != TAC_GOOD)
        fail("the library refuses a card that was tested: %u", TAC_REFUSAL(answer));
}
