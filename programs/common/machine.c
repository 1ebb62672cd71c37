#include "machine.h"

#include "message.h"

#include <string.h>

unsigned word_in(const uint8_t *bytes, int at) { return bytes[at] * 256u + bytes[at + 1]; }

void put_word(uint8_t *bytes, int at, unsigned word)
{
    bytes[at] = (uint8_t)(word / 256);
    bytes[at + 1] = (uint8_t)(word % 256);
}

static struct report report_in(const uint8_t *bytes)
{
    struct report report;
    report.ending = bytes[TAC_REPORT_ENDING];
    report.number = bytes[TAC_REPORT_NUMBER];
    report.steps = word_in(bytes, TAC_REPORT_STEPS);
    report.states = (uint32_t)word_in(bytes, TAC_REPORT_STATES) << 16 | word_in(bytes, TAC_REPORT_STATES + 2);
    report.pc = word_in(bytes, TAC_REPORT_PC);
    report.flag = word_in(bytes, TAC_REPORT_FLAG);
    return report;
}

void machine_reset(struct machine *machine)
{
    memset(machine, 0, sizeof *machine);
    put_word(machine->image, TAC_IMAGE_FLAG, TAC_FLAG_P);
}

uint64_t machine_test(const struct machine *machine)
{
    uint8_t report[TAC_REPORT_BYTES];
    return tac_view(machine->memory, sizeof machine->memory, machine->image, sizeof machine->image, report, sizeof report);
}

/* The machine is good, so a refusal is the program's own error. */
static void must_be_good(uint64_t answer, const char *call)
{
    if (TAC_REFUSAL(answer) != TAC_GOOD)
        fail("the library refuses %s: %u", call, TAC_REFUSAL(answer));
}

struct report machine_run(struct machine *machine, unsigned allowance)
{
    uint8_t report[TAC_REPORT_BYTES];
    uint64_t answer = tac_run(machine->memory, sizeof machine->memory, machine->image, sizeof machine->image, (uint16_t)allowance, report,
                              sizeof report);
    must_be_good(answer, "a run");
    return report_in(report);
}

uint64_t machine_commands(struct machine *machine, const uint8_t *bytes, size_t length)
{
    return tac_card(machine->memory, sizeof machine->memory, machine->image, sizeof machine->image, bytes, length, NULL, 0);
}

void machine_pass(struct machine *machine, unsigned milliseconds)
{
    uint8_t card[3] = {TAC_COMMAND_TIME};
    put_word(card, 1, milliseconds);
    must_be_good(machine_commands(machine, card, sizeof card), "milliseconds");
}

struct fault machine_fault(const struct machine *machine)
{
    uint64_t answer = tac_fault(machine->image, sizeof machine->image);
    must_be_good(answer, "a look at the fault record");
    struct fault fault = {TAC_FAULT_CAUSE(answer), TAC_FAULT_MISSED(answer), TAC_FAULT_VIOLATION(answer)};
    return fault;
}
