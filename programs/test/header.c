/* The header in each standard of C and C++: its names, and the values that a caller counts on. */
#include "tac.h"

/* An array of no size is an error. */
#define HOLDS(name, condition) typedef char name[(condition) ? 1 : -1]

HOLDS(version, TAC_VERSION_MAJOR == 2 && TAC_VERSION_MINOR == 1);
HOLDS(runs, TAC_CARD_RUNS == 1365 && TAC_CARD_REPORT_BYTES == 16380 && TAC_CARD_STEPS == 89455275);
HOLDS(flags, (TAC_FLAG_E | TAC_FLAG_P | TAC_FLAG_I | TAC_FLAG_V | TAC_FLAG_C | TAC_FLAG_S | TAC_FLAG_Z) == 0xEF);
HOLDS(tlb, (TAC_TLB_VALID | TAC_TLB_REFERENCED | TAC_TLB_DIRTY | TAC_TLB_READ | TAC_TLB_WRITE | TAC_TLB_EXECUTE | TAC_TLB_FRAME) == 0x9FFF);
HOLDS(tlb_end, TAC_IMAGE_TLB + TAC_TLB_ENTRIES * TAC_TLB_ENTRY_BYTES <= TAC_IMAGE_TIMER0 && TAC_TLB_PAGE_SHIFT == 16);
HOLDS(timers, TAC_IMAGE_TIMER0 + TAC_TIMER_BYTES == TAC_IMAGE_TIMER1 && TAC_IMAGE_TIMER0 + TAC_TIMER_BYTES * TAC_TIMERS <= TAC_IMAGE_BYTES);
HOLDS(counts, TAC_IMAGE_TIMER0 + TAC_TIMER_COUNT == 68 && TAC_IMAGE_TIMER1 + TAC_TIMER_PERIOD == 78);
HOLDS(controls, TAC_IMAGE_TIMER0 + TAC_TIMER_CONTROL == 72 && TAC_IMAGE_TIMER1 + TAC_TIMER_FIRED == 82);
HOLDS(control, TAC_CONTROL_INTERRUPT == 0x8000 && TAC_CONTROL_START == 1);
HOLDS(endings, TAC_ENDING_SPENT == 0 && TAC_ENDING_ENTERED == 1 && TAC_ENDING_HALTED == 2 && TAC_ENDING_LOST == 3);
HOLDS(conditions, TAC_CONDITION_RUNNING == 0 && TAC_CONDITION_HALTED == 1 && TAC_CONDITION_LOST == 2);
HOLDS(causes, TAC_CAUSE_RIGHT == 1 && TAC_CAUSE_ODD == 2);
HOLDS(numbers, TAC_NUMBER_MISS == 10 && TAC_NUMBER_SVC == 15 && TAC_NUMBER_NONE == 255);
HOLDS(commands, TAC_COMMAND_BYTE == 1 && TAC_COMMAND_FLAG == 7 && TAC_COMMAND_TIME == 8);
HOLDS(refusals, TAC_GOOD == 0 && TAC_MEMORY_LENGTH == 1 && TAC_REPORT_LENGTH == 8 && TAC_WIND_SETTING == 9);
HOLDS(parts, TAC_REFUSAL(UINT64_C(0x700000017)) == 7 && TAC_PLACE(UINT64_C(0x700000017)) == 23 && TAC_FILLED(UINT64_C(24)) == 24);
HOLDS(cause, TAC_FAULT_CAUSE(UINT64_C(0x034012FE)) == (TAC_CAUSE_RIGHT | TAC_CAUSE_ODD));
HOLDS(record, TAC_FAULT_MISSED(UINT64_C(0x034012FE)) == 0x40 && TAC_FAULT_VIOLATION(UINT64_C(0x034012FE)) == 0x12FE);
HOLDS(barrel, TAC_WIND_TURNS == 999 && TAC_WIND_NOTCHES == 64 && TAC_WIND_RUNDOWN == 64);
HOLDS(ticks, TAC_WIND_TICKS == 65535 && TAC_WIND_STEPS == 65535 && TAC_WIND_PLACE_BYTES == 2);
HOLDS(bits, TAC_OUTPUT_MOTOR == 1 && TAC_INPUT_LABEL == 1 && TAC_FIRST_OVER(UINT64_C(0xFFFF)) == 65535);

int main(void)
{
    static uint8_t memory[TAC_MEMORY_BYTES], image[TAC_IMAGE_BYTES], report[TAC_CARD_REPORT_BYTES];
    static uint8_t places[TAC_WIND_TICKS * TAC_WIND_PLACE_BYTES];
    static const uint8_t card[3] = {TAC_COMMAND_RUN, 0xFF, 0xFF};
    uint64_t run = tac_run(memory, sizeof memory, image, sizeof image, TAC_ALLOWANCE, report, sizeof report);
    uint64_t whole = tac_card(memory, sizeof memory, image, sizeof image, card, sizeof card, report, sizeof report);
    uint64_t view = tac_view(memory, sizeof memory, image, sizeof image, report, sizeof report);
    uint64_t fault = tac_fault(image, sizeof image);
    uint64_t wind = tac_wind(memory, sizeof memory, image, sizeof image, TAC_WIND_TURNS, TAC_WIND_NOTCHES, TAC_WIND_RUNDOWN, TAC_WIND_TICKS,
                             1, places, sizeof places);
    return TAC_REFUSAL(run | whole | view | fault | wind) == TAC_GOOD && TAC_FIRST_OVER(wind) == 0 ? 0 : 1;
}
