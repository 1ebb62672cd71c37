/* The smallest caller: a machine, a run, its report. */
#include "tac.h"

#include <stdio.h>

static uint8_t memory[TAC_MEMORY_BYTES], image[TAC_IMAGE_BYTES], report[TAC_REPORT_BYTES];

int main(void)
{
    image[TAC_IMAGE_FLAG + 1] = TAC_FLAG_P; /* kernel mode */
    memory[6] = 0xFF;                       /* HALT, behind three NO */
    uint64_t answer = tac_run(memory, sizeof memory, image, sizeof image, 1000, report, sizeof report);
    if (TAC_REFUSAL(answer) != TAC_GOOD)
        return 1;
    printf("%s, PC %02X%02Xh\n", report[TAC_REPORT_ENDING] == TAC_ENDING_HALTED ? "halted" : "not halted", report[TAC_REPORT_PC],
           report[TAC_REPORT_PC + 1]);
    return 0;
}
