/* The fault record: a look leaves the cause where it is, and the kernel's IN of A4h still reads and clears it. */
#include "tac.h"

#include <stdio.h>
#include <stdlib.h>

static uint8_t memory[TAC_MEMORY_BYTES], image[TAC_IMAGE_BYTES], report[TAC_REPORT_BYTES];

static uint64_t good(uint64_t answer)
{
    if (TAC_REFUSAL(answer) != TAC_GOOD)
        exit(1);
    return answer;
}

static void step(void) { good(tac_run(memory, sizeof memory, image, sizeof image, 1, report, sizeof report)); }

static void look(void)
{
    static const char *const causes[] = {"no cause", "a right is not given", "a word at an odd address", "both causes"};
    uint64_t fault = good(tac_fault(image, sizeof image));
    printf("look: %s, violation address %04Xh, missed page %02Xh\n", causes[TAC_FAULT_CAUSE(fault)], TAC_FAULT_VIOLATION(fault),
           TAC_FAULT_MISSED(fault));
}

int main(void)
{
    image[TAC_IMAGE_PC] = 0x12; /* user mode at 1200h, in a page that may be read and no more */
    image[TAC_IMAGE_SSP] = 0x10;
    image[TAC_IMAGE_MMU] = 1;
    image[TAC_IMAGE_TLB] = 0x12;
    image[TAC_IMAGE_TLB + 1] = (TAC_TLB_VALID | TAC_TLB_READ) >> 8;
    memory[0xFFF6] = 0x01; /* vector 11: 0100h */
    memory[0x0100] = 0xB0; /* 0100h: IN G0,00A4h */
    memory[0x0103] = 0xA4;
    step();
    printf("entered %u\n", report[TAC_REPORT_NUMBER]);
    look();
    look();
    step();
    printf("IN of A4h: %u\n", image[TAC_IMAGE_G0 + 1]);
    look();
    return 0;
}
