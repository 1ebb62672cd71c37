/* The two timers: a program starts them and halts, a card lets time pass, and they are read in the image. */
#include "tac.h"

#include <stdio.h>
#include <stdlib.h>
#include <string.h>

static uint8_t memory[TAC_MEMORY_BYTES], image[TAC_IMAGE_BYTES], report[TAC_REPORT_BYTES];

static const uint8_t program[] = {
    0x0A, 0x00, 0x01, 0xF4, 0xB8, 0x00, 0x00, 0x00, /* LD G0,#01F4h and OUT G0,0000h: Timer0 has a period of 500 ms */
    0x0A, 0x00, 0x80, 0x01, 0xB8, 0x00, 0x00, 0x02, /* LD G0,#8001h and OUT G0,0002h: it is started, with its interrupt */
    0x0A, 0x00, 0x00, 0xC8, 0xB8, 0x00, 0x00, 0x04, /* LD G0,#00C8h and OUT G0,0004h: Timer1 has a period of 200 ms */
    0x0A, 0x00, 0x00, 0x01, 0xB8, 0x00, 0x00, 0x06, /* LD G0,#0001h and OUT G0,0006h: it is started */
    0xFF                                            /* HALT */
};

static void must_be_good(uint64_t answer)
{
    if (TAC_REFUSAL(answer) != TAC_GOOD)
        exit(1);
}

static unsigned word_at(int at) { return image[at] * 256u + image[at + 1]; }

static void show_timer(int k)
{
    int timer = TAC_IMAGE_TIMER0 + TAC_TIMER_BYTES * k;
    printf("  Timer%d: %u of %u ms%s\n", k, word_at(timer + TAC_TIMER_COUNT), word_at(timer + TAC_TIMER_PERIOD),
           word_at(timer + TAC_TIMER_FIRED) != 0 ? ", fired" : "");
}

/* A card of one command. It has no run, so it needs no report. */
static void pass(unsigned milliseconds)
{
    const uint8_t card[] = {TAC_COMMAND_TIME, (uint8_t)(milliseconds / 256), (uint8_t)(milliseconds % 256)};
    must_be_good(tac_card(memory, sizeof memory, image, sizeof image, card, sizeof card, NULL, 0));
    printf("%u ms later: line 0 is %s\n", milliseconds, (word_at(TAC_IMAGE_PENDING) & 1) != 0 ? "pending" : "not pending");
    for (int k = 0; k < TAC_TIMERS; k++)
        show_timer(k);
}

int main(void)
{
    memcpy(memory, program, sizeof program);
    image[TAC_IMAGE_FLAG + 1] = TAC_FLAG_P; /* kernel mode */
    must_be_good(tac_run(memory, sizeof memory, image, sizeof image, 1000, report, sizeof report));
    printf("%s\n", image[TAC_IMAGE_CONDITION] == TAC_CONDITION_HALTED ? "halted" : "not halted");
    pass(499);
    pass(1);
    pass(65535); /* the most that a command has */
    return 0;
}
