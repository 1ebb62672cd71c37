/* The winder: a simulation with a program that winds up to the label, one with a program that winds on, and one that is refused. */
#include "tac.h"

#include <stdio.h>
#include <string.h>

#define TURNS 2
#define NOTCHES 4
#define RUNDOWN 3 /* ticks from one notch that the train takes to the next */
#define TICKS 20
#define STEPS 10 /* two times round the program in each tick */

static uint8_t memory[TAC_MEMORY_BYTES], image[TAC_IMAGE_BYTES], places[TICKS * TAC_WIND_PLACE_BYTES];

static const uint8_t program[] = {
    0xB0, 0x00, 0x00, 0x18, /* IN G0,0018h: the input byte */
    0x35, 0x01,             /* AND G0,#1: its bit 0, 1 where the label is reached */
    0x45, 0x01,             /* XOR G0,#1: 0 there, else 1 */
    0xB8, 0x00, 0x00, 0x18, /* OUT G0,0018h: the motor */
    0xA0, 0xF0, 0x00, 0x00  /* JMP 0000h */
};

static uint64_t wind(uint32_t turns)
{
    return tac_wind(memory, sizeof memory, image, sizeof image, turns, NOTCHES, RUNDOWN, TICKS, STEPS, places, sizeof places);
}

/* A machine in kernel mode with the program. */
static void prepare(void)
{
    memset(memory, 0, sizeof memory);
    memcpy(memory, program, sizeof program);
    memset(image, 0, sizeof image);
    image[TAC_IMAGE_FLAG + 1] = TAC_FLAG_P;
}

static void show(uint64_t answer)
{
    if (TAC_REFUSAL(answer) != TAC_GOOD) {
        printf("refused: %u\n", TAC_REFUSAL(answer));
        return;
    }
    for (int tick = 0; tick < TICKS; tick++)
        printf(" %u", places[TAC_WIND_PLACE_BYTES * tick] * 256u + places[TAC_WIND_PLACE_BYTES * tick + 1]);
    if (TAC_FIRST_OVER(answer) == 0)
        printf("\nat most %d notches: the label held\n", TURNS * NOTCHES);
    else
        printf("\nover in tick %u\n", (unsigned)TAC_FIRST_OVER(answer));
}

int main(void)
{
    prepare();
    show(wind(TURNS));
    prepare();
    memory[5] = 0; /* AND G0,#0: the program winds whatever it reads */
    show(wind(TURNS));
    show(wind(TAC_WIND_TURNS + 1));
    return 0;
}
