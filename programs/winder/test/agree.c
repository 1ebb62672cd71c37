/* Random machines and settings: the ticks done one by one are those of tac_wind, and their records balance. Prints how many of the machines
 * entered the kernel, were halted, were lost, reached the label and passed it. */
#include "message.h"
#include "proved.h"

#include <stdio.h>
#include <stdlib.h>
#include <string.h>

const char program_name[] = "agree";

#define MACHINES 600
#define CODE_BYTES 0x100 /* from 0000h on, and again in the kernel's frame */
#define KERNEL 0x0200

static uint32_t state = 2463534242u;

/* A random number below `most`. */
static uint32_t below(uint32_t most)
{
    state ^= state << 13;
    state ^= state >> 17;
    state ^= state << 5;
    return state % most;
}

static void must(bool good, unsigned machine, const char *what)
{
    if (good)
        return;
    printf("machine %u: %s\n", machine, what);
    exit(1);
}

/* Words that run: most of them move the motor's bit, read the label's, or jump. */
static void put_code(uint8_t *memory, unsigned from)
{
    for (unsigned at = from; at < from + CODE_BYTES; at += 2) {
        uint32_t kind = below(24), rd = below(4) << 4;
        put_word(memory, (int)at, kind < 6 ? 0x0D00 | rd | below(16) : kind == 6 ? 0x1D01 | rd : below(0x10000));
        if (kind > 6 && kind < 20 && at + 2 < from + CODE_BYTES) {
            put_word(memory, (int)at, kind < 12 ? 0xB800 | rd : kind < 16 ? 0xB000 | rd : 0xA000 | below(13) << 4);
            at += 2;
            put_word(memory, (int)at, kind < 16 ? 0x18 : from + 2 * below(CODE_BYTES / 2));
        }
        if (kind == 20)
            put_word(memory, (int)at, 0xF000);
        if (kind == 21)
            put_word(memory, (int)at, below(4) == 0 ? 0xFF00 : 0xD400);
    }
}

static void put_image(uint8_t *image)
{
    for (int k = 0; k < TAC_IMAGE_TLB; k++)
        image[k] = (uint8_t)below(256);
    put_word(image, TAC_IMAGE_PC, 2 * below(CODE_BYTES / 2));
    put_word(image, TAC_IMAGE_SSP, 0x8000 + 2 * below(64) + (below(6) == 0));
    put_word(image, TAC_IMAGE_FLAG, below(256) & 0xEF & (below(2) == 0 ? 0xFF : ~(unsigned)TAC_FLAG_P));
    put_word(image, TAC_IMAGE_PENDING, below(4) == 0 ? 1u << below(10) : 0);
    image[TAC_IMAGE_MMU] = (uint8_t)below(2);
    image[TAC_IMAGE_CONDITION] = (uint8_t)(below(30) == 0 ? 1 + below(2) : 0);
    image[TAC_IMAGE_CAUSE] &= 3;
    image[TAC_IMAGE_TLB + 1] = 0x87; /* page 0 in frame 0, with all rights */
}

static void put_machine(struct machine *machine)
{
    machine_reset(machine);
    put_image(machine->image);
    put_code(machine->memory, 0);
    put_code(machine->memory, KERNEL);
    for (unsigned vector = 0xFFE0; vector < 0x10000; vector += 2)
        put_word(machine->memory, (int)vector, KERNEL + 2 * below(CODE_BYTES / 2));
}

/* Whether the first steps enter the kernel. */
static bool enters(const struct machine *start, uint32_t steps)
{
    static struct machine machine;
    machine = *start;
    return machine_run(&machine, steps).ending == TAC_ENDING_ENTERED;
}

/* Each record by the one before it; answers whether the label was reached. */
static bool balanced(const struct winding *winding, unsigned machine)
{
    const struct settings *settings = &winding->settings;
    uint32_t standing = 0;
    bool reached = false, ever = false;
    for (uint32_t k = 0; k < winding->done; k++) {
        const struct tick *tick = &winding->ticks[k];
        must((tick->input & TAC_INPUT_LABEL) == reached, machine, "an input byte");
        must(tick->motor <= 1, machine, "a motor");
        standing += tick->motor;
        if ((k + 1) % settings->rundown == 0 && standing > 0)
            standing--;
        must(tick->standing == standing, machine, "the notches don't balance");
        reached = standing / settings->notches >= settings->turns;
        ever = ever || reached;
    }
    return ever;
}

int main(void)
{
    static struct machine start;
    static struct winding winding;
    static struct proved proved;
    char why[WHY_BYTES];
    unsigned entered = 0, halted = 0, lost = 0, reached = 0, over = 0;
    for (unsigned k = 0; k < MACHINES; k++) {
        struct settings settings = {1 + below(3), 1 + below(8), 1 + below(below(2) == 0 ? 4 : 64), 1 + below(300), 1 + below(40)};
        put_machine(&start);
        winding_begin(&winding, &start, &settings);
        while (winding.done < settings.ticks)
            winding_tick(&winding);
        wind_proved(&proved, &start, &settings);
        must(same_as_proved(&winding, &proved, why), k, why);
        reached += balanced(&winding, k);
        over += winding.first_over != 0;
        entered += enters(&start, settings.steps);
        halted += winding.machine.image[TAC_IMAGE_CONDITION] == TAC_CONDITION_HALTED;
        lost += winding.machine.image[TAC_IMAGE_CONDITION] == TAC_CONDITION_LOST;
    }
    printf("%d machines: %u enter the kernel in their first tick, %u halted, %u lost, %u reach the label, %u pass it\n", MACHINES, entered,
           halted, lost, reached, over);
    return 0;
}
