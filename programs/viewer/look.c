#include "look.h"

#include <stdbool.h>

unsigned machine_pc(const struct machine *machine) { return word_in(machine->image, TAC_IMAGE_PC); }

uint32_t machine_entry(const struct machine *machine, int entry)
{
    const uint8_t *bytes = machine->image + TAC_IMAGE_TLB + TAC_TLB_ENTRY_BYTES * entry;
    return (uint32_t)bytes[0] << TAC_TLB_PAGE_SHIFT | word_in(bytes, 1);
}

const uint8_t *machine_timer(const struct machine *machine, int timer)
{
    return machine->image + TAC_IMAGE_TIMER0 + TAC_TIMER_BYTES * timer;
}

int machine_serving(const struct machine *machine, unsigned address)
{
    for (int k = 0; k < TAC_TLB_ENTRIES; k++) {
        uint32_t entry = machine_entry(machine, k);
        if ((entry & TAC_TLB_VALID) != 0 && entry >> TAC_TLB_PAGE_SHIFT == address / 256)
            return k;
    }
    return -1;
}

long machine_translate(const struct machine *machine, enum space space, unsigned address)
{
    bool kernel = (word_in(machine->image, TAC_IMAGE_FLAG) & TAC_FLAG_P) != 0;
    if (space == SPACE_PHYSICAL || machine->image[TAC_IMAGE_MMU] == 0 || (space == SPACE_NOW && kernel))
        return (long)address;
    int k = machine_serving(machine, address);
    return k < 0 ? -1 : (long)((machine_entry(machine, k) & TAC_TLB_FRAME) * 256 + address % 256);
}

int machine_byte(const struct machine *machine, enum space space, unsigned address)
{
    long at = machine_translate(machine, space, address);
    return at < 0 ? -1 : machine->memory[at];
}

long machine_word(const struct machine *machine, enum space space, unsigned address)
{
    if (address % 2 != 0)
        return -1;
    long at = machine_translate(machine, space, address);
    return at < 0 ? -1 : (long)word_in(machine->memory, (int)at);
}
