#include "show.h"

#include "disassemble.h"
#include "fault.h"

#include <stdbool.h>
#include <stdio.h>
#include <string.h>

/* A field of the image, or of a timer in it, that is a word or a byte. */
struct field {
    const char *name;
    int at, bytes;
};

/* All but PC, the TLB and the timers. */
static const struct field fields[] = {
    {"G0", TAC_IMAGE_G0, 2},
    {"G1", TAC_IMAGE_G0 + 2, 2},
    {"G2", TAC_IMAGE_G0 + 4, 2},
    {"G3", TAC_IMAGE_G0 + 6, 2},
    {"G4", TAC_IMAGE_G0 + 8, 2},
    {"G5", TAC_IMAGE_G0 + 10, 2},
    {"G6", TAC_IMAGE_G0 + 12, 2},
    {"G7", TAC_IMAGE_G0 + 14, 2},
    {"G8", TAC_IMAGE_G0 + 16, 2},
    {"G9", TAC_IMAGE_G0 + 18, 2},
    {"G10", TAC_IMAGE_G0 + 20, 2},
    {"G11", TAC_IMAGE_G0 + 22, 2},
    {"FP", TAC_IMAGE_FP, 2},
    {"SSP", TAC_IMAGE_SSP, 2},
    {"USP", TAC_IMAGE_USP, 2},
    {"FLAG", TAC_IMAGE_FLAG, 2},
    {"pending", TAC_IMAGE_PENDING, 2},
    {"input", TAC_IMAGE_INPUT, 1},
    {"output", TAC_IMAGE_OUTPUT, 1},
    {"MMU", TAC_IMAGE_MMU, 1},
    {"condition", TAC_IMAGE_CONDITION, 1},
    {"violation", TAC_IMAGE_VIOLATION, 2},
    {"cause", TAC_IMAGE_CAUSE, 1},
    {"missed", TAC_IMAGE_MISSED, 1},
};

static const struct field timer_fields[] = {
    {"count", TAC_TIMER_COUNT, 2},
    {"period", TAC_TIMER_PERIOD, 2},
    {"control", TAC_TIMER_CONTROL, 2},
    {"fired", TAC_TIMER_FIRED, 2},
};

static const char *const conditions[] = {"running", "halted", "lost"};

/* The bits of a byte, the upper first: a letter where one is set. */
static void print_letters(unsigned byte, const char *letters)
{
    for (int bit = 7; bit >= 0; bit--)
        putchar((byte >> bit & 1) != 0 ? letters[7 - bit] : '-');
}

static const char *on_or_off(bool on) { return on ? "on" : "off"; }

static void print_registers(const uint8_t *image)
{
    for (int k = 0; k < 12; k++)
        printf("%-3s %04X%s", fields[k].name, word_in(image, TAC_IMAGE_G0 + 2 * k), k % 6 == 5 ? "\n" : "  ");
    printf("FP  %04X  SSP %04X  USP %04X  PC  %04X  FLAG ", word_in(image, TAC_IMAGE_FP), word_in(image, TAC_IMAGE_SSP),
           word_in(image, TAC_IMAGE_USP), word_in(image, TAC_IMAGE_PC));
    print_letters(word_in(image, TAC_IMAGE_FLAG), "EPI-VCSZ");
    printf("  %s\n", conditions[image[TAC_IMAGE_CONDITION]]);
}

static void print_tlb(const struct machine *machine)
{
    printf("MMU %s\n", on_or_off(machine->image[TAC_IMAGE_MMU] != 0));
    for (int k = 0; k < TAC_TLB_ENTRIES; k++) {
        uint32_t entry = machine_entry(machine, k);
        printf("  entry %d  page %02X  ", k, (unsigned)(entry >> TAC_TLB_PAGE_SHIFT));
        print_letters(entry >> 8 & 0xFF, "V--RDrwx");
        printf("  frame %02X\n", (unsigned)(entry & TAC_TLB_FRAME));
    }
}

static void print_lines(const uint8_t *image)
{
    unsigned pending = word_in(image, TAC_IMAGE_PENDING);
    printf("input %02X  output %02X  pending lines", image[TAC_IMAGE_INPUT], image[TAC_IMAGE_OUTPUT]);
    for (unsigned line = 0; line < 10; line++)
        if ((pending >> line & 1) != 0)
            printf(" %u", line);
    printf("%s\n", pending == 0 ? " none" : "");
}

/* Count and period are decimal, as the milliseconds of a command. */
static void print_timer(const struct machine *machine, int timer)
{
    const uint8_t *bytes = machine_timer(machine, timer);
    unsigned control = word_in(bytes, TAC_TIMER_CONTROL);
    printf("Timer%d %-3s  interrupt %-3s  count %5u  period %5u ms  %s\n", timer, on_or_off((control & TAC_CONTROL_START) != 0),
           on_or_off((control & TAC_CONTROL_INTERRUPT) != 0), word_in(bytes, TAC_TIMER_COUNT), word_in(bytes, TAC_TIMER_PERIOD),
           word_in(bytes, TAC_TIMER_FIRED) != 0 ? "fired" : "not fired");
}

void show_timers(const struct machine *machine)
{
    print_lines(machine->image);
    for (int k = 0; k < TAC_TIMERS; k++)
        print_timer(machine, k);
}

void show_fault(const struct machine *machine)
{
    struct fault fault = machine_fault(machine);
    char words[WORDS_BYTES];
    cause_words(machine, fault, words, sizeof words);
    printf("fault record: %s; missed page %02Xh\n", words, fault.missed);
}

/* Writes the words and the instruction at an address. Answers the address behind it, or behind the word where it is none. */
static unsigned write_instruction(const struct machine *machine, enum space space, unsigned address, char *text, size_t room)
{
    long first = machine_word(machine, space, address);
    long second = machine_word(machine, space, (address + 2) & 0xFFFF);
    struct instruction read;
    char behind[8] = "";
    if (first < 0) {
        snprintf(text, room, "----       %s", address % 2 != 0 ? "odd address" : "no entry");
        return (address + 2) & 0xFFFF;
    }
    read = disassemble((unsigned)first, second);
    if (read.words == 2)
        snprintf(behind, sizeof behind, second < 0 ? "----" : "%04lX", second & 0xFFFF);
    snprintf(text, room, "%04lX %-4s  %s", first & 0xFFFF, behind, read.words == 0 ? "undefined" : read.text);
    return (address + (read.words == 2 ? 4 : 2)) & 0xFFFF;
}

/* Prints a line and answers the following address. */
static unsigned print_instruction(const struct machine *machine, enum space space, unsigned address, const char *mark)
{
    char text[64];
    unsigned following = write_instruction(machine, space, address, text, sizeof text);
    printf("%s%04X  %s\n", mark, address, text);
    return following;
}

/* Whether the words from an address on can be read as instructions one of which is at PC. */
static bool leads_to(const struct machine *machine, unsigned address, unsigned pc)
{
    char text[64];
    for (unsigned left = 8; left > 0 && address != pc; left--)
        address = write_instruction(machine, SPACE_NOW, address, text, sizeof text);
    return address == pc;
}

/* Those before PC are one way to read the words there. */
static void print_round_pc(const struct machine *machine)
{
    unsigned pc = machine_pc(machine), at = pc;
    for (unsigned back = 8; back > 0 && at == pc; back -= 2)
        if (leads_to(machine, (pc - back) & 0xFFFF, pc))
            at = (pc - back) & 0xFFFF;
    while (at != pc)
        at = print_instruction(machine, SPACE_NOW, at, "  ");
    for (int k = 0; k < 6; k++)
        at = print_instruction(machine, SPACE_NOW, at, k == 0 ? "> " : "  ");
}

void show_machine(const struct machine *machine)
{
    print_registers(machine->image);
    print_tlb(machine);
    show_timers(machine);
    show_fault(machine);
    print_round_pc(machine);
}

void show_memory(const struct machine *machine, enum space space, unsigned address, unsigned bytes)
{
    for (unsigned k = 0; k < bytes; k++) {
        unsigned at = (address + k) & 0xFFFF;
        int byte = machine_byte(machine, space, at);
        if (k % 16 == 0)
            printf("%s%04X ", k > 0 ? "\n" : "", at);
        if (byte < 0)
            printf(" --");
        else
            printf(" %02X", (unsigned)byte);
    }
    printf("\n");
}

void show_instructions(const struct machine *machine, enum space space, unsigned address, unsigned count)
{
    for (; count > 0; count--)
        address = print_instruction(machine, space, address, "  ");
}

void show_next(const struct machine *machine) { print_instruction(machine, SPACE_NOW, machine_pc(machine), "> "); }

void show_report(const struct report *report)
{
    static const char *const endings[] = {"spent", "entered", "halted", "lost"};
    printf("%s ", endings[report->ending & 3]);
    if (report->ending == TAC_ENDING_ENTERED)
        printf("%u", report->number);
    else
        printf("-");
    printf(" %u %lu %04X %04X\n", report->steps, (unsigned long)report->states, report->pc, report->flag);
}

/* A field that differs, with what stands in front of its name. */
static void print_changed_field(const char *front, const struct field *field, const uint8_t *old, const uint8_t *new)
{
    if (field->bytes == 2 && word_in(old, field->at) != word_in(new, field->at))
        printf("  %s%s %04X>%04X", front, field->name, word_in(old, field->at), word_in(new, field->at));
    if (field->bytes == 1 && old[field->at] != new[field->at])
        printf("  %s%s %02X>%02X", front, field->name, old[field->at], new[field->at]);
}

static void print_changed_timer(const struct machine *before, const struct machine *after, int timer)
{
    char front[16];
    snprintf(front, sizeof front, "Timer%d ", timer);
    for (size_t k = 0; k < sizeof timer_fields / sizeof *timer_fields; k++)
        print_changed_field(front, &timer_fields[k], machine_timer(before, timer), machine_timer(after, timer));
}

static void print_changed_fields(const struct machine *before, const struct machine *after)
{
    for (size_t k = 0; k < sizeof fields / sizeof *fields; k++)
        print_changed_field("", &fields[k], before->image, after->image);
    for (int k = 0; k < TAC_TLB_ENTRIES; k++)
        if (machine_entry(before, k) != machine_entry(after, k))
            printf("  entry %d %06lX>%06lX", k, (unsigned long)machine_entry(before, k), (unsigned long)machine_entry(after, k));
    for (int k = 0; k < TAC_TIMERS; k++)
        print_changed_timer(before, after, k);
}

static void print_changed_memory(const struct machine *before, const struct machine *after)
{
    if (memcmp(before->memory, after->memory, TAC_MEMORY_BYTES) == 0)
        return;
    for (unsigned at = 0; at < TAC_MEMORY_BYTES; at++)
        if (before->memory[at] != after->memory[at])
            printf("  [%04X] %02X>%02X", at, before->memory[at], after->memory[at]);
}

void show_step(const struct machine *before, const struct machine *after, const struct report *report)
{
    char text[64], words[WORDS_BYTES];
    unsigned pc = machine_pc(before);
    unsigned following = write_instruction(before, SPACE_NOW, pc, text, sizeof text);
    bool entered = report->ending == TAC_ENDING_ENTERED;
    if (entered && report->number < TAC_NUMBER_MISS)
        snprintf(text, sizeof text, "           interrupt %u", report->number);
    printf("%04X  %-32s %3lu", pc, text, (unsigned long)report->states);
    if (machine_pc(after) != following)
        printf("  PC %04X", machine_pc(after));
    print_changed_fields(before, after);
    print_changed_memory(before, after);
    printf("\n");
    if (entered) {
        entry_words(after, report->number, words, sizeof words);
        printf("      entered %s\n", words);
    }
}
