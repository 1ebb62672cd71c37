/* The disassembler beside the library, over all 65,536 first words: fault 14 is entered exactly if there is no mnemonic, and the following
 * address, where a step shows it, is that of the words counted. */
#include "disassemble.h"
#include "look.h"
#include "message.h"

#include <stdio.h>
#include <string.h>

const char program_name[] = "words";

#define CODE 0x1000
#define TARGET 0x3000
#define STACK 0x2000

static struct machine start, machine;

/* Every word is one that divides, every register but PC an even address away from the code. */
static void prepare(void)
{
    machine_reset(&start);
    memset(start.memory, 0x02, sizeof start.memory);
    memset(start.image + TAC_IMAGE_G0, 0x40, TAC_IMAGE_PC - TAC_IMAGE_G0);
    put_word(start.image, TAC_IMAGE_SSP, STACK);
    put_word(start.image, TAC_IMAGE_PC, CODE);
    put_word(start.memory, CODE + 2, TARGET);
}

static struct report step(unsigned first, unsigned flag)
{
    machine = start;
    put_word(machine.memory, CODE, first);
    put_word(machine.image, TAC_IMAGE_FLAG, TAC_FLAG_P | flag);
    return machine_run(&machine, 1);
}

/* The address of the following instruction, or -1 where no step shows it: JMP, RET, RETI, DIV and MOD by #0. */
static long following(unsigned first)
{
    unsigned byte = first >> 8;
    struct report report = step(first, 0);
    if (report.ending == TAC_ENDING_ENTERED)
        return report.number == TAC_NUMBER_SVC ? (long)report.pc : -1;
    if (byte == 0xA8 || byte == 0xA9) /* CALL pushes it */
        return (long)word_in(machine.memory, STACK - 2);
    if (byte == 0xD0 || byte == 0xD4) /* RET, RETI */
        return -1;
    if (byte != 0xA0 && byte != 0xA1)
        return (long)machine_pc(&machine);
    for (unsigned flag = 0; flag < 16; flag++) { /* a jump that is not taken */
        report = step(first, flag);
        if (report.states == 4)
            return (long)machine_pc(&machine);
    }
    return -1;
}

int main(void)
{
    unsigned wrong = 0, defined = 0, unseen = 0;
    prepare();
    for (unsigned first = 0; first < 65536; first++) {
        struct instruction read = disassemble(first, TARGET);
        struct report report = step(first, 0);
        bool fault = report.ending == TAC_ENDING_ENTERED && report.number == TAC_NUMBER_UNDEFINED;
        bool none = read.words == 0 && read.text[0] == '\0';
        long next = none ? -1 : following(first);
        defined += !none;
        unseen += !none && next < 0;
        if (fault != none || (read.words == 0) != (read.text[0] == '\0') || (next >= 0 && next != CODE + 2 * read.words)) {
            printf("%04X: %s, %d words\n", first, none ? "no mnemonic" : read.text, read.words);
            wrong++;
        }
    }
    printf("words: %u defined, %u of them with a following address that no step shows, %u wrong\n", defined, unseen, wrong);
    return wrong > 0;
}
