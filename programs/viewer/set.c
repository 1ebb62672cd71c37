#include "set.h"

#include "message.h"
#include "number.h"

#include <ctype.h>

/* What can be set: the command of a card, and the bytes of each number that follows. Registers are apart. */
struct form {
    const char *name;
    uint8_t command;
    int widths[2];
};

static const struct form forms[] = {
    {"byte", TAC_COMMAND_BYTE, {2, 1}}, {"entry", TAC_COMMAND_ENTRY, {1, 3}}, {"mmu", TAC_COMMAND_MMU, {1, 0}},
    {"flag", TAC_COMMAND_FLAG, {2, 0}}, {"lines", TAC_COMMAND_LINES, {2, 0}}, {"input", TAC_COMMAND_LINES, {1, 0}},
};

static const struct form register_form = {"register", TAC_COMMAND_REGISTER, {2, 0}};

/* By the numbers of command 02. */
static const char *const registers[] = {"G0", "G1", "G2",  "G3",  "G4", "G5",  "G6",  "G7",
                                        "G8", "G9", "G10", "G11", "FP", "SSP", "USP", "PC"};

/* A command being made. */
struct made {
    uint8_t bytes[8];
    size_t length;
};

static bool same(const char *a, const char *b)
{
    while (*a != '\0' && tolower((unsigned char)*a) == tolower((unsigned char)*b))
        a++, b++;
    return *a == *b;
}

/* Adds a number of so many bytes. */
static bool put_number(struct made *made, int width, const char *word, char *why)
{
    unsigned long number;
    if (!hexadecimal_number(word, (1UL << 8 * width) - 1, &number))
        return because(why, "%s is no number of up to %d hexadecimal digits", word, 2 * width);
    while (width-- > 0)
        made->bytes[made->length++] = (uint8_t)(number >> 8 * width & 0xFF);
    return true;
}

/* The form of a name, and the command's front part. */
static const struct form *begin(struct made *made, const char *name)
{
    const struct form *form = NULL;
    for (size_t k = 0; k < sizeof forms / sizeof *forms; k++)
        if (same(name, forms[k].name))
            form = &forms[k];
    made->length = 1;
    for (size_t k = 0; k < sizeof registers / sizeof *registers; k++)
        if (same(name, registers[k])) {
            form = &register_form;
            made->bytes[made->length++] = (uint8_t)k;
        }
    if (form != NULL)
        made->bytes[0] = form->command;
    if (form != NULL && same(name, "input")) { /* no lines are added */
        made->bytes[made->length++] = 0;
        made->bytes[made->length++] = 0;
    }
    return form;
}

bool set_by_words(struct machine *machine, int count, char *const *words, char *why)
{
    struct made made;
    const struct form *form = count > 0 ? begin(&made, words[0]) : NULL;
    if (form == NULL || count != (form->widths[1] > 0 ? 3 : 2))
        return because(why, "set %s", SET_WORDS);
    for (int k = 1; k < count; k++) {
        bool on = form->command == TAC_COMMAND_MMU && same(words[k], "on"), off = form->command == TAC_COMMAND_MMU && same(words[k], "off");
        if (!put_number(&made, form->widths[k - 1], on ? "1" : off ? "0" : words[k], why))
            return false;
    }
    if (same(words[0], "lines")) /* the input byte stays */
        made.bytes[made.length++] = machine->image[TAC_IMAGE_INPUT];
    unsigned refusal = TAC_REFUSAL(machine_commands(machine, made.bytes, made.length));
    return refusal == TAC_GOOD || because(why, "refused %u: %s", refusal, refusal_words(refusal));
}
