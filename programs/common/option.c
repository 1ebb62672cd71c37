#include "option.h"

#include "file.h"
#include "message.h"
#include "number.h"

#include <string.h>

bool is_help(const char *word) { return strcmp(word, "--help") == 0 || strcmp(word, "-h") == 0; }

/* The word behind an option. */
static const char *operand(const char *option, const char *missing, int argc, char **argv, int *at)
{
    if (*at + 1 >= argc || strncmp(argv[*at + 1], "--", 2) == 0)
        fail("%s: %s", option, missing);
    return argv[++*at];
}

void take_operand(const char **place, const char *missing, int argc, char **argv, int *at)
{
    const char *option = argv[*at];
    if (*place != NULL)
        fail("%s: given twice", option);
    *place = operand(option, missing, argc, argv, at);
}

void take_flag(bool *place, const char *option)
{
    if (*place)
        fail("%s: given twice", option);
    *place = true;
}

void take_load(struct loads *loads, int argc, char **argv, int *at)
{
    unsigned long address;
    const char *word = operand("--load", "its address is missing, hexadecimal", argc, argv, at);
    if (loads->count == LOADS_MOST)
        fail("--load: at most %d", LOADS_MOST);
    if (!hexadecimal_number(word, 0xFFFF, &address))
        fail("--load: %s is no address", word);
    loads->files[loads->count].address = (unsigned)address;
    loads->files[loads->count++].file = operand("--load", NAME_MISSING, argc, argv, at);
}

/* Fails for a word that begins with - and is no option, or one that has its operand behind a =. */
static void refuse_option(const char *word, const char *const *operands)
{
    size_t length = strcspn(word, "=");
    for (; *operands != NULL && word[length] == '='; operands++)
        if (strlen(*operands) == length && strncmp(word, *operands, length) == 0)
            fail("%s: write %s %s", word, *operands, word[length + 1] != '\0' ? word + length + 1 : "and its word behind a blank");
    fail("%s is no option; --help lists them", word);
}

void take_file(const char **file, const char *word, const char *const *operands)
{
    if (strcmp(word, "-") == 0)
        fail("-: a card is read from a file, .card, .hex or .machine");
    if (word[0] == '-')
        refuse_option(word, operands);
    if (*file != NULL)
        fail("%s: one file is taken, and that is %s", word, *file);
    *file = word;
}

bool open_all(const char *file, const struct loads *loads, struct machine *machine, struct card *card)
{
    char why[WHY_BYTES];
    enum opened opened = OPENED_NOTHING;
    machine_reset(machine);
    if (file != NULL && (opened = open_file(file, machine, card, why)) == OPENED_NOTHING)
        fail("%s", why);
    for (int k = 0; k < loads->count; k++)
        if (!load_words(loads->files[k].file, loads->files[k].address, machine, why))
            fail("%s", why);
    return opened == OPENED_CARD;
}

bool test_unread(const char *name, const char *file, const struct loads *loads, char *why)
{
    if (file != NULL && same_file(name, file))
        return because(why, "%s: it is the %s that is read", name, ends_in(file, ".machine") ? "machine" : "card");
    for (int k = 0; k < loads->count; k++)
        if (same_file(name, loads->files[k].file))
            return because(why, "%s: it has the words that are loaded", name);
    return true;
}

void must_be_writable(const char *name)
{
    char why[WHY_BYTES];
    if (!test_writing(name, why))
        fail("%s", why);
}
