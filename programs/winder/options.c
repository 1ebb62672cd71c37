#include "options.h"

#include "file.h"
#include "message.h"
#include "number.h"
#include "vary.h"

#include <stdio.h>
#include <string.h>

/* The options that take a number: its bounds, and what it is where none is given. */
struct form {
    const char *option, *meaning;
    uint32_t low, high;
    bool varies;         /* takes a range with --vary */
    const char *without; /* NULL: one has to be given; of --input and --processes it stands for none */
};

static const struct form forms[NUMBERS] = {
    {"--turns", "the label's maximum turns", 1, TAC_WIND_TURNS, true, NULL},
    {"--notches", "notches per turn", 1, TAC_WIND_NOTCHES, true, NULL},
    {"--rundown", "ticks from one notch that the train takes to the next", 1, TAC_WIND_RUNDOWN, true, NULL},
    {"--ticks", "ticks", 1, TAC_WIND_TICKS, false, "1000"},
    {"--steps", "steps of the machine in a tick", 1, TAC_WIND_STEPS, true, "1000"},
    {"--input", "the input byte at the start", 0, 255, true, "0"},
    {"--processes", "processes at the same time", 1, PROCESSES_MOST, false, "1"},
};

/* The options that name a file to write. */
static const char *const written_options[WRITTENS] = {"--csv", "--svg", "--save"};

static const char *const help[] = {
    "usage: tac-winder [OPTION...] FILE",
    "Simulates a winder: in each tick the machine runs, bit 0 of its output byte",
    "winds a notch, and the train takes one now and then. Bit 0 of its input byte",
    "says that the label is reached. The notches that stand are held against the",
    "label. Numbers are decimal; only the ADDR of --load is hexadecimal.",
    "  FILE              a card (.card, .hex), which is carried out first, its runs",
    "                    too, or a machine (.machine): where it leaves the machine",
    "                    the simulation starts, with an empty barrel",
    "  --load ADDR FILE  bare words, to memory from ADDR (physical) on, before the",
    "                    card is carried out; also several times",
    "The winder. The first three have to be given:",
    "  --turns N         the label's maximum turns, 1-999",
    "  --notches N       notches per turn, 1-64",
    "  --rundown N       every N-th tick the train takes a notch, 1-64",
    "  --ticks N         1-65535; without it 1000",
    "  --steps N         steps of the machine in a tick, 1-65535; without it 1000.",
    "                    Few are the hard case for a kernel: more ticks pass before",
    "                    it looks at the label. No milliseconds pass in a tick, so",
    "                    no timer fires",
    "  --input N         the input byte at the start, 0-255; without it the",
    "                    machine's. Bit 0 is cleared in any case",
    "What is shown, besides a listing on standard output:",
    "  --plot            the notches standing, as a plot; without it only where",
    "                    standard output is a terminal of 40 columns or more. If",
    "                    set, COLUMNS is its width, and NO_COLOR takes its colour",
    "  --svg FILE        the same as an SVG picture",
    "  --csv FILE        a line for each tick: tick,standing,motor,input. standing:",
    "                    the notches after the tick; motor: 1 where it wound one;",
    "                    input: the byte that the machine read in it. With - for",
    "                    FILE it, or the picture, takes the place of the listing",
    "  --save FILE       writes the machine at the end, to a name that ends in",
    "                    .machine: its image and then its memory. The notches",
    "                    standing are not in it",
    "Many settings at once, at most 1,000,000, without plot and files:",
    "  --vary            simulates each of them and lists those in which the label",
    "                    was passed, on a terminal the first 40. --turns, --notches,",
    "                    --rundown, --steps and --input take N, A-B or A-B:STEP",
    "  --processes N     at most so many at the same time, 1-1024; without it as",
    "                    many as there are processors",
    "  --help, -h        this text",
    "Each simulation is done by the proved tac_wind and, but for --vary, tick by",
    "tick beside it; both have to agree. Ctrl-C stops it, and the listing has what",
    "was done; while the ticks done are checked, Ctrl-C ends the check.",
    "Exit status: 0 the label was not passed, 1 it was, 130 the program was stopped",
    "and the label not passed so far; 2 with a line on standard error where",
    "something is bad, or can't be read or written.",
};

void print_help(void)
{
    for (size_t k = 0; k < sizeof help / sizeof *help; k++)
        puts(help[k]);
}

/* A number, not a range. */
static bool take_number(const char *text, const struct form *form, struct range *range, char *why)
{
    unsigned long number = 0;
    const char *behind = leading_number(text, &number);
    if (behind != NULL && *behind == '-')
        return because(why, "%s is a range; %s", text, form->varies ? "ranges go with --vary" : "it takes a number, also with --vary");
    if (behind == NULL || *behind != '\0')
        return because(why, "%s is no number, %lu-%lu", text, (unsigned long)form->low, (unsigned long)form->high);
    if (number < form->low || number > form->high)
        return because(why, "%s is beyond %lu-%lu", text, (unsigned long)form->low, (unsigned long)form->high);
    *range = (struct range){(uint32_t)number, (uint32_t)number, 1};
    return true;
}

static void take_numbers(struct options *options)
{
    char why[WHY_BYTES];
    for (int k = 0; k < NUMBERS; k++) {
        const struct form *form = &forms[k];
        const char *text = options->words[k] != NULL ? options->words[k] : form->without;
        struct range *range = &options->numbers[k];
        if (text == NULL)
            fail("%s is missing: %s, %lu-%lu; --help says more", form->option, form->meaning, (unsigned long)form->low,
                 (unsigned long)form->high);
        bool taken =
            options->vary && form->varies ? take_range(text, form->low, form->high, range, why) : take_number(text, form, range, why);
        if (!taken)
            fail("%s: %s", form->option, why);
    }
}

/* Fails where a file to write is one that is read, or another one that is written. */
static void test_name(const struct options *options, int k)
{
    const char *name = options->written[k], *option = written_options[k];
    char why[WHY_BYTES];
    if (is_standard(name) && k == WRITTEN_MACHINE)
        fail("--save -: a machine does not go to standard output");
    if (!is_standard(name) && !test_unread(name, options->file, &options->loads, why))
        fail("%s %s", option, why);
    for (int other = 0; other < k; other++) {
        const char *before = options->written[other];
        if (before != NULL && is_standard(before) == is_standard(name) && (is_standard(name) || same_file(before, name)))
            fail("%s %s does not go with %s %s: both go to one place", option, name, written_options[other], before);
    }
    if (k == WRITTEN_MACHINE && !test_machine_name(name, why))
        fail("%s %s", option, why);
}

/* Fails where files to write don't go with --vary, or with other files. */
static void test_written(const struct options *options)
{
    for (int k = 0; k < WRITTENS; k++) {
        if (options->written[k] != NULL && options->vary)
            fail("%s does not go with --vary", written_options[k]);
        if (options->written[k] != NULL)
            test_name(options, k);
    }
}

/* Fails where options don't go together. */
static void test_together(const struct options *options)
{
    if (options->vary && options->plot)
        fail("--plot does not go with --vary");
    test_written(options);
    if (options->plot && is_standard(options->written[WRITTEN_CSV]))
        fail("--plot does not go with --csv -");
    if (options->plot && is_standard(options->written[WRITTEN_SVG]))
        fail("--plot does not go with --svg -");
    if (!options->vary && options->words[NUMBER_PROCESSES] != NULL)
        fail("--processes goes with --vary");
    if (options->file == NULL)
        fail("a card or a machine is missing; --help says more");
}

bool is_standard(const char *name) { return name != NULL && strcmp(name, "-") == 0; }

/* The number that an option takes, or NUMBERS. */
static int number_of(const char *word)
{
    int k = 0;
    while (k < NUMBERS && strcmp(word, forms[k].option) != 0)
        k++;
    return k;
}

/* What an option has written, or WRITTENS. */
static int written_of(const char *word)
{
    int k = 0;
    while (k < WRITTENS && strcmp(word, written_options[k]) != 0)
        k++;
    return k;
}

/* The number behind an option. */
static void take_word(struct options *options, int number, int argc, char **argv, int *at)
{
    char missing[80];
    snprintf(missing, sizeof missing, "its number is missing, %lu-%lu", (unsigned long)forms[number].low, (unsigned long)forms[number].high);
    take_operand(&options->words[number], missing, argc, argv, at);
}

/* The options that take a word behind them, up to NULL. */
static const char *const *operands(void)
{
    static const char *names[NUMBERS + WRITTENS + 2];
    int count = 0;
    for (int k = 0; k < NUMBERS; k++)
        names[count++] = forms[k].option;
    for (int k = 0; k < WRITTENS; k++)
        names[count++] = written_options[k];
    names[count] = "--load";
    return names;
}

bool take_options(struct options *options, int argc, char **argv)
{
    for (int at = 1; at < argc; at++) {
        const char *word = argv[at];
        int number = number_of(word), written = written_of(word);
        if (is_help(word))
            return false;
        else if (written < WRITTENS)
            take_operand(&options->written[written], NAME_MISSING, argc, argv, &at);
        else if (number < NUMBERS)
            take_word(options, number, argc, argv, &at);
        else if (strcmp(word, "--load") == 0)
            take_load(&options->loads, argc, argv, &at);
        else if (strcmp(word, "--plot") == 0)
            take_flag(&options->plot, word);
        else if (strcmp(word, "--vary") == 0)
            take_flag(&options->vary, word);
        else
            take_file(&options->file, word, operands());
    }
    test_together(options);
    take_numbers(options);
    return true;
}
