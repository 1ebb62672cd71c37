/* tac-viewer: looks at a machine, steps it, and feeds it a card.
 *
 * Exit status: 0, or 2 with a line on standard error where an option, a file or a command of a script is bad or a file can't be read or
 * written. A bad command from a terminal is no end. */
#define _POSIX_C_SOURCE 200809L

#include "command.h"
#include "file.h"
#include "message.h"
#include "option.h"
#include "session.h"
#include "show.h"

#include <errno.h>
#include <stdio.h>
#include <string.h>
#include <unistd.h>

const char program_name[] = "tac-viewer";

#define LINE_BYTES 1024

struct options {
    const char *file, *save, *script;
    struct loads loads;
    bool trace;
};

/* Commands: where they come from, and where they stand. */
struct source {
    FILE *file;
    const char *name;
    unsigned line;
    bool terminal;
};

static void print_help(void)
{
    printf("usage: tac-viewer [OPTION...] [FILE]\n"
           "  FILE              a card (.card, .hex) or a machine (.machine); without it the\n"
           "                    machine is zero but FLAG 0040h\n"
           "  --load ADDR FILE  bare words, to memory from ADDR (hexadecimal, physical) on;\n"
           "                    also several times\n"
           "  --script FILE     commands; without it they come from standard input\n"
           "  --trace           prints each step: PC, words, instruction, states, changes\n"
           "  --save FILE       writes the machine at the end, to a name that ends in\n"
           "                    .machine: its image and then its memory. It may be the\n"
           "                    machine that was opened\n"
           "  --help, -h        this text\n"
           "Commands:\n");
    print_commands();
}

/* Takes the options. False where only help is asked for. */
static bool take_options(struct options *options, int argc, char **argv)
{
    static const char *const operands[] = {"--load", "--script", "--save", NULL};
    for (int at = 1; at < argc; at++) {
        const char *word = argv[at];
        if (is_help(word))
            return false;
        else if (strcmp(word, "--load") == 0)
            take_load(&options->loads, argc, argv, &at);
        else if (strcmp(word, "--script") == 0)
            take_operand(&options->script, NAME_MISSING, argc, argv, &at);
        else if (strcmp(word, "--save") == 0)
            take_operand(&options->save, NAME_MISSING, argc, argv, &at);
        else if (strcmp(word, "--trace") == 0)
            take_flag(&options->trace, word);
        else
            take_file(&options->file, word, operands);
    }
    return true;
}

/* The session. What can't be written at its end is found first. */
static void begin(struct session *session, const struct options *options)
{
    char why[WHY_BYTES];
    session->file = options->file;
    session->script = options->script;
    session->loads = &options->loads;
    if (options->save != NULL && !session_may_save(session, options->save, why))
        fail("--save %s", why);
    if (options->save != NULL)
        must_be_writable(options->save);
    session->trace = options->trace;
    session->feed.open = open_all(options->file, &options->loads, &session->machine, &session->feed.card);
}

static struct source open_source(const char *script)
{
    struct source source = {stdin, "standard input", 0, script == NULL && isatty(STDIN_FILENO) == 1};
    if (script != NULL) {
        source.name = script;
        source.file = fopen(script, "r");
        if (source.file == NULL)
            fail("%s: %s", script, strerror(errno));
    }
    return source;
}

/* Reads a line. False at the end. */
static bool read_line(struct source *source, char *text)
{
    if (source->terminal)
        printf("tac> ");
    flush_output();
    source->line++;
    if (fgets(text, LINE_BYTES, source->file) == NULL) {
        if (ferror(source->file))
            fail("%s: %s", source->name, strerror(errno));
        return false;
    }
    if (strlen(text) == LINE_BYTES - 1)
        fail("%s:%u: the line is too long", source->name, source->line);
    return true;
}

static void do_commands(struct session *session, struct source *source)
{
    char text[LINE_BYTES], why[WHY_BYTES];
    while (read_line(source, text)) {
        enum done done = do_line(session, text, why);
        if (done == DONE_QUIT)
            return;
        if (done == DONE_BAD && !source->terminal)
            fail("%s:%u: %s", source->name, source->line, why);
        if (done == DONE_BAD)
            printf("%s\n", why);
    }
}

static void greet(const struct session *session)
{
    show_machine(&session->machine);
    if (session->feed.open)
        printf("a card of %lu bytes is open: next, rest and every step feed it\n", (unsigned long)session->feed.card.length);
}

int main(int argc, char **argv)
{
    static struct session session;
    struct options options = {0};
    char why[WHY_BYTES];
    if (!take_options(&options, argc, argv)) {
        print_help();
        end_output();
        return 0;
    }
    begin(&session, &options);
    struct source source = open_source(options.script);
    if (source.terminal)
        greet(&session);
    do_commands(&session, &source);
    end_output();
    if (options.save != NULL && !save_machine(options.save, &session.machine, why))
        fail("%s", why);
    return 0;
}
