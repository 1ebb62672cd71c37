#include "command.h"

#include "file.h"
#include "look.h"
#include "message.h"
#include "number.h"
#include "set.h"
#include "show.h"

#include <stdio.h>
#include <string.h>

#define WORDS_MOST 5

/* The steps of go, continue and watch where no limit is given. */
#define LIMIT 1000000
#define COUNT_MOST 999999999

/* A command line: its words behind the command, and how many of them are used up. */
struct line {
    struct session *session;
    char *words[WORDS_MOST];
    int count, used;
    char *why;
};

/* The next word as an address. */
static bool take_address(struct line *line, unsigned *address)
{
    unsigned long number;
    if (line->used == line->count)
        return because(line->why, "an address is missing");
    if (!hexadecimal_number(line->words[line->used], 0xFFFF, &number))
        return because(line->why, "%s is no address", line->words[line->used]);
    line->used++;
    *address = (unsigned)number;
    return true;
}

/* The next word as a count, if there is one. */
static bool take_count(struct line *line, unsigned long *count)
{
    if (line->used == line->count)
        return true;
    if (!decimal_number(line->words[line->used], COUNT_MOST, count))
        return because(line->why, "%s is no count", line->words[line->used]);
    line->used++;
    return true;
}

/* The next word as a space, if it is one. */
static enum space take_space(struct line *line)
{
    const char *word = line->used < line->count ? line->words[line->used] : "";
    bool logical = strcmp(word, "l") == 0 || strcmp(word, "logical") == 0;
    bool physical = strcmp(word, "p") == 0 || strcmp(word, "physical") == 0;
    line->used += logical || physical;
    return logical ? SPACE_LOGICAL : physical ? SPACE_PHYSICAL : SPACE_NOW;
}

static bool take_end(const struct line *line)
{
    return line->used == line->count || because(line->why, "%s is too much", line->words[line->used]);
}

/* A command of no words that only shows. */
static bool only_show(const struct line *line, void (*show)(const struct machine *machine))
{
    if (!take_end(line))
        return false;
    show(&line->session->machine);
    return true;
}

static bool do_show(struct line *line) { return only_show(line, show_machine); }

static bool do_fault(struct line *line) { return only_show(line, show_fault); }

static bool do_step(struct line *line)
{
    unsigned long count = 1;
    if (!take_count(line, &count) || !take_end(line))
        return false;
    session_move(line->session, UNTIL_LIMIT, 0, count);
    return true;
}

static bool do_go(struct line *line)
{
    unsigned address;
    unsigned long limit = LIMIT;
    if (!take_address(line, &address) || !take_count(line, &limit) || !take_end(line))
        return false;
    session_move(line->session, UNTIL_ADDRESS, address, limit);
    return true;
}

static bool do_continue(struct line *line)
{
    unsigned long limit = LIMIT;
    if (!take_count(line, &limit) || !take_end(line))
        return false;
    session_move(line->session, UNTIL_ENTRY, 0, limit);
    return true;
}

static bool do_watch(struct line *line)
{
    unsigned address;
    unsigned long limit = LIMIT;
    enum space space = take_space(line);
    if (!take_address(line, &address) || !take_count(line, &limit) || !take_end(line))
        return false;
    long at = machine_translate(&line->session->machine, space, address);
    if (at < 0)
        return because(line->why, "no entry has the page");
    session_move(line->session, UNTIL_CHANGE, (unsigned)at, limit);
    return true;
}

static bool do_dump(struct line *line)
{
    unsigned address;
    unsigned long count = 64;
    enum space space = take_space(line);
    if (!take_address(line, &address) || !take_count(line, &count) || !take_end(line))
        return false;
    if (count == 0 || count > TAC_MEMORY_BYTES)
        return because(line->why, "a dump has 1 to 65536 bytes");
    show_memory(&line->session->machine, space, address, (unsigned)count);
    return true;
}

static bool do_list(struct line *line)
{
    unsigned address = machine_pc(&line->session->machine);
    unsigned long count = 8;
    enum space space = take_space(line);
    if (line->used < line->count && !take_address(line, &address))
        return false;
    if (!take_count(line, &count) || !take_end(line))
        return false;
    if (count == 0 || count > TAC_MEMORY_BYTES / 2)
        return because(line->why, "a list has 1 to 32768 instructions");
    show_instructions(&line->session->machine, space, address, (unsigned)count);
    return true;
}

static bool do_set(struct line *line)
{
    return set_by_words(&line->session->machine, line->count, line->words, line->why);
}

static bool do_time(struct line *line)
{
    unsigned long milliseconds;
    if (line->count == 0)
        return because(line->why, "a number of milliseconds is missing");
    if (!decimal_number(line->words[0], MILLISECONDS_MOST, &milliseconds))
        return because(line->why, "%s is no number of milliseconds, 0 to 65535", line->words[0]);
    line->used++;
    if (!take_end(line))
        return false;
    machine_pass(&line->session->machine, (unsigned)milliseconds);
    show_timers(&line->session->machine);
    return true;
}

static bool do_next(struct line *line)
{
    unsigned long count = 1;
    if (!take_count(line, &count) || !take_end(line))
        return false;
    if (!line->session->feed.open)
        return because(line->why, "no card is open, or it is at its end");
    session_feed(line->session, count);
    return true;
}

static bool do_rest(struct line *line)
{
    if (!take_end(line))
        return false;
    if (!line->session->feed.open && line->session->feed.card.length == 0)
        return because(line->why, "no card is open");
    session_feed(line->session, TAC_CARD_BYTES);
    return true;
}

static bool do_trace(struct line *line)
{
    const char *word = line->count == 1 ? line->words[0] : "";
    if (strcmp(word, "on") != 0 && strcmp(word, "off") != 0)
        return because(line->why, "trace on, or trace off");
    line->session->trace = strcmp(word, "on") == 0;
    return true;
}

static bool do_save(struct line *line)
{
    if (line->count != 1)
        return because(line->why, "save FILE");
    return session_may_save(line->session, line->words[0], line->why) &&
           save_machine(line->words[0], &line->session->machine, line->why);
}

static bool do_help(struct line *line)
{
    if (!take_end(line))
        return false;
    print_commands();
    return true;
}

struct command {
    const char *name, *letter, *operands, *help;
    bool (*act)(struct line *line);
};

static const struct command commands[] = {
    {"show", "", "", "the machine, and the instructions round PC", do_show},
    {"fault", "f", "", "the fault record; its cause stays for the kernel's IN of A4h", do_fault},
    {"step", "s", "[N]", "N steps", do_step},
    {"go", "g", "ADDR [LIMIT]", "steps until PC is ADDR", do_go},
    {"continue", "c", "[LIMIT]", "steps to the next kernel entry", do_continue},
    {"watch", "w", "[l|p] ADDR [LIMIT]", "steps until the byte there changes", do_watch},
    {"dump", "d", "[l|p] ADDR [N]", "N bytes of memory", do_dump},
    {"list", "l", "[l|p] [ADDR [N]]", "N instructions, disassembled", do_list},
    {"set", "", "WHAT VALUE", "sets what a card can set: " SET_WORDS, do_set},
    {"time", "t", "N", "N milliseconds pass, 0 to 65535; then lines and timers", do_time},
    {"next", "n", "[N]", "N commands of the card; a run is done to its end", do_next},
    {"rest", "r", "", "the rest of the card", do_rest},
    {"trace", "", "on|off", "a line for each step", do_trace},
    {"save", "", "FILE", "writes the machine, to a name that ends in .machine", do_save},
    {"help", "h", "", "this list", do_help},
    {"quit", "q", "", "ends; so does the end of the commands", NULL},
};

#define HELP_LEFT 34 /* columns before what a command does */
#define HELP_COLUMNS 80

/* What a command does, from column HELP_LEFT on, in as many lines as it takes. */
static void print_action(const char *text)
{
    int room = HELP_COLUMNS - HELP_LEFT, length = (int)strlen(text);
    while (length > room) {
        int part = room;
        while (text[part] != ' ')
            part--;
        printf("%.*s\n%*s", part, text, HELP_LEFT, "");
        text += part + 1;
        length -= part + 1;
    }
    printf("%s\n", text);
}

void print_commands(void)
{
    for (size_t k = 0; k < sizeof commands / sizeof *commands; k++) {
        const struct command *command = &commands[k];
        printf("  %-8s %-2s %-19s ", command->name, command->letter, command->operands);
        print_action(command->help);
    }
    printf("Addresses and values are hexadecimal, counts and milliseconds decimal. An\n"
           "address is taken as the machine stands (translated if the MMU is on and P=0),\n"
           "after l as by a user program (translated if the MMU is on), after p as\n"
           "physical. LIMIT is %d without a word. Time passes only by time and by\n"
           "command 08 of a card.\n",
           LIMIT);
}

enum done do_line(struct session *session, char *text, char *why)
{
    struct line line = {session, {NULL}, 0, 0, why};
    const char *blanks = " \t\r\n";
    text[strcspn(text, "#")] = '\0';
    char *name = strtok(text, blanks);
    if (name == NULL)
        return DONE_GOOD;
    for (char *word; (word = strtok(NULL, blanks)) != NULL; line.words[line.count++] = word)
        if (line.count == WORDS_MOST) {
            because(why, "%s is too much", word);
            return DONE_BAD;
        }
    for (size_t k = 0; k < sizeof commands / sizeof *commands; k++)
        if (strcmp(name, commands[k].name) == 0 || (commands[k].letter[0] != '\0' && strcmp(name, commands[k].letter) == 0)) {
            if (commands[k].act == NULL)
                return DONE_QUIT;
            return commands[k].act(&line) ? DONE_GOOD : DONE_BAD;
        }
    because(why, "%s is no command; help lists them", name);
    return DONE_BAD;
}
