/* Campaigns. Usage:
 *   vary ranges            texts as ranges
 *   vary alone             the listing of a campaign, by a call of tac_wind for each setting, one after the other
 *   vary campaign [N]      the same campaign with N processes, or as many as there are processors
 *   vary few [N]           one in which the label holds: only large steps, and the machine's input byte
 *   vary killed            one of which a process is killed
 *   vary refused           one that tac_wind refuses */
#define _POSIX_C_SOURCE 200809L

#include "vary.h"

#include "message.h"

#include <fcntl.h>
#include <signal.h>
#include <stdio.h>
#include <stdlib.h>
#include <string.h>
#include <time.h>
#include <unistd.h>

const char program_name[] = "vary";

/* Winds unless the label is reached, and looks the later the larger the input byte is. */
static const uint8_t program[] = {
    0xB0, 0x00, 0x00, 0x18, /* 0000: IN G0,0018h */
    0x0C, 0x10,             /* 0004: LD G1,G0 */
    0x35, 0x01,             /* 0006: AND G0,#1 */
    0x45, 0x01,             /* 0008: XOR G0,#1 */
    0xB8, 0x00, 0x00, 0x18, /* 000A: OUT G0,0018h */
    0x9D, 0x11,             /* 000E: SHRL G1,#1 */
    0xA0, 0x00, 0x00, 0x00, /* 0010: JZ 0000h */
    0x25, 0x11,             /* 0014: SUB G1,#1 */
    0xA0, 0x80, 0x00, 0x14, /* 0016: JNZ 0014h */
    0xA0, 0xF0, 0x00, 0x00  /* 001A: JMP 0000h */
};

static const struct loads none;
static const struct origin input = {"made.card", &none, true, {3, 12, 1}}, no_input = {"made.card", &none, false, {0, 0, 1}};
static const struct campaign whole = {{1, 3, 1}, {1, 9, 4}, {3, 8, 2}, {5, 30, 10}, 30, &input, 0};

static struct machine start;

/* What is tried one by one. */
static unsigned settings, passed, unreached, most_over;
static char worst[160];
static FILE *table;

static void print_ranges(void)
{
    static const char *const texts[] = {"7",     "2-9",   "2-9:3", "9-9",   "2-9:8", "2-9:99999999999999999999", "007-9:01", "2",  "99",
                                        "1",     "100",   "2-100", "1-9",   "9-2",   "2-9:0",                    "0",        "",   "-",
                                        "2-",    "-9",    "2:3",   "2-9:",  "2-9:x", "2-9:2:2",                  "2-9-12",   " 2", "+2",
                                        "2 - 9", "0x2-9", "2,9",   "2-9 ",  "99999999999999999999"};
    for (size_t k = 0; k < sizeof texts / sizeof *texts; k++) {
        struct range range;
        char why[WHY_BYTES];
        if (!take_range(texts[k], 2, 99, &range, why))
            printf("%s\n", why);
        else
            printf("%s: from %u to %u by %u\n", texts[k], (unsigned)range.first, (unsigned)range.last, (unsigned)range.by);
    }
}

/* One call. Answers the first tick over, and in `most` the most standing. */
static unsigned wind(unsigned turns, unsigned notches, unsigned rundown, unsigned steps, unsigned input, unsigned *most)
{
    static uint8_t places[TAC_WIND_TICKS * TAC_WIND_PLACE_BYTES];
    struct machine machine = start;
    machine.image[TAC_IMAGE_INPUT] = (uint8_t)input;
    uint64_t answer = tac_wind(machine.memory, sizeof machine.memory, machine.image, sizeof machine.image, turns, notches, rundown,
                               whole.ticks, steps, places, sizeof places);
    *most = 0;
    for (unsigned k = 0; k < whole.ticks; k++)
        *most = word_in(places, 2 * (int)k) > *most ? word_in(places, 2 * (int)k) : *most;
    return TAC_REFUSAL(answer) == TAC_GOOD ? TAC_FIRST_OVER(answer) : 0;
}

/* A setting, counted and, where it is over, with its line in the table. */
static void try_alone(unsigned turns, unsigned notches, unsigned rundown, unsigned steps, unsigned input)
{
    unsigned most, over = wind(turns, notches, rundown, steps, input, &most), label = turns * notches;
    settings++;
    passed += over != 0;
    unreached += most < label;
    if (over != 0)
        fprintf(table, "%5u  %7u  %5u  %8u  %5u  %5u  %15u  %13u\n", turns, notches, label, rundown, steps, input, over, most);
    if (over == 0 || most - label <= most_over)
        return;
    most_over = most - label;
    snprintf(worst, sizeof worst, "turns %u, notches %u, run-down %u, steps %u, input %u", turns, notches, rundown, steps, input);
}

/* The listing of the whole campaign, its loops written out. */
static int print_alone(void)
{
    table = tmpfile();
    if (table == NULL)
        return 2;
    for (unsigned barrel = 0; barrel < 3 * 3 * 3; barrel++)
        for (unsigned steps = 5; steps <= 30; steps += 10)
            for (unsigned input = 2; input <= 12; input += 2)
                try_alone(1 + barrel / 9, 1 + 4 * (barrel / 3 % 3), 3 + 2 * (barrel % 3), steps, input);
    printf("card: made.card\nturns: 1-3\nnotches per turn: 1-9:4\nrun-down: 3-8:2\nsteps a tick: 5-30:10\ninput: 3-12\nticks: 30\n");
    printf("settings tried: %u\nlabel: passed in %u of the %u, not reached in %u of them\n", settings, passed, settings, unreached);
    printf("turns  notches  label  run-down  steps  input  first tick over  most standing\n");
    rewind(table);
    for (int c; (c = getc(table)) != EOF;)
        putchar(c);
    printf("most over: %u notches, at %s\n", most_over, worst);
    fclose(table);
    return 1;
}

static int deaths[2];
static pid_t tester;

/* One of the processes that gets the signal, and not the tester, kills itself. */
static void die(int signal)
{
    char byte;
    (void)signal;
    if (getpid() != tester && read(deaths[0], &byte, 1) == 1)
        kill(getpid(), SIGKILL);
}

/* A campaign that takes hours, and a process beside it that signals to all of it as long as it lasts. */
static int vary_killed(void)
{
    const struct timespec pause = {0, 100000000};
    struct campaign campaign = {{1, 999, 1}, {64, 64, 1}, {64, 64, 1}, {65535, 65535, 1}, 65535, &no_input, 3};
    struct sigaction action;
    tester = getpid();
    if (setpgid(0, 0) != 0 || pipe(deaths) != 0 || fcntl(deaths[0], F_SETFL, O_NONBLOCK) < 0 || write(deaths[1], "", 1) != 1)
        return 3;
    memset(&action, 0, sizeof action);
    sigemptyset(&action.sa_mask);
    action.sa_flags = SA_RESTART;
    action.sa_handler = die;
    sigaction(SIGUSR1, &action, NULL);
    signal(SIGCHLD, SIG_IGN); /* as it may be from outside: the death of a process is seen all the same */
    pid_t beside = fork();
    if (beside < 0)
        return 3;
    if (beside > 0)
        return vary(&start, &campaign);
    signal(SIGUSR1, SIG_IGN);
    while (getppid() == tester) {
        nanosleep(&pause, NULL);
        kill(0, SIGUSR1);
    }
    _exit(0);
}

int main(int argc, char **argv)
{
    const char *mode = argc > 1 ? argv[1] : "";
    struct campaign campaign = whole;
    campaign.processes = argc > 2 ? (unsigned)strtoul(argv[2], NULL, 10) : 0;
    machine_reset(&start);
    memcpy(start.memory, program, sizeof program);
    if (strcmp(mode, "ranges") == 0) {
        print_ranges();
        return 0;
    }
    if (strcmp(mode, "alone") == 0)
        return print_alone();
    if (strcmp(mode, "killed") == 0)
        return vary_killed();
    if (strcmp(mode, "few") == 0) {
        campaign.origin = &no_input;
        campaign.steps.first = 20;
    }
    if (strcmp(mode, "refused") == 0)
        campaign.ticks = 0;
    return vary(&start, &campaign);
}
