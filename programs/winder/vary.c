#define _POSIX_C_SOURCE 200809L

#include "vary.h"

#include "message.h"
#include "process.h"
#include "progress.h"
#include "proved.h"
#include "status.h"

#include <errno.h>
#include <poll.h>
#include <signal.h>
#include <stdio.h>
#include <string.h>
#include <sys/wait.h>
#include <unistd.h>

#define LISTED_MOST 40    /* settings in the listing on a terminal */
#define LOOK_EVERY 100    /* milliseconds from one look at the processes to the next */
#define STATUS_BROKEN 255 /* of a process that can't take a setting; a refusal of tac_wind is a status too */

/* What is varied, the first the slowest. */
enum { TURNS, NOTCHES, RUNDOWN, STEPS, INPUT, PARTS };

/* What a simulation came to. `done` is written last. */
struct result {
    uint32_t first_over, most, done;
};

/* A campaign under way. */
struct crew {
    const struct machine *start;
    struct range parts[PARTS];
    uint32_t ticks, settings;
    volatile struct result *results; /* shared by all, in the order of the settings */
    int queue[2];                    /* a pipe that holds the number of the next setting, in turn for each process */
    int working[2];                  /* a pipe that all processes hold open, and nobody writes to */
    pid_t processes[PROCESSES_MOST]; /* 0 for one that has ended */
    unsigned started;
    int bad; /* as waitpid gives it, of a process that did not end well; else 0 */
};

/* --- Settings */

/* The input bytes to try: bit 0 is cleared in all, and those that this makes equal are one. */
static struct range input_bytes(const struct machine *start, const struct campaign *campaign)
{
    uint32_t byte = start->image[TAC_IMAGE_INPUT];
    struct range range = {byte, byte, 1};
    if (campaign->origin->has_input)
        range = campaign->origin->input;
    if (range.by == 1) {
        range.first &= ~(uint32_t)TAC_INPUT_LABEL;
        range.by = 2;
    }
    return range;
}

/* What a part is in a setting. */
static uint32_t part_in(const struct crew *crew, int part, uint32_t setting)
{
    for (int k = PARTS - 1; k > part; k--)
        setting /= range_count(&crew->parts[k]);
    const struct range *range = &crew->parts[part];
    uint32_t value = range->first + setting % range_count(range) * range->by;
    return part == INPUT ? value & ~(uint32_t)TAC_INPUT_LABEL : value;
}

/* --- In a process of its own: settings, as long as there are any */

/* Takes the number of the next setting out of the queue, and puts in the one that follows. False where there is none left. */
static bool take_setting(const struct crew *crew, uint32_t *setting)
{
    if (read(crew->queue[0], setting, sizeof *setting) != sizeof *setting)
        _exit(STATUS_BROKEN);
    uint32_t next = *setting < crew->settings ? *setting + 1 : *setting;
    if (write(crew->queue[1], &next, sizeof next) != sizeof next)
        _exit(STATUS_BROKEN);
    return *setting < crew->settings;
}

/* A simulation on a copy of the machine. */
static void try_setting(const struct crew *crew, uint32_t setting)
{
    static struct machine machine;
    static struct proved proved;
    struct settings settings = {part_in(crew, TURNS, setting), part_in(crew, NOTCHES, setting), part_in(crew, RUNDOWN, setting),
                                crew->ticks, part_in(crew, STEPS, setting)};
    volatile struct result *result = &crew->results[setting];
    uint32_t most = 0;
    machine = *crew->start;
    machine.image[TAC_IMAGE_INPUT] = (uint8_t)part_in(crew, INPUT, setting);
    wind_proved(&proved, &machine, &settings);
    if (TAC_REFUSAL(proved.answer) != TAC_GOOD)
        _exit((int)TAC_REFUSAL(proved.answer));
    for (uint32_t tick = 0; tick < crew->ticks; tick++) {
        uint32_t standing = word_in(proved.places, (int)(TAC_WIND_PLACE_BYTES * tick));
        most = standing > most ? standing : most;
    }
    result->first_over = TAC_FIRST_OVER(proved.answer);
    result->most = most;
    result->done = 1;
}

static void work(const struct crew *crew)
{
    uint32_t setting;
    while (take_setting(crew, &setting))
        try_setting(crew, setting);
    _exit(0);
}

/* --- In the program itself */

static void must(bool good, const char *what)
{
    if (!good)
        fail("%s: %s", what, strerror(errno));
}

/* Starts processes: as many as there can be, at least one. */
static void start_all(struct crew *crew, unsigned processes)
{
    uint32_t first = 0;
    must(pipe(crew->queue) == 0 && pipe(crew->working) == 0 && write(crew->queue[1], &first, sizeof first) == sizeof first,
         "no pipe for the processes");
    while (crew->started < processes) {
        pid_t process = start_process();
        if (process == 0)
            work(crew);
        if (process < 0)
            break;
        crew->processes[crew->started++] = process;
    }
    must(crew->started > 0, "no process");
    close(crew->working[1]);
}

/* How many are at work; with no `options`, after waiting until none is. */
static unsigned count_working(struct crew *crew, int options)
{
    unsigned working = 0;
    for (unsigned k = 0; k < crew->started; k++) {
        int status = 0;
        if (crew->processes[k] == 0)
            continue;
        if (wait_for_process(crew->processes[k], &status, options) == 0) {
            working++;
            continue;
        }
        crew->processes[k] = 0;
        if (status != 0 && crew->bad == 0)
            crew->bad = status;
    }
    return working;
}

/* The notches that the label allows in a setting. */
static uint32_t label_in(const struct crew *crew, uint32_t setting) { return part_in(crew, TURNS, setting) * part_in(crew, NOTCHES, setting); }

static bool is_passed(const struct crew *crew, uint32_t setting)
{
    return crew->results[setting].done != 0 && crew->results[setting].first_over != 0;
}

/* Settings: those done, and of them those in which the label was passed, and not reached. */
struct counts {
    uint32_t done, passed, unreached;
};

static struct counts count_results(const struct crew *crew)
{
    struct counts counts = {0, 0, 0};
    for (uint32_t k = 0; k < crew->settings; k++) {
        uint32_t done = crew->results[k].done;
        counts.done += done;
        counts.passed += is_passed(crew, k);
        counts.unreached += done != 0 && crew->results[k].most < label_in(crew, k);
    }
    return counts;
}

static void show_progress(const struct crew *crew)
{
    struct counts counts = count_results(crew);
    progress_show("%lu of %lu settings, label passed in %lu; Ctrl-C stops here", (unsigned long)counts.done, (unsigned long)crew->settings,
                  (unsigned long)counts.passed);
}

/* Waits until all settings are done, the user has stopped it, or a process has died. No process is left then. */
static void await_all(struct crew *crew)
{
    struct pollfd working = {crew->working[0], POLLIN, 0};
    while (count_working(crew, WNOHANG) > 0 && crew->bad == 0 && !progress_stopped()) {
        poll(&working, 1, LOOK_EVERY); /* less where the last process has ended or a signal comes */
        if (progress_due())
            show_progress(crew);
    }
    int bad = crew->bad;
    for (unsigned k = 0; k < crew->started; k++)
        if (crew->processes[k] != 0)
            kill(crew->processes[k], SIGKILL);
    count_working(crew, 0);
    crew->bad = bad;
}

/* Fails because of a process that did not end well. */
static void fail_of_process(int status)
{
    if (WIFSIGNALED(status))
        fail("a process of --vary was ended by signal %d", WTERMSIG(status));
    if (WEXITSTATUS(status) == STATUS_BROKEN)
        fail("a process of --vary could not take a setting");
    fail("refused %d: %s", WEXITSTATUS(status), refusal_words((unsigned)WEXITSTATUS(status)));
}

static void print_line(const struct crew *crew, uint32_t setting)
{
    uint32_t turns = part_in(crew, TURNS, setting), notches = part_in(crew, NOTCHES, setting);
    volatile struct result *result = &crew->results[setting];
    printf("%5lu  %7lu  %5lu  %8lu  %5lu  %5lu  %15lu  %13lu\n", (unsigned long)turns, (unsigned long)notches,
           (unsigned long)(turns * notches), (unsigned long)part_in(crew, RUNDOWN, setting), (unsigned long)part_in(crew, STEPS, setting),
           (unsigned long)part_in(crew, INPUT, setting), (unsigned long)result->first_over, (unsigned long)result->most);
}

/* The settings in which the label was passed, on a terminal the first of them. */
static void print_passed(const struct crew *crew, uint32_t passed)
{
    uint32_t listed = 0, most = isatty(STDOUT_FILENO) == 1 ? LISTED_MOST : crew->settings;
    printf("turns  notches  label  run-down  steps  input  first tick over  most standing\n");
    for (uint32_t k = 0; k < crew->settings && listed < most; k++)
        if (is_passed(crew, k)) {
            print_line(crew, k);
            listed++;
        }
    if (passed > listed)
        printf("and %lu more: in a file or a pipe (| cat) all are listed\n", (unsigned long)(passed - listed));
}

/* The notches over the label at the most in a setting in which it was passed. */
static uint32_t over_in(const struct crew *crew, uint32_t setting)
{
    return crew->results[setting].most - label_in(crew, setting);
}

/* The first setting with the most notches over the label. */
static void print_worst(const struct crew *crew)
{
    uint32_t worst = crew->settings;
    for (uint32_t k = 0; k < crew->settings; k++)
        if (is_passed(crew, k) && (worst == crew->settings || over_in(crew, k) > over_in(crew, worst)))
            worst = k;
    uint32_t over = over_in(crew, worst);
    printf("most over: %lu %s, at turns %lu, notches %lu, run-down %lu, steps %lu, input %lu\n", (unsigned long)over,
           over == 1 ? "notch" : "notches", (unsigned long)part_in(crew, TURNS, worst), (unsigned long)part_in(crew, NOTCHES, worst),
           (unsigned long)part_in(crew, RUNDOWN, worst), (unsigned long)part_in(crew, STEPS, worst),
           (unsigned long)part_in(crew, INPUT, worst));
}

/* What was to be tried, and how far that came. */
static void print_campaign(const struct crew *crew, const struct campaign *campaign, uint32_t done)
{
    const struct range *const ranges[] = {&campaign->turns, &campaign->notches, &campaign->rundown, &campaign->steps};
    static const char *const names[] = {"turns", "notches per turn", "run-down", "steps a tick"};
    char text[RANGE_BYTES];
    print_origin(campaign->origin);
    for (int k = 0; k < 4; k++)
        printf("%s: %s\n", names[k], range_text(ranges[k], text));
    print_input(campaign->origin);
    printf("ticks: %lu\n", (unsigned long)crew->ticks);
    if (done < crew->settings)
        printf("stopped: after %lu of %lu settings\n", (unsigned long)done, (unsigned long)crew->settings);
    printf("settings tried: %lu\n", (unsigned long)done);
}

/* What became of the label in the settings done, at least one. */
static void print_label(const struct crew *crew, const struct counts *counts)
{
    const char *tried = counts->done < crew->settings ? " tried" : "";
    unsigned long done = counts->done, passed = counts->passed, unreached = counts->unreached;
    if (passed > 0)
        printf("label: passed in %lu of the %lu%s", passed, done, tried);
    else if (unreached == done)
        printf("label: reached in none of the %lu%s", done, tried);
    else
        printf("label: held in %s %lu%s", *tried == '\0' ? "all" : "the", done, tried);
    if (unreached > 0 && unreached < done)
        printf(", not reached in %lu of them", unreached);
    putchar('\n');
}

/* Prints what was found. Answers the exit status. */
static int print_results(const struct crew *crew, const struct campaign *campaign)
{
    struct counts counts = count_results(crew);
    print_campaign(crew, campaign, counts.done);
    if (counts.done > 0)
        print_label(crew, &counts);
    if (counts.passed > 0) {
        print_passed(crew, counts.passed);
        print_worst(crew);
    }
    return counts.passed > 0 ? STATUS_PASSED : counts.done < crew->settings ? STATUS_STOPPED : STATUS_HELD;
}

/* What is to be tried, and room for the results. */
static void prepare(struct crew *crew, const struct machine *machine, const struct campaign *campaign)
{
    const struct range parts[PARTS] = {campaign->turns, campaign->notches, campaign->rundown, campaign->steps,
                                       input_bytes(machine, campaign)};
    uint64_t settings = 1;
    for (int k = 0; k < PARTS; k++)
        settings *= range_count(&parts[k]);
    if (settings > CAMPAIGN_MOST)
        fail("%llu settings: --vary takes at most %d", (unsigned long long)settings, CAMPAIGN_MOST);
    memset(crew, 0, sizeof *crew);
    crew->start = machine;
    memcpy(crew->parts, parts, sizeof parts);
    crew->ticks = campaign->ticks;
    crew->settings = (uint32_t)settings;
    crew->results = share(crew->settings * sizeof *crew->results);
}

/* At most one for each setting. */
static unsigned count_processes(const struct crew *crew, const struct campaign *campaign)
{
    long processors = sysconf(_SC_NPROCESSORS_ONLN);
    unsigned long count = campaign->processes != 0 ? campaign->processes : processors > 0 ? (unsigned long)processors : 1;
    count = count < crew->settings ? count : crew->settings;
    return (unsigned)(count < PROCESSES_MOST ? count : PROCESSES_MOST);
}

int vary(const struct machine *machine, const struct campaign *campaign)
{
    static struct crew crew;
    prepare(&crew, machine, campaign);
    progress_begin();
    start_all(&crew, count_processes(&crew, campaign));
    await_all(&crew);
    progress_end();
    close(crew.queue[0]);
    close(crew.queue[1]);
    close(crew.working[0]);
    if (crew.bad != 0)
        fail_of_process(crew.bad);
    return print_results(&crew, campaign);
}
