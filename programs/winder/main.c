/* tac-winder: simulates a winder with a machine, and holds it against the label.
 *
 * Exit status: 0 where the label was not passed, 1 where it was, 2 with a line on standard error where an option or a file is bad or a file
 * can't be read or written, 130 where it was stopped and the label was not passed so far. */
#define _POSIX_C_SOURCE 200809L

#include "file.h"
#include "listing.h"
#include "message.h"
#include "options.h"
#include "picture.h"
#include "plot.h"
#include "simulation.h"
#include "status.h"
#include "vary.h"

#include <stdio.h>
#include <unistd.h>

const char program_name[] = "tac-winder";

/* Whether a file to write is one, and not standard output. */
static bool is_file(const char *name) { return name != NULL && !is_standard(name); }

/* The machine that the simulation starts with. What can't be written is found first. */
static void begin(struct machine *machine, const struct options *options)
{
    static struct card card;
    for (int k = 0; k < WRITTENS; k++)
        if (is_file(options->written[k]))
            must_be_writable(options->written[k]);
    if (open_all(options->file, &options->loads, machine, &card))
        card_carry_out(&card, machine);
}

static struct settings settings_of(const struct options *options)
{
    const struct range *numbers = options->numbers;
    struct settings settings = {numbers[NUMBER_TURNS].first, numbers[NUMBER_NOTCHES].first, numbers[NUMBER_RUNDOWN].first,
                                numbers[NUMBER_TICKS].first, numbers[NUMBER_STEPS].first};
    return settings;
}

static struct campaign campaign_of(const struct options *options, const struct origin *origin)
{
    const struct range *numbers = options->numbers;
    struct campaign campaign;
    campaign.turns = numbers[NUMBER_TURNS];
    campaign.notches = numbers[NUMBER_NOTCHES];
    campaign.rundown = numbers[NUMBER_RUNDOWN];
    campaign.steps = numbers[NUMBER_STEPS];
    campaign.origin = origin;
    campaign.ticks = numbers[NUMBER_TICKS].first;
    campaign.processes = options->words[NUMBER_PROCESSES] != NULL ? numbers[NUMBER_PROCESSES].first : 0;
    return campaign;
}

/* Whether a plot is wanted: a terminal that is too narrow for one gets none by itself. */
static bool wants_plot(const struct options *options)
{
    return options->plot || (isatty(STDOUT_FILENO) == 1 && terminal_columns() >= PLOT_COLUMNS_LEAST);
}

static void print_all(const struct outcome *outcome, const struct options *options)
{
    bool csv = is_standard(options->written[WRITTEN_CSV]), svg = is_standard(options->written[WRITTEN_SVG]);
    if (csv)
        write_csv(stdout, outcome);
    else if (svg)
        write_svg(stdout, outcome);
    else
        print_listing(outcome);
    if (!csv && !svg && wants_plot(options))
        print_plot(outcome->winding, terminal_columns(), terminal_colour());
    end_output();
}

static void write_all(const struct outcome *outcome, const struct options *options)
{
    const char *const *names = options->written;
    char why[WHY_BYTES];
    if (is_file(names[WRITTEN_CSV]) && !write_file(names[WRITTEN_CSV], write_csv, outcome, why))
        fail("%s", why);
    if (is_file(names[WRITTEN_SVG]) && !write_file(names[WRITTEN_SVG], write_svg, outcome, why))
        fail("%s", why);
    if (is_file(names[WRITTEN_MACHINE]) && !save_machine(names[WRITTEN_MACHINE], &outcome->winding->machine, why))
        fail("%s", why);
}

/* Simulates one setting. Answers the exit status. */
static int simulate_one(struct machine *machine, const struct origin *origin, const struct options *options)
{
    static struct winding winding;
    struct settings settings = settings_of(options);
    struct outcome outcome = {origin, &winding};
    if (origin->has_input)
        machine->image[TAC_IMAGE_INPUT] = (uint8_t)origin->input.first;
    simulate(&winding, machine, &settings);
    print_all(&outcome, options);
    write_all(&outcome, options);
    if (winding.first_over != 0)
        return STATUS_PASSED;
    return winding.done < settings.ticks || !winding.checked ? STATUS_STOPPED : STATUS_HELD;
}

int main(int argc, char **argv)
{
    static struct machine machine;
    static struct options options;
    if (!take_options(&options, argc, argv)) {
        print_help();
        end_output();
        return 0;
    }
    begin(&machine, &options);
    struct origin origin = {options.file, &options.loads, options.words[NUMBER_INPUT] != NULL, options.numbers[NUMBER_INPUT]};
    if (!options.vary)
        return simulate_one(&machine, &origin, &options);
    struct campaign campaign = campaign_of(&options, &origin);
    int status = vary(&machine, &campaign);
    end_output();
    return status;
}
