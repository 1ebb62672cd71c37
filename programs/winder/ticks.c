#include "ticks.h"

uint32_t label_notches(const struct settings *settings) { return settings->turns * settings->notches; }

/* The input byte for the next tick. */
static void put_input(struct machine *machine, bool reached)
{
    unsigned others = machine->image[TAC_IMAGE_INPUT] & ~(unsigned)TAC_INPUT_LABEL;
    machine->image[TAC_IMAGE_INPUT] = (uint8_t)(others | (reached ? TAC_INPUT_LABEL : 0));
}

void winding_begin(struct winding *winding, const struct machine *start, const struct settings *settings)
{
    winding->settings = *settings;
    winding->machine = *start;
    winding->done = 0;
    winding->first_over = 0;
    winding->rest = 0;
    winding->checked = false;
    put_input(&winding->machine, false);
}

/* A run ends where the kernel is entered: so many as the steps take. */
static void run_steps(struct machine *machine, uint32_t steps)
{
    struct report report = {0};
    while (steps > 0 && report.ending < TAC_ENDING_HALTED) {
        report = machine_run(machine, steps);
        steps -= report.steps;
    }
}

static bool is_running(const struct machine *machine) { return machine->image[TAC_IMAGE_CONDITION] == TAC_CONDITION_RUNNING; }

void winding_tick(struct winding *winding)
{
    const struct settings *settings = &winding->settings;
    struct tick *tick = &winding->ticks[winding->done];
    uint32_t standing = winding->done > 0 ? tick[-1].standing : 0;
    tick->input = winding->machine.image[TAC_IMAGE_INPUT];
    bool running = is_running(&winding->machine);
    run_steps(&winding->machine, settings->steps);
    tick->motor = (winding->machine.image[TAC_IMAGE_OUTPUT] & TAC_OUTPUT_MOTOR) != 0;
    standing += tick->motor;
    winding->done++;
    if (running && !is_running(&winding->machine))
        winding->rest = winding->done;
    if (winding->done % settings->rundown == 0 && standing > 0)
        standing--;
    tick->standing = (uint16_t)standing;
    if (winding->first_over == 0 && standing > label_notches(settings))
        winding->first_over = winding->done;
    put_input(&winding->machine, standing / settings->notches >= settings->turns);
}

struct summary winding_summary(const struct winding *winding)
{
    struct summary summary = {0, 0, 0, 0, false, winding->ticks[winding->done - 1].standing, 0};
    for (uint32_t k = 0; k < winding->done; k++) {
        const struct tick *tick = &winding->ticks[k];
        summary.wound += tick->motor;
        if (tick->standing > summary.most) {
            summary.most = tick->standing;
            summary.most_at = k + 1;
        }
        summary.over += tick->standing > label_notches(&winding->settings);
    }
    summary.reached = summary.most >= label_notches(&winding->settings);
    summary.taken = summary.wound - summary.end;
    return summary;
}
