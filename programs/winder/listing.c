#include "listing.h"

static const char *notches(uint32_t count) { return count == 1 ? "notch" : "notches"; }

static void print_settings(const struct winding *winding)
{
    const struct settings *settings = &winding->settings;
    uint32_t label = label_notches(settings);
    printf("ticks: %lu\n", (unsigned long)winding->done);
    if (winding->done < settings->ticks)
        printf("stopped: after tick %lu of %lu\n", (unsigned long)winding->done, (unsigned long)settings->ticks);
    printf("steps a tick: %lu\n", (unsigned long)settings->steps);
    printf("label: %lu %s, %lu %s of %lu\n", (unsigned long)label, notches(label), (unsigned long)settings->turns,
           settings->turns == 1 ? "turn" : "turns", (unsigned long)settings->notches);
    printf("run-down: %lu %s a notch\n", (unsigned long)settings->rundown, settings->rundown == 1 ? "tick" : "ticks");
}

void write_verdict(FILE *file, const struct winding *winding, const struct summary *summary)
{
    if (winding->first_over != 0) {
        fprintf(file, "tick %lu", (unsigned long)winding->first_over);
        return;
    }
    fprintf(file, "none%s; ", winding->done < winding->settings.ticks ? " so far" : "");
    if (summary->reached)
        fprintf(file, "the label was reached and held");
    else
        fprintf(file, "at most %lu of %lu notches stood", (unsigned long)summary->most, (unsigned long)label_notches(&winding->settings));
}

/* The machine at the end, and since when it is at rest. */
static void print_condition(const struct winding *winding)
{
    static const char *const conditions[] = {"running", "halted", "lost"};
    unsigned condition = winding->machine.image[TAC_IMAGE_CONDITION];
    printf("machine at the end: %s", conditions[condition]);
    if (winding->rest != 0)
        printf(", in tick %lu", (unsigned long)winding->rest);
    else if (condition != TAC_CONDITION_RUNNING)
        printf(", before tick 1");
    putchar('\n');
}

void print_listing(const struct outcome *outcome)
{
    const struct winding *winding = outcome->winding;
    struct summary summary = winding_summary(winding);
    print_origin(outcome->origin);
    print_settings(winding);
    print_input(outcome->origin);
    printf("wound: %lu %s\n", (unsigned long)summary.wound, notches(summary.wound));
    printf("taken: %lu %s\n", (unsigned long)summary.taken, notches(summary.taken));
    printf("most standing: %lu %s", (unsigned long)summary.most, notches(summary.most));
    if (summary.most_at != 0)
        printf(", after tick %lu", (unsigned long)summary.most_at);
    printf("\nstanding at the end: %lu %s\n", (unsigned long)summary.end, notches(summary.end));
    printf("ticks over the label: %lu\n", (unsigned long)summary.over);
    printf("first over the label: ");
    write_verdict(stdout, winding, &summary);
    putchar('\n');
    print_condition(winding);
    if (!winding->checked)
        printf("not checked beside tac_wind: stopped\n");
}

void write_csv(FILE *file, const void *what)
{
    const struct winding *winding = ((const struct outcome *)what)->winding;
    fprintf(file, "tick,standing,motor,input\n");
    for (uint32_t k = 0; k < winding->done; k++) {
        const struct tick *tick = &winding->ticks[k];
        fprintf(file, "%lu,%u,%u,%u\n", (unsigned long)k + 1, tick->standing, tick->motor, tick->input);
    }
}
