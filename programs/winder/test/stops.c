/* A check beside tac_wind that is stopped. Here tac_wind sends Ctrl-C to the program, and never comes to its end. Usage:
 *   stops check   the ticks are done, and Ctrl-C ends the check; prints the listing
 *   stops both    one Ctrl-C ends the ticks, another one the check of those done */
#define wind_proved wind_without_end
#define simulate simulate_without_end
#include "simulation.c"
#undef wind_proved

#include "listing.h"

const char program_name[] = "stops";

void wind_without_end(struct proved *proved, const struct machine *start, const struct settings *settings)
{
    (void)proved;
    (void)start;
    (void)settings;
    kill(getppid(), SIGINT);
    for (;;)
        pause();
}

int main(int argc, char **argv)
{
    static const struct loads none;
    static struct machine start;
    static struct winding winding;
    struct origin origin = {"made.card", &none, false, {0, 0, 1}};
    struct outcome outcome = {&origin, &winding};
    bool both = argc > 1 && strcmp(argv[1], "both") == 0;
    struct settings settings = {1, 2, 3, both ? TAC_WIND_TICKS : 1, both ? TAC_WIND_STEPS : 1};
    machine_reset(&start);
    simulate_without_end(&winding, &start, &settings);
    if (!both)
        print_listing(&outcome);
    else
        printf("%s, %s\n", winding.done < settings.ticks ? "stopped" : "not stopped", winding.checked ? "checked" : "not checked");
    return 0;
}
