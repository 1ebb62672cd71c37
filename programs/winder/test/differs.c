/* A tac_wind that gives something else than the ticks done one by one: it is found. Prints what is said of each difference; the last one is
 * met in a simulation, which ends the program with status 2. */
#define wind_proved wind_wrongly
#define simulate simulate_wrongly
#include "simulation.c"
#undef wind_proved

const char program_name[] = "differs";

void wind_proved(struct proved *proved, const struct machine *start, const struct settings *settings);

void wind_wrongly(struct proved *proved, const struct machine *start, const struct settings *settings)
{
    wind_proved(proved, start, settings);
    proved->places[1]++;
}

static void print_difference(const struct winding *winding, const struct proved *proved)
{
    char why[WHY_BYTES] = "nothing differs";
    same_as_proved(winding, proved, why);
    printf("%s\n", why);
}

/* What differs where a byte of the outcome is another one. */
static void print_with_byte(const struct winding *winding, const struct proved *good, size_t at)
{
    static struct proved proved;
    proved = *good;
    ((uint8_t *)&proved)[at]++;
    print_difference(winding, &proved);
}

int main(void)
{
    static struct machine start;
    static struct winding winding;
    static struct proved good, refused;
    struct settings settings = {1, 2, 3, 9, 4}, bad = {1, 2, 65, 9, 4};
    signal(SIGCHLD, SIG_IGN); /* as it may be from outside: a simulation waits for its process all the same */
    machine_reset(&start);
    start.image[TAC_IMAGE_OUTPUT] = TAC_OUTPUT_MOTOR;
    winding_begin(&winding, &start, &settings);
    while (winding.done < settings.ticks)
        winding_tick(&winding);
    wind_proved(&good, &start, &settings);
    wind_proved(&refused, &start, &bad);
    print_difference(&winding, &good);
    print_with_byte(&winding, &good, offsetof(struct proved, places) + 2 * settings.ticks - 1);
    print_with_byte(&winding, &good, offsetof(struct proved, places) + 2 * settings.ticks); /* behind the ticks */
    print_with_byte(&winding, &good, offsetof(struct proved, machine.image) + TAC_IMAGE_BYTES - 1);
    print_with_byte(&winding, &good, offsetof(struct proved, machine.memory) + TAC_MEMORY_BYTES - 1);
    good.answer++;
    print_difference(&winding, &good);
    print_difference(&winding, &refused);
    simulate_wrongly(&winding, &start, &settings);
    return 0;
}
