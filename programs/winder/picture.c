#include "picture.h"

#include "axis.h"

#include <limits.h>
#include <stdbool.h>

#define WIDTH 960
#define HEIGHT 576
#define LEFT 80
#define RIGHT 930
#define TOP 120
#define BOTTOM 510
#define LEGEND 98         /* the height of the line that says what label and circle are: no text is in the plot itself */
#define LEGEND_MIDDLE 400 /* where its second part begins */
#define ORIGIN_MOST 110   /* characters of the card's name and others in a line */
#define TICK_MARKS 10
#define NOTCH_MARKS 8
#define LABEL_LOOK "stroke=\"#0a7d32\" stroke-width=\"2\" stroke-dasharray=\"8 4\""
#define STRETCHES 1700 /* two for each unit of the picture's width: of more ticks each stretch has its least and its most alone */

/* A point of the curve. */
struct point {
    uint32_t tick, standing;
};

struct picture {
    FILE *file;
    const struct origin *origin;
    const struct winding *winding;
    struct summary summary;
    uint32_t label, top; /* notches: the label's, and the upper edge's */
    struct point points[1 + 2 * STRETCHES];
    uint32_t count;
};

/* Coordinates, in tenths. */
static uint32_t x_of(const struct picture *picture, uint32_t tick)
{
    return 10 * LEFT + (uint32_t)((uint64_t)tick * 10 * (RIGHT - LEFT) / picture->winding->done);
}

static uint32_t y_of(const struct picture *picture, uint32_t notches)
{
    return 10 * BOTTOM - (uint32_t)((uint64_t)notches * 10 * (BOTTOM - TOP) / picture->top);
}

static void write_tenths(FILE *file, const char *before, uint32_t tenths)
{
    fprintf(file, "%s%lu.%lu", before, (unsigned long)tenths / 10, (unsigned long)tenths % 10);
}

static void write_point(const struct picture *picture, const char *before, struct point point)
{
    write_tenths(picture->file, before, x_of(picture, point.tick));
    write_tenths(picture->file, ",", y_of(picture, point.standing));
}

static void write_line(const struct picture *picture, uint32_t x1, uint32_t y1, uint32_t x2, uint32_t y2, const char *look)
{
    write_tenths(picture->file, "<line x1=\"", x1);
    write_tenths(picture->file, "\" y1=\"", y1);
    write_tenths(picture->file, "\" x2=\"", x2);
    write_tenths(picture->file, "\" y2=\"", y2);
    fprintf(picture->file, "\" %s/>\n", look);
}

/* Begins a text, of which `look` says more. */
static void begin_text(const struct picture *picture, uint32_t x, uint32_t y, const char *look)
{
    write_tenths(picture->file, "<text x=\"", x);
    write_tenths(picture->file, "\" y=\"", y);
    fprintf(picture->file, "\" %s>", look);
}

static void write_settings(const struct picture *picture)
{
    const struct settings *settings = &picture->winding->settings;
    fprintf(picture->file, "Notches standing. Turns %lu, notches per turn %lu, run-down %lu, ticks %lu, steps a tick %lu",
            (unsigned long)settings->turns, (unsigned long)settings->notches, (unsigned long)settings->rundown,
            (unsigned long)picture->winding->done, (unsigned long)settings->steps);
}

static void write_summary(const struct picture *picture)
{
    const struct summary *summary = &picture->summary;
    begin_text(picture, 10 * LEFT, 690, "");
    fprintf(picture->file, "most standing %lu", (unsigned long)summary->most);
    if (summary->most_at != 0)
        fprintf(picture->file, " after tick %lu", (unsigned long)summary->most_at);
    fprintf(picture->file, ", at the end %lu; wound %lu, taken %lu; ticks over the label %lu%s%s</text>\n", (unsigned long)summary->end,
            (unsigned long)summary->wound, (unsigned long)summary->taken, (unsigned long)summary->over,
            picture->winding->done < picture->winding->settings.ticks ? "; stopped" : "",
            picture->winding->checked ? "" : "; not checked beside tac_wind");
}

static void write_head(const struct picture *picture)
{
    FILE *file = picture->file;
    fprintf(file,
            "<?xml version=\"1.0\" encoding=\"UTF-8\"?>\n"
            "<svg xmlns=\"http://www.w3.org/2000/svg\" width=\"%d\" height=\"%d\" viewBox=\"0 0 %d %d\" font-family=\"sans-serif\""
            " font-size=\"13\" fill=\"#222\">\n<title>",
            WIDTH, HEIGHT, WIDTH, HEIGHT);
    write_origin(file, picture->origin, UINT_MAX);
    fprintf(file, ". ");
    write_settings(picture);
    fprintf(file, "</title>\n<rect width=\"%d\" height=\"%d\" fill=\"#fff\"/>\n", WIDTH, HEIGHT);
    begin_text(picture, 10 * LEFT, 280, "font-size=\"15\"");
    write_settings(picture);
    fprintf(file, "</text>\n");
    begin_text(picture, 10 * LEFT, 490, "");
    write_origin(file, picture->origin, ORIGIN_MOST);
    fprintf(file, "</text>\n");
    write_summary(picture);
}

/* Lines at marks of both axes, with their numbers and what they count. */
static void write_axes(const struct picture *picture)
{
    uint32_t ticks = picture->winding->done, step = axis_step(ticks, TICK_MARKS);
    const char *grid = "stroke=\"#ddd\"";
    for (uint32_t tick = 0; tick <= ticks; tick += step) {
        write_line(picture, x_of(picture, tick), 10 * TOP, x_of(picture, tick), 10 * BOTTOM, grid);
        begin_text(picture, x_of(picture, tick), 10 * (BOTTOM + 18), "text-anchor=\"middle\"");
        fprintf(picture->file, "%lu</text>\n", (unsigned long)tick);
    }
    step = axis_step(picture->top, NOTCH_MARKS);
    for (uint32_t notches = 0; notches <= picture->top; notches += step) {
        write_line(picture, 10 * LEFT, y_of(picture, notches), 10 * RIGHT, y_of(picture, notches), grid);
        begin_text(picture, 10 * (LEFT - 8), y_of(picture, notches) + 40, "text-anchor=\"end\"");
        fprintf(picture->file, "%lu</text>\n", (unsigned long)notches);
    }
    write_line(picture, 10 * LEFT, 10 * TOP, 10 * LEFT, 10 * BOTTOM, "stroke=\"#222\"");
    write_line(picture, 10 * LEFT, 10 * BOTTOM, 10 * RIGHT, 10 * BOTTOM, "stroke=\"#222\"");
    begin_text(picture, 5 * (LEFT + RIGHT), 10 * (BOTTOM + 44), "text-anchor=\"middle\"");
    fprintf(picture->file, "ticks</text>\n");
    begin_text(picture, 10 * LEFT, 10 * (TOP - 10), "text-anchor=\"end\"");
    fprintf(picture->file, "notches</text>\n");
}

/* The points of a stretch of ticks: its least and its most, in their order. */
static void add_points(struct picture *picture, uint32_t from, uint32_t to)
{
    const struct tick *ticks = picture->winding->ticks;
    uint32_t least = from, most = from;
    for (uint32_t k = from + 1; k < to; k++) {
        least = ticks[k].standing < ticks[least].standing ? k : least;
        most = ticks[k].standing > ticks[most].standing ? k : most;
    }
    uint32_t first = least < most ? least : most, second = least < most ? most : least;
    picture->points[picture->count++] = (struct point){first + 1, ticks[first].standing};
    if (second != first)
        picture->points[picture->count++] = (struct point){second + 1, ticks[second].standing};
}

/* The points of the curve, the barrel's before the first tick too. */
static void find_points(struct picture *picture)
{
    uint32_t ticks = picture->winding->done, stretches = ticks < STRETCHES ? ticks : STRETCHES;
    picture->points[0] = (struct point){0, 0};
    picture->count = 1;
    for (uint32_t k = 0; k < stretches; k++)
        add_points(picture, k * ticks / stretches, (k + 1) * ticks / stretches);
}

static void write_curve(const struct picture *picture)
{
    fprintf(picture->file, "<path class=\"standing\" fill=\"none\" stroke=\"#1f5fa8\" stroke-width=\"1.5\" d=\"");
    for (uint32_t k = 0; k < picture->count; k++)
        write_point(picture, k == 0 ? "M" : k % 12 == 0 ? "\nL" : "L", picture->points[k]);
    fprintf(picture->file, "\"/>\n");
}

/* A line at the label's height. */
static void write_at_label(const struct picture *picture, const char *look)
{
    uint32_t y = y_of(picture, picture->label);
    write_line(picture, 10 * LEFT, y, 10 * RIGHT, y, look);
}

/* The curve over the label: from the point before it, at the label's height, to the point behind it; as an area, or as a line. */
static void write_over(const struct picture *picture, const char *look, bool area)
{
    bool inside = false;
    fprintf(picture->file, "<path class=\"over\" %s d=\"", look);
    for (uint32_t k = 1; k < picture->count; k++) {
        struct point before = {picture->points[k - 1].tick, picture->label}, at = picture->points[k];
        bool over = at.standing > picture->label;
        if (over && !inside)
            write_point(picture, "\nM", before);
        if (!over)
            at.standing = picture->label;
        if (over || inside)
            write_point(picture, "L", at);
        if (inside && !over && area)
            fprintf(picture->file, "Z");
        inside = over;
    }
    if (inside && area) {
        write_point(picture, "L", (struct point){picture->points[picture->count - 1].tick, picture->label});
        fprintf(picture->file, "Z");
    }
    fprintf(picture->file, "\"/>\n");
}

static void write_circle(const struct picture *picture, uint32_t x, uint32_t y)
{
    write_tenths(picture->file, "<circle class=\"over\" cx=\"", x);
    write_tenths(picture->file, "\" cy=\"", y);
    fprintf(picture->file, "\" r=\"5\" fill=\"#e02020\"/>\n");
}

/* The first tick over the label: a line across, and a circle. */
static void write_first_over(const struct picture *picture)
{
    uint32_t tick = picture->winding->first_over, x = x_of(picture, tick);
    write_line(picture, x, 10 * TOP, x, 10 * BOTTOM, "class=\"over\" stroke=\"#e02020\" stroke-dasharray=\"2 3\"");
    write_circle(picture, x, y_of(picture, picture->winding->ticks[tick - 1].standing));
}

/* What the label's line and the circle are, above the plot. */
static void write_legend(const struct picture *picture)
{
    const struct settings *settings = &picture->winding->settings;
    bool over = picture->winding->first_over != 0;
    write_line(picture, 10 * (LEFT + 16), 10 * LEGEND - 45, 10 * (LEFT + 46), 10 * LEGEND - 45, LABEL_LOOK);
    begin_text(picture, 10 * (LEFT + 54), 10 * LEGEND, "fill=\"#0a7d32\"");
    fprintf(picture->file, "label: %lu x %lu = %lu</text>\n", (unsigned long)settings->turns, (unsigned long)settings->notches,
            (unsigned long)picture->label);
    if (over)
        write_circle(picture, 10 * LEGEND_MIDDLE, 10 * LEGEND - 45);
    begin_text(picture, 10 * (LEGEND_MIDDLE + 14), 10 * LEGEND, over ? "class=\"over\" fill=\"#e02020\" font-weight=\"bold\"" : "");
    fprintf(picture->file, "first over the label: ");
    write_verdict(picture->file, picture->winding, &picture->summary);
    fprintf(picture->file, "</text>\n");
}

void write_svg(FILE *file, const void *what)
{
    static struct picture picture;
    const struct outcome *outcome = what;
    const struct winding *winding = outcome->winding;
    picture.file = file;
    picture.origin = outcome->origin;
    picture.winding = winding;
    picture.summary = winding_summary(winding);
    picture.label = label_notches(&winding->settings);
    picture.top = picture.summary.most > picture.label ? picture.summary.most : picture.label;
    picture.top += picture.top / 12 + 1;
    find_points(&picture);
    write_head(&picture);
    write_legend(&picture);
    write_axes(&picture);
    if (winding->first_over != 0) {
        write_over(&picture, "fill=\"#e02020\" fill-opacity=\"0.5\"", true);
        write_at_label(&picture, "stroke=\"#fff\" stroke-width=\"4\""); /* so that the label is seen before the area */
    }
    write_curve(&picture);
    write_at_label(&picture, "class=\"label\" " LABEL_LOOK);
    if (winding->first_over != 0) {
        write_over(&picture, "fill=\"none\" stroke=\"#e02020\" stroke-width=\"2\"", false);
        write_first_over(&picture);
    }
    fprintf(file, "</svg>\n");
}
