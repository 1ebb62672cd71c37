#define _POSIX_C_SOURCE 200809L

#include "plot.h"

#include "axis.h"
#include "number.h"

#include <stdio.h>
#include <stdlib.h>
#include <string.h>
#include <sys/ioctl.h>
#include <unistd.h>

#define ROWS_LEAST 9
#define ROWS_MOST 17  /* without the label's, the axis and its numbers */
#define NUMBER_ROWS 4 /* from one number at the left to the next */
#define LEFT 9        /* columns of a number and the axis */
#define RIGHT 6       /* columns of the word at the label's end */
#define COLUMNS_MOST 500
#define MARK_COLUMNS 10 /* at least from one number below to the next */
#define OVER '!'
#define RED "\033[1;31m"
#define PLAIN "\033[0m"

/* A plot: in each column the most standing within its ticks, and the rows below and above the label's. */
struct plot {
    uint32_t ticks, columns, label, top;
    uint32_t below, above;
    uint16_t most[COLUMNS_MOST];
    bool colour;
};

unsigned terminal_columns(void)
{
    const char *text = getenv("COLUMNS");
    unsigned long number;
    struct winsize size;
    if (text != NULL && decimal_number(text, 99999, &number) && number > 0)
        return (unsigned)number;
    if (ioctl(STDOUT_FILENO, TIOCGWINSZ, &size) == 0 && size.ws_col > 0)
        return size.ws_col;
    return 80;
}

bool terminal_colour(void)
{
    const char *refused = getenv("NO_COLOR");
    return isatty(STDOUT_FILENO) == 1 && (refused == NULL || refused[0] == '\0');
}

/* Of fewer ticks than columns each has several. */
static void fill_columns(struct plot *plot, const struct tick *ticks)
{
    for (uint32_t column = 0; column < plot->columns; column++) {
        uint32_t from = column * plot->ticks / plot->columns, to = (column + 1) * plot->ticks / plot->columns;
        plot->most[column] = ticks[from].standing;
        for (uint32_t k = from + 1; k < to; k++)
            if (ticks[k].standing > plot->most[column])
                plot->most[column] = ticks[k].standing;
    }
}

/* As many rows as there can be with the same notches in each or the same rows for each notch, and the label between two; else the most. */
static uint32_t count_rows(uint32_t label, uint32_t top)
{
    for (uint32_t rows = ROWS_MOST; rows >= ROWS_LEAST; rows--)
        if ((top % rows == 0 || rows % top == 0) && label * rows % top == 0)
            return rows;
    return ROWS_MOST;
}

static void lay_out(struct plot *plot, const struct winding *winding, unsigned columns, bool colour)
{
    uint32_t most = winding_summary(winding).most;
    unsigned width = columns < PLOT_COLUMNS_LEAST ? PLOT_COLUMNS_LEAST : columns > COLUMNS_MOST ? COLUMNS_MOST : columns;
    plot->ticks = winding->done;
    plot->columns = width - LEFT - RIGHT;
    plot->label = label_notches(&winding->settings);
    plot->top = most > plot->label ? most : plot->label;
    uint32_t rows = count_rows(plot->label, plot->top);
    plot->below = rows * plot->label / plot->top;
    if (plot->below == 0)
        plot->below = 1;
    plot->above = rows - plot->below;
    plot->colour = colour;
    fill_columns(plot, winding->ticks);
}

/* The rows that so many notches reach: those below the label's row, and at least one above it if they are over the label. */
static uint32_t rows_of(const struct plot *plot, uint32_t standing)
{
    uint32_t span = plot->top - plot->label;
    if (standing <= plot->label)
        return (standing * plot->below + plot->label - 1) / plot->label;
    return plot->below + ((standing - plot->label) * plot->above + span - 1) / span;
}

/* The notches at a row's upper edge. */
static uint32_t notches_at(const struct plot *plot, uint32_t row)
{
    if (row <= plot->below)
        return plot->label * row / plot->below;
    return plot->label + (plot->top - plot->label) * (row - plot->below) / plot->above;
}

/* Whether a row has its number: the uppermost if it is over the label, and some below it that don't touch the label's or that one's. */
static bool has_number(const struct plot *plot, uint32_t row)
{
    uint32_t rows = plot->below + plot->above;
    bool whole = plot->top > ROWS_MOST || row * plot->top % rows == 0;
    if (row == rows)
        return plot->above > 0;
    return whole && row % NUMBER_ROWS == 0 && row != plot->below && row + 1 != rows;
}

/* Prints the cells of a row, and a word behind them; without one, the blanks at the end are left out. */
static void print_cells(const struct plot *plot, char *cells, const char *behind)
{
    uint32_t length = plot->columns;
    bool red = false;
    while (behind[0] == '\0' && length > 0 && cells[length - 1] == ' ')
        length--;
    for (uint32_t k = 0; k < length; k++) {
        bool over = plot->colour && cells[k] == OVER;
        if (over != red)
            fputs(over ? RED : PLAIN, stdout);
        red = over;
        putchar(cells[k]);
    }
    printf("%s%s\n", red ? PLAIN : "", behind);
}

static void print_row(const struct plot *plot, uint32_t row)
{
    char cells[COLUMNS_MOST];
    for (uint32_t k = 0; k < plot->columns; k++)
        cells[k] = rows_of(plot, plot->most[k]) < row ? ' ' : row > plot->below ? OVER : '#';
    if (has_number(plot, row))
        printf("%7lu |", (unsigned long)notches_at(plot, row));
    else
        printf("%7s |", "");
    print_cells(plot, cells, "");
}

static void print_label(const struct plot *plot)
{
    char cells[COLUMNS_MOST];
    for (uint32_t k = 0; k < plot->columns; k++)
        cells[k] = plot->most[k] > plot->label ? OVER : '-';
    printf("%7lu +", (unsigned long)plot->label);
    print_cells(plot, cells, " label");
}

/* The column in the middle of a tick's. */
static uint32_t column_of(const struct plot *plot, uint32_t tick)
{
    uint32_t last = (tick * plot->columns + plot->ticks - 1) / plot->ticks - 1;
    return last - (plot->columns - 1) / plot->ticks / 2;
}

/* The axis of ticks, and the numbers below it, each in the middle under its mark. */
static void print_axis(const struct plot *plot)
{
    char line[COLUMNS_MOST], numbers[COLUMNS_MOST + 1], number[16];
    uint32_t step = axis_step(plot->ticks, plot->columns / MARK_COLUMNS);
    memset(line, '-', sizeof line);
    memset(numbers, ' ', sizeof numbers);
    for (uint32_t tick = step; tick <= plot->ticks; tick += step) {
        uint32_t column = column_of(plot, tick);
        uint32_t length = (uint32_t)snprintf(number, sizeof number, "%lu", (unsigned long)tick), half = (length - 1) / 2;
        line[column] = '+';
        memcpy(numbers + column - (column < half ? column : half), number, length);
    }
    printf("%7d +", 0);
    print_cells(plot, line, "");
    printf("%7s  ", "tick");
    numbers[plot->columns + RIGHT] = '\0';
    for (uint32_t k = plot->columns + RIGHT; k > 0 && numbers[k - 1] == ' '; k--)
        numbers[k - 1] = '\0';
    printf("%s\n", numbers);
}

void print_plot(const struct winding *winding, unsigned columns, bool colour)
{
    static struct plot plot;
    lay_out(&plot, winding, columns, colour);
    printf("notches standing; a row is marked from its first notch on, its number is its last\n");
    for (uint32_t row = plot.below + plot.above; row > plot.below; row--)
        print_row(&plot, row);
    print_label(&plot);
    for (uint32_t row = plot.below; row > 0; row--)
        print_row(&plot, row);
    print_axis(&plot);
}
