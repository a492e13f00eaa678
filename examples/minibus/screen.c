/*
 * The passenger screen. It keeps space for the longest name that may come, before the
 * driver has chosen one, and shows the first of those that begin so. Of a route it
 * shows the terminus.
 */
#include "minibus.h"

#include <stdio.h>
#include <string.h>

#define MOST_SHOWN 3

/* A line of the screen: memory of its own, into which nobody else reads a name. */
static uint8_t line[MISTROGU_LONGEST_NAME];

/* The reading of a name into the line's first bytes, for the screen's stack. */
struct reading {
    const struct box *box;
    size_t position;
    size_t room;
    struct mistrogu_answer answer;
};

static void make_reading(void *of)
{
    struct reading *reading = of;
    reading->answer = book_read(reading->box->book, reading->box->book_length,
                                reading->position, line, reading->room);
}

/* Reads the name at a position into so many bytes of the line. */
static struct mistrogu_answer read_name(const struct guest *screen, size_t position,
                                        size_t room)
{
    struct reading reading = {screen->box, position, room, {0, 0, 0}};
    run_on(&screen->stack, make_reading, &reading);
    return reading.answer;
}

/* Shows a name in the space that was kept. That space is itself the room into which
   the name is read: so a name that is longer is refused, and does not run into what
   stands beside it. Behind a shorter one the blanks stay. */
static void show_name(const struct guest *screen, size_t position, size_t kept)
{
    struct mistrogu_answer read;
    memset(line, ' ', kept);
    read = read_name(screen, position, kept);
    if (read.code == 0)
        printf("             |%.*s|\n", (int)kept, (const char *)line);
    else
        printf("             is refused %zu\n", read.code);
}

/* Shows the first names of the range. */
static void show_range(const struct guest *screen, const struct handed *handed)
{
    size_t shown;
    printf("  screen     keeps %zu bytes\n", handed->width);
    for (shown = 0; shown < handed->range_count && shown < MOST_SHOWN; shown++)
        show_name(screen, handed->range_start + shown, handed->width);
    if (shown < handed->range_count)
        printf("             and %zu more\n", handed->range_count - shown);
}

/* Shows where the route ends. */
static void show_terminus(const struct guest *screen, const struct handed *handed)
{
    struct mistrogu_answer read;
    if (handed->position_count == 0)
        return; /* A route without stops ends nowhere. */
    read = read_name(screen, handed->positions[handed->position_count - 1], sizeof line);
    if (read.code == 0)
        printf("  screen     towards %.*s\n", (int)read.first, (const char *)line);
    else
        printf("  screen     is refused %zu\n", read.code);
}

void screen_acts(const struct guest *screen, struct handed *handed)
{
    if (handed->event == TYPES)
        show_range(screen, handed);
    else if (handed->event == TAKES_ROUTE)
        show_terminus(screen, handed);
}
