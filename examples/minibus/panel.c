/*
 * The driver's panel. After each letter it asks one batch, so that the book is checked
 * once for four questions, and hands on to the screen what that needs. It also looks
 * up the stops of a route.
 */
#include "minibus.h"

#include <stdio.h>

/* The rows that the panel lends, and the answers to them: memory of its own. */
static struct mistrogu_row rows[MISTROGU_MOST_ROWS];
static struct mistrogu_answer answers[MISTROGU_MOST_ROWS];

/* The rows after a letter, and how many they are. */
enum { IS_STOP, BEGINS, NEAREST, WIDTH, ROWS_AFTER_A_LETTER };

/* A batch, for the panel's stack. */
struct batch {
    const struct box *box;
    const uint8_t *questions;
    size_t length;
    size_t row_count;
    struct mistrogu_answer answer;
};

static void make_batch(void *of)
{
    struct batch *batch = of;
    batch->answer = book_batch(batch->box->book, batch->box->book_length, batch->questions,
                               batch->length, rows, batch->row_count, answers,
                               batch->row_count);
}

/* Asks the first so many rows, each a part of the questions. */
static void ask(const struct guest *panel, const uint8_t *questions, size_t length,
                size_t row_count)
{
    struct batch batch = {panel->box, questions, length, row_count, {0, 0, 0}};
    run_on(&panel->stack, make_batch, &batch);
    if (batch.answer.code != 0)
        give_up("a batch is refused, though the book is good");
}

static void put_row(size_t at, enum mistrogu_kind kind, size_t start, size_t length)
{
    rows[at].kind = kind;
    rows[at].start = start;
    rows[at].length = length;
}

/* Prints what was typed, with the part that is lit in brackets, and what it is. */
static void tell_typed(const struct handed *handed)
{
    const char *typed = (const char *)handed->typed;
    size_t lit = answers[NEAREST].second;
    printf("  panel      [%.*s]%.*s is ", (int)lit, typed,
           (int)(handed->typed_length - lit), typed + lit);
    if (answers[IS_STOP].second == 1)
        printf("stop %zu, ", answers[IS_STOP].first);
    else
        printf("no stop, ");
    printf("begins %zu name%s from %zu on, ", handed->range_count,
           handed->range_count == 1 ? "" : "s", handed->range_start);
    printf("is nearest to %zu, wants %zu bytes\n", answers[NEAREST].first, handed->width);
}

/* One batch about what is typed so far. */
static void take_letter(const struct guest *panel, struct handed *handed)
{
    size_t length = handed->typed_length;
    put_row(IS_STOP, MISTROGU_EXACT, 0, length);
    put_row(BEGINS, MISTROGU_RANGE, 0, length);
    put_row(NEAREST, MISTROGU_NEAREST, 0, length);
    put_row(WIDTH, MISTROGU_WIDTH, 0, length);
    ask(panel, handed->typed, length, ROWS_AFTER_A_LETTER);
    handed->range_start = answers[BEGINS].first;
    handed->range_count = answers[BEGINS].second;
    handed->width = answers[WIDTH].first;
    tell_typed(handed);
}

/* Makes a row of each line from `start` on, as many as a batch takes. The lines lie
   in the sheet as they are: a row is a part of it. Gives where the next line is. */
static size_t put_lines(const struct sheet *sheet, size_t start, size_t *row_count)
{
    for (*row_count = 0; start < sheet->length && *row_count < MISTROGU_MOST_ROWS;
         ++*row_count) {
        size_t end = end_of_line(sheet->lines, sheet->length, start);
        put_row(*row_count, MISTROGU_EXACT, start, end - start);
        start = end + 1;
    }
    return start;
}

/* Hands on the positions that were just found, and gives how many there were. */
static size_t put_positions(struct handed *handed, size_t row_count)
{
    size_t found = 0;
    size_t i;
    for (i = 0; i < row_count; i++) {
        size_t position = answers[i].second == 1 ? answers[i].first : NOWHERE;
        handed->positions[handed->position_count++] = position;
        if (position != NOWHERE)
            found++;
    }
    return found;
}

/* Finds the stops of a route by their names. */
static void look_up_route(const struct guest *panel, struct handed *handed)
{
    const struct sheet *sheet = handed->sheet;
    size_t start = 0;
    size_t found = 0;

    handed->position_count = 0;
    while (start < sheet->length) {
        size_t row_count;
        start = put_lines(sheet, start, &row_count);
        ask(panel, sheet->lines, sheet->length, row_count);
        found += put_positions(handed, row_count);
    }
    printf("  panel      finds %zu of %zu stops\n", found, handed->position_count);
}

void panel_acts(const struct guest *panel, struct handed *handed)
{
    if (handed->event == TYPES)
        take_letter(panel, handed);
    else if (handed->event == TAKES_ROUTE)
        look_up_route(panel, handed);
}
