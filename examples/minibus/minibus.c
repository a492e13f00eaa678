/*
 * The minibus computer as it is meant: one book and one clip table in memory that is
 * mapped read-only, and three guests on stacks of their own. The driver types letter by
 * letter, takes a route, loses a clip, and takes a route with misspelt stops. Each guest
 * prints what it does, and at the end the example tells how much stack the calls of each
 * have taken.
 *
 *     cc -Iinclude -pthread -Wl,-z,now examples/minibus/[a-z]*.c \
 *         target/staticlib/libmistrogu.a -o target/minibus
 *     target/minibus sample/stops.txt examples/minibus/clips.txt \
 *         examples/minibus/route.txt examples/minibus/misspelt.txt
 *
 * It is for x86-64 and Linux. expected.txt has what it should print; that was worked
 * out by hand from documents 01 and 02. run.sh compares the two. Where something is
 * wrong, a line says so and the exit status is 1.
 */
#include "minibus.h"

#include <stdio.h>
#include <stdlib.h>
#include <string.h>

#define COUNT(array) (sizeof(array) / sizeof *(array))
#define ANNOUNCER_STACK 2048

/* What the driver types: a stop with a slip at its end, and a letter of two bytes. */
static const char *const TYPED[] = {"markt", "\303\211"};

void give_up(const char *why)
{
    fflush(stdout);
    fprintf(stderr, "minibus: %s\n", why);
    exit(1);
}

/* How many bytes the letter has with which a text begins: in UTF-8 those that go on
   with a letter are 128 to 191. */
static size_t letter_length(const char *text)
{
    size_t length = 1;
    while (((unsigned char)text[length] & 0xC0) == 0x80)
        length++;
    return length;
}

/* Types a text letter by letter; after each, all guests act. */
static void type(struct turn *turn, const char *text)
{
    struct handed *handed = &turn->handed;
    size_t length = 0;

    handed->event = TYPES;
    while (text[length] != 0) {
        length += letter_length(text + length);
        memcpy(handed->typed, text, length);
        handed->typed_length = length;
        printf("The driver has typed %.*s\n", (int)length, text);
        let_all_act(turn);
    }
}

static void take_route(struct turn *turn, const struct sheet *sheet, const char *told)
{
    printf("%s\n", told);
    turn->handed.event = TAKES_ROUTE;
    turn->handed.sheet = sheet;
    let_all_act(turn);
}

static void lose_clip(struct turn *turn)
{
    printf("The clip table is one short\n");
    turn->handed.event = LOSES_CLIP;
    let_all_act(turn);
}

static void go_home(struct turn *turn)
{
    turn->handed.event = GOES_HOME;
    let_all_act(turn);
}

/* What the driver does, from the first stop to the last. */
static void drive(struct turn *turn, const struct box *box)
{
    size_t i;
    for (i = 0; i < COUNT(TYPED); i++)
        type(turn, TYPED[i]);
    take_route(turn, &box->route, "The driver takes a route");
    lose_clip(turn);
    take_route(turn, &box->misspelt, "The driver takes a route with two misspelt stops");
    go_home(turn);
}

/* Prints what the box has, and holds it to being read-only from end to end. */
static void tell_box(const struct box *box)
{
    const uint8_t *end = (const uint8_t *)(box + 1);
    printf("A folded book of %zu stops, %zu bytes, and %zu clips: ", box->name_count,
           box->book_length, box->clip_count);
    if (can_be_written(box->book) || can_be_written(box->clips) || can_be_written(end - 1))
        give_up("somebody can write to the box");
    printf("nobody can write to them.\n\n");
}

static void tell_stacks(const struct guest *panel, const struct guest *screen,
                        const struct guest *announcer)
{
    printf("\nThe stack that each guest's calls have taken\n");
    printf("  panel      %zu bytes of MISTROGU_STACK\n", stack_used(&panel->stack));
    printf("  screen     %zu bytes of MISTROGU_STACK\n", stack_used(&screen->stack));
    printf("  announcer  %zu bytes of %d\n", stack_used(&announcer->stack),
           ANNOUNCER_STACK);
}

static struct guest make_guest(enum party party, const struct box *box, size_t stack_bytes,
                               struct turn *turn)
{
    static void (*const ACTS[PARTIES])(const struct guest *, struct handed *) = {
        NULL, panel_acts, screen_acts, announcer_acts};
    struct guest guest = {.party = party};
    guest.act = ACTS[party];
    guest.box = box;
    guest.stack = make_stack(stack_bytes);
    guest.turn = turn;
    return guest;
}

int main(int count, char **words)
{
    static struct turn turn = {.lock = PTHREAD_MUTEX_INITIALIZER,
                               .passed = PTHREAD_COND_INITIALIZER,
                               .whose = DRIVER};
    struct guest panel, screen, announcer;
    struct files files;
    const struct box *box;

    if (count != 5)
        give_up("give the stops, the clips, a route and a misspelt one");
    files.stops = words[1];
    files.clips = words[2];
    files.route = words[3];
    files.misspelt = words[4];
    box = start_box(&files);
    tell_box(box);

    panel = make_guest(PANEL, box, in_pages(MISTROGU_STACK), &turn);
    screen = make_guest(SCREEN, box, in_pages(MISTROGU_STACK), &turn);
    announcer = make_guest(ANNOUNCER, box, ANNOUNCER_STACK, &turn);
    start_guest(&panel);
    start_guest(&screen);
    start_guest(&announcer);
    drive(&turn, box);
    await_end(&panel);
    await_end(&screen);
    await_end(&announcer);
    tell_stacks(&panel, &screen, &announcer);
    return 0;
}
