/*
 * The announcer. What is typed becomes a clip as soon as it is a stop, or only one stop
 * begins so; a route becomes a row of clips. To speak a clip is here to print its
 * number.
 *
 * The announcer has 2 KiB of stack. They are enough for its calls on real names, and
 * here the box builds the book itself, from names that are known. A book of names that
 * are each the beginning of the next may take up to MISTROGU_STACK bytes:
 * docs/BENCHMARKS.md says how many levels a guest of 2 KiB can take.
 */
#include "minibus.h"

#include <stdio.h>

/* The row of clips: memory of its own. */
static uint16_t row[MISTROGU_MOST_STOPS];

/* What is in the row before a call. */
#define SILENCE UINT16_MAX

/* The call for a text, for the announcer's stack. */
struct clip_call {
    const struct box *box;
    size_t clip_count;
    const struct handed *handed;
    struct mistrogu_answer answer;
};

static void make_clip_call(void *of)
{
    struct clip_call *call = of;
    call->answer = announce_clip(call->box->book, call->box->book_length, call->box->clips,
                                 call->clip_count, call->handed->typed,
                                 call->handed->typed_length);
}

/* Asks what to speak for what is typed, with a table of so many clips. */
static struct mistrogu_answer ask_clip(const struct guest *announcer, size_t clip_count,
                                       const struct handed *handed)
{
    struct clip_call call = {announcer->box, clip_count, handed, {0, 0, 0}};
    run_on(&announcer->stack, make_clip_call, &call);
    return call.answer;
}

/* The call for a route, likewise. */
static void make_route_call(void *of)
{
    struct clip_call *call = of;
    call->answer = announce_route(call->box->book, call->box->book_length,
                                  call->box->clips, call->clip_count,
                                  call->handed->positions, call->handed->position_count,
                                  row, MISTROGU_MOST_STOPS);
}

static struct mistrogu_answer ask_route(const struct guest *announcer, size_t clip_count,
                                        const struct handed *handed)
{
    struct clip_call call = {announcer->box, clip_count, handed, {0, 0, 0}};
    size_t i;
    for (i = 0; i < MISTROGU_MOST_STOPS; i++)
        row[i] = SILENCE;
    run_on(&announcer->stack, make_route_call, &call);
    return call.answer;
}

/* Holds the row to what was in it before a call, from the clip at `from` on. */
static void hold_silence(size_t from)
{
    size_t i;
    for (i = from; i < MISTROGU_MOST_STOPS; i++) {
        if (row[i] != SILENCE)
            give_up("a call has written where it must not");
    }
}

/* Speaks the clip of what is typed, or waits until that is one stop. */
static void speak_typed(const struct guest *announcer, const struct handed *handed)
{
    struct mistrogu_answer clip =
        ask_clip(announcer, announcer->box->clip_count, handed);
    if (clip.code != 0)
        printf("  announcer  is refused %zu\n", clip.code);
    else if (clip.first == 1)
        printf("  announcer  speaks clip %zu\n", clip.second);
    else
        printf("  announcer  waits: %zu names begin so\n", clip.second);
}

/* Speaks the clips of a route. Where a position is bad, the answer tells its index,
   and there is nothing to speak: no half of a route. */
static void speak_route(const struct guest *announcer, const struct handed *handed)
{
    struct mistrogu_answer route =
        ask_route(announcer, announcer->box->clip_count, handed);
    size_t clip_count = route.code == 0 ? route.first / sizeof *row : 0;
    size_t i;

    hold_silence(clip_count);
    if (route.code != 0) {
        printf("  announcer  is refused %zu at index %zu; nothing is written\n",
               route.code, route.first);
        return;
    }
    printf("  announcer  speaks clips");
    for (i = 0; i < clip_count; i++)
        printf(" %u", (unsigned)row[i]);
    printf("\n");
}

/* With a table that has not a clip for each name, nothing is spoken at all. */
static void try_short_table(const struct guest *announcer, const struct handed *handed)
{
    size_t clip_count = announcer->box->clip_count - 1;
    struct mistrogu_answer clip = ask_clip(announcer, clip_count, handed);
    struct mistrogu_answer route = ask_route(announcer, clip_count, handed);

    hold_silence(0);
    printf("  announcer  is refused %zu for the text and %zu for the route; "
           "nothing is written\n",
           clip.code, route.code);
}

void announcer_acts(const struct guest *announcer, struct handed *handed)
{
    if (handed->event == TYPES)
        speak_typed(announcer, handed);
    else if (handed->event == TAKES_ROUTE)
        speak_route(announcer, handed);
    else if (handed->event == LOSES_CLIP)
        try_short_table(announcer, handed);
}
