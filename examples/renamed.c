/*
 * A guest that has a list_merge of its own beside the library's.
 *
 * The library's calls have no prefix, and two functions of one name can't be linked.
 * So this guest links a copy of the archive in which each call has the prefix
 * transit_, and is compiled with -DMISTROGU_PREFIX=transit_, so that the header
 * declares them so. include/mistrogu.h and README.md say how the copy is made.
 *
 * Where something is wrong, the exit status is 1. run.sh makes the copy, compiles this
 * file, links the two and runs what comes of it.
 */
#include "mistrogu.h"

#include <stdio.h>
#include <string.h>

#define COUNT(array) (sizeof(array) / sizeof *(array))

/* A departure, and the next one. */
struct departure {
    int minute;
    struct departure *next;
};

struct departure *list_merge(struct departure *first, struct departure *second);

/* The guest's own: two rows of departures become one, by their minutes. It is not
   static, so the linker sees its name. */
struct departure *list_merge(struct departure *first, struct departure *second)
{
    struct departure *all = NULL;
    struct departure **end = &all;

    while (first != NULL && second != NULL) {
        struct departure **earlier = first->minute <= second->minute ? &first : &second;
        *end = *earlier;
        end = &(*earlier)->next;
        *earlier = (*earlier)->next;
    }
    *end = first != NULL ? first : second;
    return all;
}

typedef void (*any_call)(void);

/* Every call of the library, by its new name: the linker has to find each. */
static const any_call CALLS[] = {
    (any_call)transit_book_build,      (any_call)transit_book_build_folded,
    (any_call)transit_book_check,      (any_call)transit_book_read,
    (any_call)transit_book_exact,      (any_call)transit_book_place,
    (any_call)transit_book_range,      (any_call)transit_book_nearest,
    (any_call)transit_book_width,      (any_call)transit_book_batch,
    (any_call)transit_book_to_columns, (any_call)transit_book_from_columns,
    (any_call)transit_book_salvage,    (any_call)transit_list_merge,
    (any_call)transit_list_judge,      (any_call)transit_list_head,
    (any_call)transit_announce_clip,   (any_call)transit_announce_route,
};

/* Whether no call of the library is the guest's own function. */
static int are_apart(void)
{
    size_t i;
    for (i = 0; i < COUNT(CALLS); i++) {
        if (CALLS[i] == (any_call)list_merge)
            return 0;
    }
    return 1;
}

/* Whether the guest's own function still does what it did. */
static int merges_departures(void)
{
    struct departure late = {50, NULL}, middle = {20, NULL}, early = {5, &late};
    struct departure *all = list_merge(&early, &middle);
    return all == &early && early.next == &middle && middle.next == &late &&
           late.next == NULL;
}

/* Whether the library merges two lists of stops, and finds one in their book. */
static int merges_stops(void)
{
    static const uint8_t first[] = "\003Mar\015Market Square";
    static const uint8_t second[] = "\003Mar\006Marina";
    static const uint8_t both[] = "\003Mar\006Marina\015Market Square";
    uint8_t merged[sizeof first + sizeof second], book[93];
    struct mistrogu_answer answer;
    struct mistrogu_counted found;

    answer = transit_list_merge(first, sizeof first - 1, second, sizeof second - 1, merged,
                                sizeof merged);
    if (answer.code != 0 || answer.first != 25 || memcmp(merged, both, 25) != 0)
        return 0;
    answer = transit_book_build(merged, 25, 2, book, sizeof book);
    if (answer.code != 0 || answer.first != sizeof book)
        return 0;
    found = transit_book_exact(book, sizeof book, (const uint8_t *)"Marina", 6);
    return found.code == 0 && found.first == 1 && found.second == 1;
}

int main(void)
{
    int fine = are_apart() && merges_departures() && merges_stops();
    puts(fine ? "A guest's own list_merge and the library's are both called."
              : "With a list_merge of a guest's own something is wrong.");
    return fine ? 0 : 1;
}
