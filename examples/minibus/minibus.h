/*
 * A minibus computer: one book of stop names, one table of clips, and three guests
 * that use them. None of the guests has a heap, and none trusts another's bytes.
 *
 *     box.c         what all guests share: written while the box starts, then sealed
 *     stack.c       a stack for a guest's calls, between pages that nobody can touch
 *     turns.c       the guests as threads, and whose turn it is
 *     panel.c       the driver's panel
 *     screen.c      the passenger screen
 *     announcer.c   the announcer
 *     minibus.c     the driver, who types and takes routes
 */
#ifndef MINIBUS_H
#define MINIBUS_H

#include "mistrogu.h"

#include <pthread.h>

/* Says why the example can't go on, and ends it with status 1. */
void give_up(const char *why) __attribute__((noreturn));

/* ---- what all guests share ---- */

/* The names of a route's stops, one a line: at most 120 lines. */
struct sheet {
    uint8_t lines[MISTROGU_MOST_STOPS * (MISTROGU_LONGEST_NAME + 1)];
    size_t length;
};

/* Guests have the address of a const box alone, and its pages are read-only: so
   what they lend to a call holds still while it runs. */
struct box {
    uint8_t book[MISTROGU_LONGEST_BOOK];
    size_t book_length;
    size_t name_count;
    uint16_t clips[MISTROGU_MOST_NAMES];
    size_t clip_count;
    struct sheet route;
    struct sheet misspelt;
};

/* The texts that a box is made from. */
struct files {
    const char *stops;
    const char *clips;
    const char *route;
    const char *misspelt;
};

/* Builds the book, reads the clips and the sheets, and seals all of it. */
const struct box *start_box(const struct files *files);

/* Whether the byte at an address can be written to. */
int can_be_written(const void *address);

/* Where the line that begins at `start` ends: at its newline, or with the last line. */
size_t end_of_line(const uint8_t *lines, size_t length, size_t start);

/* ---- a stack for calls ---- */

/* Calls may use so many bytes from `lowest` on. Between the two pages that nobody can
   touch there are `mapped` bytes, a multiple of a page. */
struct stack {
    uint8_t *lowest;
    size_t bytes;
    size_t mapped;
};

/* A new stack of so many bytes, a multiple of 16. */
struct stack make_stack(size_t bytes);

/* A size, rounded up to whole pages. */
size_t in_pages(size_t bytes);

/* Makes work(of) run on the stack, and comes back to the caller's when it ends. */
void run_on(const struct stack *stack, void (*work)(void *of), void *of);

/* How many bytes of the stack were ever written to, from its top down. Where there are
   none, or some above its top, the example can't go on. */
size_t stack_used(const struct stack *stack);

/* ---- turns ---- */

/* Everybody, in the order of their turns. */
enum party { DRIVER, PANEL, SCREEN, ANNOUNCER, PARTIES };

/* What the driver does. */
enum event { TYPES, TAKES_ROUTE, LOSES_CLIP, GOES_HOME };

/* No stop has this position. */
#define NOWHERE SIZE_MAX

/* What is handed on with the turn. Only who has the turn reads it or writes to it: so it
   holds still while a call runs. */
struct handed {
    enum event event;

    /* From the driver: what is typed so far, or the route that is taken. */
    uint8_t typed[MISTROGU_LONGEST_NAME];
    size_t typed_length;
    const struct sheet *sheet;

    /* From the panel: which names begin with what is typed, and the longest's bytes. */
    size_t range_start;
    size_t range_count;
    size_t width;

    /* From the panel: where the route's stops are in the book, or NOWHERE. */
    size_t positions[MISTROGU_MOST_STOPS];
    size_t position_count;
};

/* Whose turn it is, and what is handed on with it. */
struct turn {
    pthread_mutex_t lock;
    pthread_cond_t passed;
    enum party whose;
    struct handed handed;
};

/* A guest: who it is, what it does when it has the turn, and what its calls use. */
struct guest {
    enum party party;
    void (*act)(const struct guest *guest, struct handed *handed);
    const struct box *box;
    struct stack stack;
    struct turn *turn;
    pthread_t thread;
};

void start_guest(struct guest *guest);
void await_end(struct guest *guest);

/* Gives every guest its turn, one after the other. For the driver. */
void let_all_act(struct turn *turn);

/* ---- the guests ---- */

void panel_acts(const struct guest *panel, struct handed *handed);
void screen_acts(const struct guest *screen, struct handed *handed);
void announcer_acts(const struct guest *announcer, struct handed *handed);

#endif
