/*
 * The guests as threads, and whose turn it is. One after the other has the turn, so
 * that the example prints the same every time.
 */
#include "minibus.h"

static void await_turn(struct turn *turn, enum party party)
{
    pthread_mutex_lock(&turn->lock);
    while (turn->whose != party)
        pthread_cond_wait(&turn->passed, &turn->lock);
    pthread_mutex_unlock(&turn->lock);
}

static void pass_turn(struct turn *turn)
{
    pthread_mutex_lock(&turn->lock);
    turn->whose = (turn->whose + 1) % PARTIES;
    pthread_cond_broadcast(&turn->passed);
    pthread_mutex_unlock(&turn->lock);
}

void let_all_act(struct turn *turn)
{
    pass_turn(turn);
    await_turn(turn, DRIVER);
}

/* Lengths come from another guest, so they are looked at before they are used. Other
   numbers go to a call as they are: it refuses bad ones. */
static void hold_lengths(const struct handed *handed)
{
    if (handed->typed_length > MISTROGU_LONGEST_NAME ||
        handed->width > MISTROGU_LONGEST_NAME ||
        handed->position_count > MISTROGU_MOST_STOPS)
        give_up("a length is handed on that is past its room");
}

/* A guest's thread: it acts whenever it has the turn, until the driver goes home. */
static void *be_guest(void *of)
{
    const struct guest *guest = of;
    enum event event;
    do {
        await_turn(guest->turn, guest->party);
        event = guest->turn->handed.event;
        hold_lengths(&guest->turn->handed);
        guest->act(guest, &guest->turn->handed);
        pass_turn(guest->turn);
    } while (event != GOES_HOME);
    return NULL;
}

void start_guest(struct guest *guest)
{
    if (pthread_create(&guest->thread, NULL, be_guest, guest) != 0)
        give_up("there is no thread for a guest");
}

void await_end(struct guest *guest)
{
    if (pthread_join(guest->thread, NULL) != 0)
        give_up("a guest does not end");
}
