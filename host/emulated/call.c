/* Makes the calls that host/emulated.sh counts, for the emulated processor. Each is between two marks, and the first two marks of all have
 * nothing between them. What a call gives is printed.
 *
 *   call build|build_folded LISTFILE K [BOOKFILE]      the book is written to that file
 *   call check BOOKFILE
 *   call salvage CARDFILE                              into a room and a report that are always long enough
 *   call merge|judge FIRST SECOND                      two lists, the merge into a room as long as both
 *   call questions BOOKFILE                            the check, then 100 questions, each by all five calls, one call after the other
 *   call batch BOOKFILE                                64 of these questions in one call, in the five kinds by turns
 *   call to_columns|from_columns BOOKFILE              a book, into a room for the longest
 *   call clip BOOKFILE TEXT                            the clip for that text; each name's clip is its own position
 *   call route BOOKFILE                                the clips of 120 positions all over the book
 *   call screen BOOKFILE TYPED                         the names that begin with what is typed, and the first ten of them read
 */
#include <stdio.h>
#include <stdlib.h>
#include <string.h>
#include <sys/syscall.h>
#include <unistd.h>

#include "mistrogu.h"

typedef struct mistrogu_answer answer;
typedef struct mistrogu_counted counted;
typedef counted ask(const uint8_t *, size_t, const uint8_t *, size_t);

enum { MOST = 1 << 20, LONGEST = 200, QUESTIONS = 100 };

static uint8_t input[MOST], other[MOST], room[2 * MOST];
static struct mistrogu_kept report[MISTROGU_LONGEST_BOOK];
static uint8_t question[QUESTIONS][LONGEST + 1];
static size_t length[QUESTIONS];
static uint16_t clips[MISTROGU_MOST_NAMES], row[MISTROGU_MOST_STOPS];
static size_t route[MISTROGU_MOST_STOPS];

static void mark(void) { syscall(SYS_getppid); }

static size_t read_file(const char *name, uint8_t *bytes) {
    FILE *file = fopen(name, "rb");
    size_t size = file ? fread(bytes, 1, MOST, file) : 0;
    if (!file || fclose(file)) {
        perror(name);
        exit(1);
    }
    return size;
}

static void write_file(const char *name, size_t size) {
    FILE *file = fopen(name, "wb");
    if (!file || fwrite(room, 1, size, file) != size || fclose(file)) {
        perror(name);
        exit(1);
    }
}

/* Twenty names from all over the book, and of each its first half, itself with an x behind it and with another last byte; and 20 strangers. */
static void make_questions(size_t size, size_t names) {
    for (size_t i = 0; i < QUESTIONS; i++) {
        size_t turn = i / 5, position = turn * names / 20 + turn % 7;
        answer name = book_read(input, size, position < names ? position : names - 1, question[i], LONGEST);
        length[i] = name.first;
        if (i % 5 == 1)
            length[i] /= 2;
        if (i % 5 == 2 && length[i] < LONGEST)
            question[i][length[i]++] = 'x';
        if (i % 5 == 3)
            question[i][length[i] - 1]++;
        if (i % 5 == 4)
            length[i] = (size_t)snprintf((char *)question[i], LONGEST, "%cStranger", (int)('A' + turn));
    }
}

static counted ask_all(size_t size) {
    static ask *const calls[] = {book_exact, book_place, book_range, book_nearest, book_width};
    counted given = {0};
    make_questions(size, book_check(input, size).first);
    mark();
    book_check(input, size);
    mark();
    for (size_t kind = 0; kind < 5; kind++)
        for (size_t i = 0; i < QUESTIONS; i++) {
            given = calls[kind](input, size, question[i], length[i]);
            mark();
        }
    return given;
}

static answer ask_batch(size_t size) {
    static uint8_t buffer[MISTROGU_MOST_ROWS * LONGEST];
    struct mistrogu_row rows[MISTROGU_MOST_ROWS];
    answer answers[MISTROGU_MOST_ROWS], given = book_check(input, size);
    make_questions(size, given.first);
    size_t used = 0;
    for (size_t i = 0; i < MISTROGU_MOST_ROWS; i++) {
        rows[i] = (struct mistrogu_row){1 + i / 5 % 5, used, length[i]};
        memcpy(buffer + used, question[i], length[i]);
        used += length[i];
    }
    mark();
    given = book_batch(input, size, buffer, used, rows, MISTROGU_MOST_ROWS, answers, MISTROGU_MOST_ROWS);
    mark();
    return given;
}

/* What a passenger screen does when something is typed: a range, and the first ten names of it. */
static counted show(size_t size, const char *typed) {
    mark();
    counted given = book_range(input, size, (const uint8_t *)typed, strlen(typed));
    for (size_t i = 0; i < given.second && i < 10; i++)
        book_read(input, size, given.first + i, room, MISTROGU_LONGEST_NAME);
    mark();
    return given;
}

/* What a call gives that is made between two marks. */
#define COUNTED(call) (mark(), given = (call), mark(), given)

/* What the announcer asks for: the clip of a text or, without one, those of a route. */
static answer announce(size_t size, const char *text) {
    answer given = book_check(input, size);
    size_t names = given.first, stops = names ? MISTROGU_MOST_STOPS : 0;
    for (size_t i = 0; i < names; i++)
        clips[i] = (uint16_t)i;
    for (size_t i = 0; i < stops; i++)
        route[i] = 997 * i % names;
    if (text)
        return COUNTED(announce_clip(input, size, clips, names, (const uint8_t *)text, strlen(text)));
    return COUNTED(announce_route(input, size, clips, names, route, stops, row, MISTROGU_MOST_STOPS));
}

/* A call by its name, and what it takes beside the first file: a number, or the length of the other file. */
static answer make(const char *call, size_t size, size_t second) {
    answer given;
    if (!strcmp(call, "build"))
        return COUNTED(book_build(input, size, second, room, MISTROGU_LONGEST_BOOK));
    if (!strcmp(call, "build_folded"))
        return COUNTED(book_build_folded(input, size, second, room, MISTROGU_LONGEST_BOOK));
    if (!strcmp(call, "to_columns"))
        return COUNTED(book_to_columns(input, size, room, MISTROGU_LONGEST_BOOK));
    if (!strcmp(call, "from_columns"))
        return COUNTED(book_from_columns(input, size, room, MISTROGU_LONGEST_BOOK));
    if (!strcmp(call, "salvage"))
        return COUNTED(book_salvage(input, size, room, MISTROGU_MOST_SALVAGED, report, second));
    if (!strcmp(call, "merge"))
        return COUNTED(list_merge(input, size, other, second, room, sizeof room));
    if (!strcmp(call, "judge"))
        return COUNTED(list_judge(input, size, other, second));
    return COUNTED(book_check(input, size));
}

/* How many blocks a card's trailer tells of. */
static size_t blocks_of(size_t size) {
    const uint8_t *trailer = input + size - 16;
    size_t names = trailer[0] + 256u * trailer[1], block = trailer[2] + 256u * trailer[3];
    return block ? (names + block - 1) / block : 0;
}

static void tell(counted given) {
    printf("answer %zu, %zu, %zu, %zu, %zu\n", given.code, given.first, given.second, given.visits, given.entries);
}

int main(int words, char **word) {
    if (words < 3)
        return 2;
    const char *call = word[1];
    size_t size = read_file(word[2], input), second = 0;
    if (!strncmp(call, "build", 5) && words > 3)
        second = strtoul(word[3], NULL, 10);
    else if (words > 3 && strcmp(call, "screen") && strcmp(call, "clip"))
        second = read_file(word[3], other);
    else if (!strcmp(call, "salvage") && size >= 16)
        second = blocks_of(size);
    mark();
    mark();
    if (!strcmp(call, "questions")) {
        tell(ask_all(size));
        return 0;
    }
    if (!strcmp(call, "screen") && words > 3) {
        tell(show(size, word[3]));
        return 0;
    }
    answer given;
    if (!strcmp(call, "batch"))
        given = ask_batch(size);
    else if (!strcmp(call, "clip") && words > 3)
        given = announce(size, word[3]);
    else if (!strcmp(call, "route"))
        given = announce(size, NULL);
    else
        given = make(call, size, second);
    if (!strncmp(call, "build", 5) && words > 4 && !given.code)
        write_file(word[4], given.first);
    printf("answer %zu, %zu, %zu\n", given.code, given.first, given.second);
    return 0;
}
