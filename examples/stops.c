/*
 * Two operators' lists made one, its three stops in a book, what can be asked of
 * it, how far each question looks, what is announced of it, and what is left of it
 * where it is damaged; a column book of the same stops, for a panel that reads one
 * field at a time; and a folded book, in which a driver finds stops in small letters.
 *
 * The merged list, the book and the first twelve questions are those of document
 * 01, the project's scope document; the widths, the merging, how much of a
 * question is lit, the salvage, the folded book, how far a question looks, the
 * announcer and the column book are document 02's. Every answer is held to the figures there: where one
 * differs, the program says so and its exit status is 1.
 *
 * run.sh compiles it, links it with the proved library and runs it.
 */
#include "mistrogu.h"

#include <stdio.h>
#include <string.h>

#define COUNT(array) (sizeof (array) / sizeof *(array))

/* The stops of either operator, and those of both. */
static const char *const FIRST[] = {"Mar", "Market Square"};
static const char *const SECOND[] = {"Mar", "Marina"};
static const char *const STOPS[] = {"Mar", "Marina", "Market Square"};

/* Where each of them is shown: Mar, which is in both lists, in the first. */
static const struct mistrogu_head HEADS[] = {{1, 1, 3}, {2, 5, 6}, {1, 5, 13}};

/* A list whose second name is not above its first. */
static const uint8_t FALLING[] = "\003Mar\001M";

/* A question, its answer, and how far it looks: nodes visited and entries read. */
struct asked {
    size_t kind;
    const char *question;
    size_t first;
    size_t second;
    size_t visits;
    size_t entries;
};

static const struct asked ASKED[] = {
    {MISTROGU_EXACT, "Marina", 1, 1, 2, 2},
    {MISTROGU_EXACT, "Marin", 0, 0, 2, 2},
    {MISTROGU_PLACE, "", 0, 0, 1, 1},
    {MISTROGU_PLACE, "Mark", 2, 0, 2, 1},
    {MISTROGU_PLACE, "Maxim", 3, 0, 2, 2},
    {MISTROGU_RANGE, "Mar", 0, 3, 2, 1},
    {MISTROGU_RANGE, "Mark", 2, 1, 2, 1},
    {MISTROGU_RANGE, "Mas", 3, 0, 2, 1},
    {MISTROGU_NEAREST, "Mango", 0, 2, 1, 1},
    {MISTROGU_NEAREST, "Maxim", 1, 2, 2, 2},
    {MISTROGU_NEAREST, "Zoo", 0, 0, 2, 1},
    {MISTROGU_NEAREST, "M", 0, 1, 1, 1},
    {MISTROGU_WIDTH, "", 13, 0, 1, 1},
    {MISTROGU_WIDTH, "Mari", 6, 0, 2, 2},
    {MISTROGU_WIDTH, "Mas", 0, 0, 2, 1},
};

/* A list of one stop, Café, whose last letter has two bytes: C3 A9. */
static const uint8_t ACCENTED[] = "\005Caf\303\251";

struct lit {
    const char *how;
    const char *question;
    size_t lit;
};

/* Cafe, Cafè, Cafés, and what ends between the two bytes. */
static const struct lit LIT[] = {
    {"parts before its last letter", "Cafe", 3},
    {"parts inside it", "Caf\303\250", 3},
    {"parts behind it", "Caf\303\251s", 5},
    {"ends inside it", "Caf\303", 4},
};

/* Stops as three offices spell them, in the order of a folded book. */
static const char *const SPELT[] = {"mar", "Marina", "MARKET Square"};

/* Two names that are one once folded. */
static const uint8_t ALIKE[] = "\003MAR\003mar";

/* What is typed to the folded book, in whatever case. */
static const struct asked TYPED[] = {
    {MISTROGU_EXACT, "marina", 1, 1, 2, 2},
    {MISTROGU_EXACT, "MARKET SQUARE", 2, 1, 2, 3},
    {MISTROGU_PLACE, "MARK", 2, 0, 2, 3},
    {MISTROGU_RANGE, "maR", 0, 3, 2, 1},
    {MISTROGU_NEAREST, "markt", 2, 4, 2, 3},
    {MISTROGU_WIDTH, "MARI", 6, 0, 2, 2},
};

/* A clip for each stop, in the book's order, and one too many. */
static const uint16_t CLIPS[] = {1020, 1019, 1005, 7};

/* A text, and what is announced: (1, a clip), or (0, how many stops begin so). */
struct spoken {
    const char *text;
    size_t first;
    size_t second;
};

/* Mar has its own clip, though three stops begin so. */
static const struct spoken SPOKEN[] = {
    {"Mar", 1, 1020}, {"Mark", 1, 1005}, {"Marina", 1, 1019},
    {"Ma", 0, 3},     {"", 0, 3},        {"Mas", 0, 0},
};

/* A route, which may come to a stop twice, and its clips. */
static const size_t ROUTE[] = {2, 0, 2};
static const uint16_t ROUTE_CLIPS[] = {1005, 1020, 1005};

/* The node table of the three stops as columns: symbols, depths, first names, numbers
   of names, numbers of nodes and widths, each of four nodes. */
static const uint8_t COLUMNS[] = {
    0,  0, 0, 0, 106, 0, 108, 0, /* symbol */
    3,  0, 4, 0, 7,   0, 14,  0, /* depth */
    0,  0, 0, 0, 1,   0, 2,   0, /* first name */
    3,  0, 1, 0, 1,   0, 1,   0, /* names */
    4,  0, 1, 0, 1,   0, 1,   0, /* nodes */
    13, 0, 3, 0, 6,   0, 13,  0, /* width */
};

struct damage {
    const char *how;
    size_t at;
    uint8_t byte;
    struct mistrogu_kept report[2];
    size_t written;
};

/* Another byte somewhere in the book, and what becomes of its two blocks. */
static const struct damage DAMAGES[] = {
    {"the root's symbol is 255", 29, 255, {{1, 2}, {1, 1}}, 25},
    {"Marina's count is 4", 5, 4, {{0, 0}, {1, 1}}, 14},
    {"Market Square's length is 12", 11, 12, {{1, 2}, {0, 0}}, 11},
    {"Marina is Marinb", 9, 'b', {{1, 2}, {1, 1}}, 25},
};

/* How many answers were not the expected ones. */
static int differences = 0;

/* Holds an answer to the expected numbers, and gives it back. */
static struct mistrogu_answer hold(const char *what, struct mistrogu_answer got,
                                   size_t code, size_t first, size_t second)
{
    if (got.code != code || got.first != first || got.second != second) {
        printf("WRONG: %s gave (%zu, %zu, %zu), expected (%zu, %zu, %zu)\n", what,
               got.code, got.first, got.second, code, first, second);
        differences++;
    }
    return got;
}

/* The three numbers of what a question gives, which are those of a batch's row. */
static struct mistrogu_answer answer_of(struct mistrogu_counted got)
{
    struct mistrogu_answer answer;
    answer.code = got.code;
    answer.first = got.first;
    answer.second = got.second;
    return answer;
}

/* Holds how far a question looked to the expected numbers. */
static void hold_looked(const char *what, struct mistrogu_counted got, size_t visits,
                        size_t entries)
{
    if (got.visits != visits || got.entries != entries) {
        printf("WRONG: \"%s\" looked at (%zu, %zu), expected (%zu, %zu)\n", what,
               got.visits, got.entries, visits, entries);
        differences++;
    }
}

/* Holds a head to the expected one. */
static void hold_head(const char *what, struct mistrogu_head got,
                      struct mistrogu_head expected)
{
    if (got.list != expected.list || got.start != expected.start ||
        got.length != expected.length) {
        printf("WRONG: %s gave (%zu, %zu, %zu), expected (%zu, %zu, %zu)\n", what,
               got.list, got.start, got.length, expected.list, expected.start,
               expected.length);
        differences++;
    }
}

/* Holds bytes to a stop's name. */
static void hold_name(const uint8_t *bytes, size_t length, const char *stop)
{
    if (length != strlen(stop) || memcmp(bytes, stop, length) != 0) {
        printf("WRONG: that is not %s\n", stop);
        differences++;
    }
}

/* Writes the records of so many stops, and gives the list's length. */
static size_t write_list(uint8_t *list, const char *const *stops, size_t count)
{
    size_t length = 0;
    size_t i;
    for (i = 0; i < count; i++) {
        size_t bytes = strlen(stops[i]);
        list[length] = (uint8_t)bytes;
        memcpy(list + length + 1, stops[i], bytes);
        length += 1 + bytes;
    }
    return length;
}

/* Shows the names of two lists in their order, as a screen does that follows a
   merge. A name in both is the first list's head, and right behind that the
   second's: there it is passed and not shown again. */
static void show_heads(const uint8_t *first, size_t first_length, const uint8_t *second,
                       size_t second_length)
{
    size_t passed_first = 0;
    size_t passed_second = 0;
    const uint8_t *before = first;
    size_t before_length = 0;
    size_t shown = 0;

    for (;;) {
        struct mistrogu_head head = list_head(first, first_length, second, second_length,
                                              passed_first, passed_second);
        const uint8_t *name = (head.list == 1 ? first : second) + head.start;
        if (head.length == 0)
            break; /* Both lists are passed. */
        if (head.list == 1)
            passed_first++;
        else
            passed_second++;
        if (head.length == before_length && memcmp(name, before, before_length) == 0)
            continue;
        before = name;
        before_length = head.length;
        printf("  %.*s, of list %zu\n", (int)head.length, (const char *)name, head.list);
        if (shown < COUNT(HEADS)) {
            hold_head("list_head", head, HEADS[shown]);
            hold_name(name, head.length, STOPS[shown]);
        }
        shown++;
    }
    if (shown != COUNT(HEADS)) {
        printf("WRONG: %zu names were shown\n", shown);
        differences++;
    }
}

/* Merges the two operators' lists into the room, and gives the bytes written; 0
   where that is refused. */
static size_t merge_lists(uint8_t *room, size_t room_length)
{
    uint8_t first[50];
    uint8_t second[50];
    size_t first_length = write_list(first, FIRST, COUNT(FIRST));
    size_t second_length = write_list(second, SECOND, COUNT(SECOND));
    struct mistrogu_answer merged =
        hold("list_merge",
             list_merge(first, first_length, second, second_length, room, room_length), 0,
             25, 0);

    if (merged.code != 0)
        return 0;
    printf("two lists merged to %zu bytes\n", merged.first);
    show_heads(first, first_length, second, second_length);
    hold("list_judge", list_judge(first, first_length, second, second_length), 0, 0, 0);
    return merged.first;
}

/* Asks a question by the call of its kind. */
static struct mistrogu_counted ask(const uint8_t *book, size_t length, size_t kind,
                                   const char *question)
{
    const uint8_t *bytes = (const uint8_t *)question;
    switch (kind) {
    case MISTROGU_EXACT:
        return book_exact(book, length, bytes, strlen(question));
    case MISTROGU_PLACE:
        return book_place(book, length, bytes, strlen(question));
    case MISTROGU_RANGE:
        return book_range(book, length, bytes, strlen(question));
    case MISTROGU_WIDTH:
        return book_width(book, length, bytes, strlen(question));
    default:
        return book_nearest(book, length, bytes, strlen(question));
    }
}

/* Asks a question, holds what it gives to what is expected, and gives its answer. */
static struct mistrogu_answer ask_and_hold(const uint8_t *book, size_t length,
                                           const struct asked *asked)
{
    struct mistrogu_counted got = ask(book, length, asked->kind, asked->question);
    hold_looked(asked->question, got, asked->visits, asked->entries);
    return hold(asked->question, answer_of(got), 0, asked->first, asked->second);
}

/* Prints what a question was answered. */
static void tell(const struct asked *asked, struct mistrogu_answer answer)
{
    const char *question = asked->question;
    if (answer.code != 0) {
        printf("  \"%s\": refused %zu\n", question, answer.code);
        return;
    }
    switch (asked->kind) {
    case MISTROGU_EXACT:
        if (answer.second == 1)
            printf("  exact \"%s\": stop %zu\n", question, answer.first);
        else
            printf("  exact \"%s\": no stop\n", question);
        break;
    case MISTROGU_PLACE:
        printf("  place \"%s\": %zu before it\n", question, answer.first);
        break;
    case MISTROGU_RANGE:
        if (answer.second == 0)
            printf("  range \"%s\": no stop\n", question);
        else
            printf("  range \"%s\": stops %zu to %zu\n", question, answer.first,
                   answer.first + answer.second - 1);
        break;
    case MISTROGU_WIDTH:
        printf("  width \"%s\": %zu bytes\n", question, answer.first);
        break;
    default:
        printf("  nearest \"%s\": stop %zu, bytes to light: %zu\n", question,
               answer.first, answer.second);
    }
}

/* Each question by a call of its own. */
static void ask_one_by_one(const uint8_t *book, size_t length)
{
    size_t i;
    printf("questions one by one\n");
    for (i = 0; i < COUNT(ASKED); i++)
        tell(&ASKED[i], ask_and_hold(book, length, &ASKED[i]));
}

/* The most nodes that a question of so many bytes visits in a book of so many names. */
static size_t most_visits(size_t names, size_t question_length)
{
    return question_length + 2 < names ? question_length + 2 : names;
}

/* As a guest does that has a fixed slot for each question: before it asks it knows
   the most that a question can look at, and the answer tells how much it was. */
static void keep_to_a_slot(const uint8_t *book, size_t length)
{
    struct mistrogu_answer checked = book_check(book, length);
    size_t i;
    printf("how far each looked, of the most that it can\n");
    for (i = 0; i < COUNT(ASKED); i++) {
        const char *question = ASKED[i].question;
        size_t nodes = most_visits(checked.first, strlen(question));
        size_t entries = checked.second;
        struct mistrogu_counted got = ask(book, length, ASKED[i].kind, question);
        if (got.visits > nodes || got.entries > entries) {
            printf("WRONG: \"%s\" is past its slot\n", question);
            differences++;
        }
        printf("  \"%s\": nodes %zu of %zu, entries %zu of %zu\n", question, got.visits,
               nodes, got.entries, entries);
    }
}

/* All questions in one call, which checks the book once; and a row more, whose
   kind there is not: it is refused, and the others are answered. */
static void ask_in_a_batch(const uint8_t *book, size_t length)
{
    uint8_t questions[100];
    size_t used = 0;
    struct mistrogu_row rows[COUNT(ASKED) + 1];
    struct mistrogu_answer answers[COUNT(ASKED) + 1];
    struct mistrogu_answer batch;
    size_t i;

    for (i = 0; i < COUNT(ASKED); i++) {
        rows[i].kind = ASKED[i].kind;
        rows[i].start = used;
        rows[i].length = strlen(ASKED[i].question);
        memcpy(questions + used, ASKED[i].question, rows[i].length);
        used += rows[i].length;
    }
    rows[i].kind = MISTROGU_WIDTH + 1;
    rows[i].start = 0;
    rows[i].length = 0;

    batch = hold("book_batch",
                 book_batch(book, length, questions, used, rows, COUNT(rows), answers,
                            COUNT(answers)),
                 0, COUNT(rows), 0);
    if (batch.code != 0)
        return; /* A refused batch has written no answers. */
    printf("the same questions in a batch\n");
    for (i = 0; i < COUNT(ASKED); i++)
        tell(&ASKED[i], hold("a row of the batch", answers[i], 0, ASKED[i].first,
                             ASKED[i].second));
    hold("the row of kind 6", answers[i], MISTROGU_BAD_ROW, 0, 0);
    printf("  a row of kind 6: refused %zu\n", answers[i].code);

    hold("more rows than answers",
         book_batch(book, length, questions, used, rows, COUNT(rows), answers, 1),
         MISTROGU_BAD_BATCH, 0, 0);
}

/* How much of a question to light, where a letter has two bytes: never half of
   it, unless the question itself ends there. */
static void light_no_half_letter(void)
{
    uint8_t book[37];
    size_t i;

    hold("book_build, one stop",
         book_build(ACCENTED, sizeof ACCENTED - 1, 1, book, sizeof book), 0, sizeof book,
         0);
    printf("a question that nearly is Caf\303\251\n");
    for (i = 0; i < COUNT(LIT); i++) {
        struct mistrogu_answer answer =
            hold(LIT[i].how,
                 answer_of(ask(book, sizeof book, MISTROGU_NEAREST, LIT[i].question)), 0,
                 0, LIT[i].lit);
        printf("  %s: bytes to light: %zu\n", LIT[i].how, answer.second);
    }
}

/* Whether an accepted book is folded. */
static int is_folded(const uint8_t *book, size_t length)
{
    return memcmp(book + length - 4, MISTROGU_FOLDED_MARK, 4) == 0;
}

/* A folded book: questions find its names in any case, and the names come back as
   they were spelt. */
static void ask_a_folded_book(const uint8_t *book, size_t length)
{
    uint8_t name[MISTROGU_LONGEST_NAME];
    size_t i;

    hold("book_check, folded", book_check(book, length), 0, 3, 4);
    if (!is_folded(book, length)) {
        printf("WRONG: the book has no folded mark\n");
        differences++;
    }
    printf("a folded book of %zu bytes\n", length);
    for (i = 0; i < COUNT(TYPED); i++)
        tell(&TYPED[i], ask_and_hold(book, length, &TYPED[i]));
    for (i = 0; i < COUNT(SPELT); i++) {
        struct mistrogu_answer read =
            hold("book_read, folded", book_read(book, length, i, name, sizeof name), 0,
                 strlen(SPELT[i]), 0);
        hold_name(name, read.first, SPELT[i]);
    }
}

/* Builds a folded book, asks it, and tries what only a plain one is good for. */
static void fold(void)
{
    uint8_t list[50];
    uint8_t book[93];
    uint8_t room[100];
    struct mistrogu_kept report[1];
    size_t list_length = write_list(list, SPELT, COUNT(SPELT));

    hold("book_build_folded",
         book_build_folded(list, list_length, 4, book, sizeof book), 0, sizeof book, 0);
    ask_a_folded_book(book, sizeof book);
    hold("a plain book of names that rise once folded",
         book_build(list, list_length, 4, room, sizeof room), MISTROGU_NOT_ABOVE, 1, 0);
    hold("a folded book of two names that are one",
         book_build_folded(ALIKE, sizeof ALIKE - 1, 4, room, sizeof room),
         MISTROGU_NOT_ABOVE, 1, 0);
    hold("what is left of a folded book",
         book_salvage(book, sizeof book, room, sizeof room, report, COUNT(report)),
         MISTROGU_NO_MAP, 0, 0);
}

/* What is spoken for a text, with a table of so many clips. */
static struct mistrogu_answer speak(const uint8_t *book, size_t length, size_t clip_count,
                                    const char *text)
{
    return announce_clip(book, length, CLIPS, clip_count, (const uint8_t *)text,
                         strlen(text));
}

/* What is spoken for the route, which is written to the front of the room. */
static void speak_route(const uint8_t *book, size_t length)
{
    uint16_t room[COUNT(ROUTE) + 1];
    size_t i;

    room[COUNT(ROUTE)] = 0xAAAA;
    hold("announce_route",
         announce_route(book, length, CLIPS, COUNT(STOPS), ROUTE, COUNT(ROUTE), room,
                        COUNT(room)),
         0, sizeof ROUTE_CLIPS, 0);
    if (memcmp(room, ROUTE_CLIPS, sizeof ROUTE_CLIPS) != 0 ||
        room[COUNT(ROUTE)] != 0xAAAA) {
        printf("WRONG: those are not the clips of the route\n");
        differences++;
        return;
    }
    printf("  a route of %zu stops: clips", COUNT(ROUTE));
    for (i = 0; i < COUNT(ROUTE); i++)
        printf(" %u", (unsigned)room[i]);
    printf("\n");
}

/* The longest route that there is: 120 stops, here all the first. */
static void speak_longest_route(const uint8_t *book, size_t length)
{
    static const size_t longest[MISTROGU_MOST_STOPS] = {0};
    uint16_t room[MISTROGU_MOST_STOPS];
    struct mistrogu_answer spoken =
        hold("a route of 120 stops",
             announce_route(book, length, CLIPS, COUNT(STOPS), longest, COUNT(longest),
                            room, COUNT(room)),
             0, sizeof room, 0);
    printf("  a route of %zu stops: %zu bytes of clips\n", COUNT(longest), spoken.first);
}

/* What the announcer speaks: texts, and routes. */
static void announce(const uint8_t *book, size_t length)
{
    size_t i;
    printf("what is announced\n");
    for (i = 0; i < COUNT(SPOKEN); i++) {
        struct mistrogu_answer answer =
            hold(SPOKEN[i].text, speak(book, length, COUNT(STOPS), SPOKEN[i].text), 0,
                 SPOKEN[i].first, SPOKEN[i].second);
        printf("  \"%s\": %s %zu\n", SPOKEN[i].text,
               answer.first == 1 ? "clip" : "stops that begin so:", answer.second);
    }
    speak_route(book, length);
    speak_longest_route(book, length);
}

/* Turns the plain book into a column book, asks that, and turns it back. Only the node
   table, at 29, and the mark are other bytes than before. */
static void turn_to_columns(const uint8_t *book, size_t length)
{
    uint8_t columns[94];
    uint8_t back[93];
    size_t i;

    columns[93] = 0xAA;
    hold("book_to_columns", book_to_columns(book, length, columns, sizeof columns), 0, 93,
         0);
    if (memcmp(columns, book, 29) != 0 ||
        memcmp(columns + 29, COLUMNS, sizeof COLUMNS) != 0 ||
        memcmp(columns + 77, book + 77, 12) != 0 ||
        memcmp(columns + 89, MISTROGU_COLUMNS_MARK, 4) != 0 || columns[93] != 0xAA) {
        printf("WRONG: that is not the column book\n");
        differences++;
    }
    hold("book_check, columns", book_check(columns, 93), 0, 3, 2);
    for (i = 0; i < COUNT(ASKED); i++)
        ask_and_hold(columns, 93, &ASKED[i]);
    hold("book_from_columns", book_from_columns(columns, 93, back, sizeof back), 0, 93, 0);
    if (length != sizeof back || memcmp(back, book, sizeof back) != 0) {
        printf("WRONG: that is not the book again\n");
        differences++;
    }
    printf("a column book of 93 bytes, with the same answers, and the book again\n");
}

/* Prints the names in a run of records. */
static void print_records(const uint8_t *records, size_t length)
{
    size_t at = 0;
    while (at < length) {
        printf(" %.*s;", (int)records[at], (const char *)(records + at + 1));
        at += 1 + (size_t)records[at];
    }
    printf("\n");
}

/* Salvages the book with one byte changed. */
static void salvage_one(const struct damage *damage, const uint8_t *book, size_t length)
{
    uint8_t card[93];
    uint8_t room[25];
    struct mistrogu_kept report[2];
    struct mistrogu_answer salvaged;
    size_t i;

    memcpy(card, book, sizeof card);
    card[damage->at] = damage->byte;
    if (mistrogu_blocks_of(card, length) != COUNT(report)) {
        printf("WRONG: there are other than two blocks\n");
        differences++;
        return;
    }
    salvaged = hold(damage->how,
                    book_salvage(card, length, room, sizeof room, report, COUNT(report)),
                    0, damage->written, 0);
    if (salvaged.code != 0)
        return; /* A refused salvage has written nothing. */
    for (i = 0; i < COUNT(report); i++) {
        if (report[i].kept != damage->report[i].kept ||
            report[i].names != damage->report[i].names) {
            printf("WRONG: %s: block %zu is reported as (%zu, %zu)\n", damage->how, i,
                   report[i].kept, report[i].names);
            differences++;
        }
    }
    printf("  %s:", damage->how);
    print_records(room, salvaged.first);
}

/* What is left of the book where one byte is another. */
static void salvage(const uint8_t *book, size_t length)
{
    size_t i;
    printf("what is left of the book, damaged in one byte\n");
    for (i = 0; i < COUNT(DAMAGES); i++)
        salvage_one(&DAMAGES[i], book, length);
}

/* Holds a room to what it was filled with. */
static void hold_untouched(const uint8_t *room, size_t length)
{
    size_t i;
    for (i = 0; i < length; i++) {
        if (room[i] != 0xAA) {
            printf("WRONG: a refused call has changed byte %zu of its room\n", i);
            differences++;
        }
    }
}

/* Calls of a book that have to be refused, and leave the room as it was. */
static void be_refused(const uint8_t *list, size_t list_length, const uint8_t *book,
                       size_t length)
{
    static const uint8_t long_question[MISTROGU_LONGEST_NAME + 1] = {0};
    uint8_t room[92];
    uint8_t old[93];
    struct mistrogu_counted asked;
    int before = differences;

    memset(room, 0xAA, sizeof room);
    hold("blocks of 65", book_build(list, list_length, 65, room, sizeof room),
         MISTROGU_BAD_BLOCK_SIZE, 0, 0);
    hold("names that fall", book_build(FALLING, sizeof FALLING - 1, 2, room, sizeof room),
         MISTROGU_NOT_ABOVE, 1, 0);
    hold("a room of 92 bytes", book_build(list, list_length, 2, room, sizeof room),
         MISTROGU_ROOM_TOO_SHORT, 0, 0);
    hold("a book without its first byte", book_check(book + 1, length - 1),
         MISTROGU_NO_BOOK, 0, 0);
    memcpy(old, book, sizeof old);
    old[92] = '1';
    hold("a book with the old mark", book_check(old, sizeof old), MISTROGU_NO_BOOK, 0, 0);
    hold("the name at 3", book_read(book, length, 3, room, sizeof room),
         MISTROGU_NO_SUCH_POSITION, 0, 0);
    hold("a name into 5 bytes", book_read(book, length, 1, room, 5),
         MISTROGU_ROOM_TOO_SHORT, 0, 0);
    asked = book_exact(book, length, long_question, sizeof long_question);
    hold("a question of 201 bytes", answer_of(asked), MISTROGU_QUESTION_TOO_LONG, 0, 0);
    hold_looked("a question of 201 bytes", asked, 0, 0);
    hold_untouched(room, sizeof room);
    if (differences == before)
        printf("eight calls were refused as they had to be\n");
}

/* A card that can't be salvaged, whatever rows are lent: none are asked for. */
static void hold_no_map(const char *how, const uint8_t *card, size_t length, uint8_t *room,
                        size_t room_length)
{
    struct mistrogu_kept none;
    size_t blocks = mistrogu_blocks_of(card, length);

    if (blocks != 0) {
        printf("WRONG: %s: there are %zu blocks\n", how, blocks);
        differences++;
        return;
    }
    hold(how, book_salvage(card, length, room, room_length, &none, blocks),
         MISTROGU_NO_MAP, 0, 0);
}

/* The same with a damaged book. */
static void be_refused_salvage(const uint8_t *book, size_t length)
{
    struct mistrogu_kept report[2] = {{77, 78}, {77, 78}};
    uint8_t room[24];
    uint8_t card[93];
    int before = differences;

    memset(room, 0xAA, sizeof room);
    hold("a card without its first byte",
         book_salvage(book + 1, length - 1, room, sizeof room, report, 2),
         MISTROGU_NO_MAP, 0, 0);
    hold("one report row", book_salvage(book, length, room, sizeof room, report, 1),
         MISTROGU_BAD_BATCH, 0, 0);
    hold("a room one byte short",
         book_salvage(book, length, room, sizeof room, report, 2),
         MISTROGU_ROOM_TOO_SHORT, 0, 0);
    hold_no_map("a card of 15 bytes", book + length - 15, 15, room, sizeof room);
    memcpy(card, book, sizeof card);
    card[length - 14] = 0;
    hold_no_map("a card with blocks of no names", card, length, room, sizeof room);
    hold_untouched(room, sizeof room);
    if (report[0].kept != 77 || report[0].names != 78 || report[1].kept != 77 ||
        report[1].names != 78) {
        printf("WRONG: a refused salvage has changed its report\n");
        differences++;
    }
    if (differences == before)
        printf("and five salvages\n");
}

/* The same with two lists. A refused head is the empty part of the first. */
static void be_refused_lists(const uint8_t *list, size_t list_length)
{
    static const struct mistrogu_head empty = {1, 0, 0};
    uint8_t room[24];
    int before = differences;

    memset(room, 0xAA, sizeof room);
    hold("a second list that falls",
         list_merge(list, list_length, FALLING, sizeof FALLING - 1, room, sizeof room),
         MISTROGU_NOT_ABOVE, 1, 2);
    hold("a first list without its last byte",
         list_judge(list, list_length - 1, FALLING, sizeof FALLING - 1),
         MISTROGU_BAD_RECORD, 2, 1);
    hold("a room of 24 bytes",
         list_merge(list, list_length, list, list_length, room, sizeof room),
         MISTROGU_ROOM_TOO_SHORT, 0, 0);
    hold_head("a head beside a list that falls",
              list_head(list, list_length, FALLING, sizeof FALLING - 1, 0, 0), empty);
    hold_untouched(room, sizeof room);
    if (differences == before)
        printf("and four calls with two lists\n");
}

/* The same with texts that are to be announced. A call that has two faults is told the
   first in the header's order: 2, 16, 1. */
static void be_refused_texts(const uint8_t *book, size_t length)
{
    static const uint8_t long_text[MISTROGU_LONGEST_NAME + 1] = {0};
    size_t clips = COUNT(STOPS);
    int before = differences;

    hold("a text, no book and a clip too few",
         speak(book + 1, length - 1, clips - 1, "Mar"), MISTROGU_NO_BOOK, 0, 0);
    hold("a text of 201 bytes and a clip too few",
         announce_clip(book, length, CLIPS, clips - 1, long_text, sizeof long_text),
         MISTROGU_BAD_CLIP_TABLE, 0, 0);
    hold("a text and a clip too many", speak(book, length, clips + 1, "Mar"),
         MISTROGU_BAD_CLIP_TABLE, 0, 0);
    hold("a text of 201 bytes",
         announce_clip(book, length, CLIPS, clips, long_text, sizeof long_text),
         MISTROGU_QUESTION_TOO_LONG, 0, 0);
    if (differences == before)
        printf("and four texts for the announcer\n");
}

/* The same with routes, by the order 2, 16, 12, 3, 4; the room is as it was. */
static void be_refused_routes(const uint8_t *book, size_t length)
{
    static const size_t too_many[MISTROGU_MOST_STOPS + 1] = {3};
    static const size_t past[] = {0, 3, 1, 4};
    uint16_t room[MISTROGU_MOST_STOPS + 1];
    size_t clips = COUNT(STOPS);
    int before = differences;

    memset(room, 0xAA, sizeof room);
    hold("a route, no book and a clip too few",
         announce_route(book + 1, length - 1, CLIPS, clips - 1, ROUTE, COUNT(ROUTE), room,
                        COUNT(room)),
         MISTROGU_NO_BOOK, 0, 0);
    hold("a route of 121 stops and a clip too few",
         announce_route(book, length, CLIPS, clips - 1, too_many, COUNT(too_many), room,
                        COUNT(room)),
         MISTROGU_BAD_CLIP_TABLE, 0, 0);
    hold("a route and a clip too many",
         announce_route(book, length, CLIPS, clips + 1, ROUTE, COUNT(ROUTE), room,
                        COUNT(room)),
         MISTROGU_BAD_CLIP_TABLE, 0, 0);
    hold("a route of 121 stops, one of them past the book",
         announce_route(book, length, CLIPS, clips, too_many, COUNT(too_many), room,
                        COUNT(room)),
         MISTROGU_BAD_BATCH, 0, 0);
    hold("a route with two stops past the book, and a room for fewer clips",
         announce_route(book, length, CLIPS, clips, past, COUNT(past), room,
                        COUNT(past) - 1),
         MISTROGU_NO_SUCH_POSITION, 1, 0);
    hold("a route and a room for fewer clips",
         announce_route(book, length, CLIPS, clips, ROUTE, COUNT(ROUTE), room,
                        COUNT(ROUTE) - 1),
         MISTROGU_ROOM_TOO_SHORT, 0, 0);
    hold_untouched((const uint8_t *)room, sizeof room);
    if (differences == before)
        printf("and six routes\n");
}

/* The same with conversions, by the order 2, 4, and with calls that take no column
   book; the room is as it was. */
static void be_refused_conversions(const uint8_t *book, size_t length)
{
    static const uint8_t small[] = "\x03mar\x06marina";
    uint8_t columns[93];
    uint8_t folded[100];
    uint8_t room[93];
    struct mistrogu_kept report[2];
    struct mistrogu_answer built =
        book_build_folded(small, sizeof small - 1, 2, folded, sizeof folded);
    int before = differences;

    book_to_columns(book, length, columns, sizeof columns);
    memset(room, 0xAA, sizeof room);
    hold("a column book to columns, and no room",
         book_to_columns(columns, sizeof columns, room, 0), MISTROGU_NO_BOOK, 0, 0);
    hold("a folded book to columns",
         book_to_columns(folded, built.first, room, sizeof room), MISTROGU_NO_BOOK, 0, 0);
    hold("a plain book from columns", book_from_columns(book, length, room, sizeof room),
         MISTROGU_NO_BOOK, 0, 0);
    hold("to columns, and a room too short",
         book_to_columns(book, length, room, sizeof room - 1), MISTROGU_ROOM_TOO_SHORT, 0,
         0);
    hold("from columns, and a room too short",
         book_from_columns(columns, sizeof columns, room, sizeof room - 1),
         MISTROGU_ROOM_TOO_SHORT, 0, 0);
    hold("what is announced of a column book",
         speak(columns, sizeof columns, COUNT(STOPS), "Mar"), MISTROGU_NO_BOOK, 0, 0);
    hold("what is left of a column book",
         book_salvage(columns, sizeof columns, room, sizeof room, report, COUNT(report)),
         MISTROGU_NO_MAP, 0, 0);
    hold_untouched(room, sizeof room);
    if (differences == before)
        printf("and seven calls with books of another kind or short rooms\n");
}

/* Builds the book of three stops, and gives its length; 0 where it is refused. */
static size_t build(const uint8_t *list, size_t list_length, uint8_t *book, size_t space)
{
    struct mistrogu_answer built;
    struct mistrogu_answer checked;

    hold("book_build, blocks of 4", book_build(list, list_length, 4, book, space), 0, 88,
         0);
    built = hold("book_build, blocks of 2", book_build(list, list_length, 2, book, space),
                 0, 93, 0);
    if (built.code != 0)
        return 0;
    printf("a book of %zu bytes\n", built.first);
    checked = hold("book_check", book_check(book, built.first), 0, 3, 2);
    printf("%zu stops in blocks of %zu\n", checked.first, checked.second);
    return built.first;
}

/* Reads every name back. */
static void read_names(const uint8_t *book, size_t length)
{
    uint8_t name[MISTROGU_LONGEST_NAME];
    size_t i;
    for (i = 0; i < COUNT(STOPS); i++) {
        struct mistrogu_answer read =
            hold("book_read", book_read(book, length, i, name, sizeof name), 0,
                 strlen(STOPS[i]), 0);
        printf("  %zu %.*s\n", i, (int)read.first, (const char *)name);
        hold_name(name, read.first, STOPS[i]);
    }
}

int main(void)
{
    static uint8_t book[MISTROGU_LONGEST_BOOK];
    uint8_t list[100];
    size_t list_length = merge_lists(list, sizeof list);
    size_t length = list_length == 0 ? 0 : build(list, list_length, book, sizeof book);

    if (length == 0)
        return 1;
    read_names(book, length);
    ask_one_by_one(book, length);
    keep_to_a_slot(book, length);
    ask_in_a_batch(book, length);
    light_no_half_letter();
    announce(book, length);
    turn_to_columns(book, length);
    fold();
    salvage(book, length);
    be_refused(list, list_length, book, length);
    be_refused_salvage(book, length);
    be_refused_lists(list, list_length);
    be_refused_texts(book, length);
    be_refused_routes(book, length);
    be_refused_conversions(book, length);
    return differences == 0 ? 0 : 1;
}
