/*
 * Mistrogu: books of stop names.
 *
 * A book keeps a strictly rising list of names in at most 65,535 bytes. These
 * calls build a book, check it, read its names back, answer questions about
 * them, convert a book from one layout to another, tell which recorded clip speaks
 * a name, salvage what is left of a damaged book, and merge two lists into one. Each
 * of them is proved to do what stands over it here, for any bytes and any numbers:
 * bad input gets a refusal.
 *
 * All calls are in one archive, libmistrogu.a. `host/archive.sh` makes it
 * (target/staticlib/libmistrogu.a). It has two objects: announcer.o has the two
 * calls whose names begin with announce_, and book.o has all others. A linker takes
 * an object only where one of its calls is used.
 *
 * NAMES, QUESTIONS AND LISTS
 *
 * A name is 1 to 200 bytes of any value, a question 0 to 200. Order is that of
 * the first byte in which two names differ; a name stands before its own
 * extensions. Positions count from 0. A list is a run of records without gaps,
 * each one byte with the length of a name and then the name; it may be empty.
 *
 * THREE KINDS OF BOOK
 *
 * In a plain book every byte is a letter of its own. In a folded book the capitals
 * A to Z, bytes 65 to 90, are the same letters as a to z, the bytes 32 higher:
 * where a call compares names, or a question with them, each capital counts as
 * the small letter. So order goes by letters, MAR and mar are one name, and what
 * is typed in small letters finds a name in capitals. Nothing else folds: letters
 * with accents, which are bytes from 128 on, do not. Names are read back as they
 * were spelt.
 *
 * A column book is a plain book whose node table is stored field by field: first
 * one field of all nodes, then the next. That is for memory that is faster when
 * one field is read at a time. The names, their order, every answer, the counts
 * beside it and the length are those of the plain book. book_to_columns makes the
 * column book of a plain one, and book_from_columns the plain book of a column one.
 *
 * The last four bytes of a book, the mark, tell its kind: every call that takes a
 * book goes by them. Where all names are in small letters, the
 * plain and the folded book of a list differ in nothing else. book_check, book_read,
 * the questions and book_batch take every kind. The announcer takes plain and folded
 * books, a conversion the kind that it turns, and book_salvage the plain mark:
 * a sound book of another kind gets 2 there, and 13 from book_salvage. Lists to be
 * merged rise by bytes, as those of plain books do.
 *
 * WHAT A CALL GIVES
 *
 * Every call but list_head gives three numbers, and a single question two more.
 * The code is 0 where the call was accepted, else the number of a refusal. The
 * others are 0 where nothing else is said. Where several refusals would fit, the
 * first in the order that stands over the call is given.
 *
 * A refused call changes nothing that was lent to it. An accepted one writes
 * its output at the front of the lent room and leaves the rest as it was.
 *
 * WHAT A CALLER KEEPS
 *
 * A run of bytes is a pointer and how many bytes stand there. Rows, clips and
 * positions are a pointer and how many of them stand there, not how many bytes: a
 * table of 300 clips is lent with 300, and has 600 bytes. C checks none of what
 * follows, and the proofs take it for granted:
 *
 * - Each pointer is to that much live memory for the whole call. It is never
 *   null, not even where the length is 0: any other address will do then. In C++
 *   an empty std::vector may give null, so with a `uint8_t none` of your own lend
 *   `names.empty() ? &none : names.data(), names.size()`.
 * - Nobody else writes to that memory while the call runs: a call trusts what it
 *   has checked, and whoever can write to a book or a list during a call can take
 *   over the caller's stack. Copy what another guest can write to, or map it so
 *   that it can't (docs/TRUST.md).
 * - What a call writes to (a room, answer rows, report rows) overlaps nothing else
 *   that is lent to it. What is only read may overlap.
 * - Rows, answers and positions are aligned as C aligns them, to 8 bytes, and clips
 *   to 2. Bytes have no alignment. A clip is a uint16_t: on x86-64 two bytes, the
 *   low one first. A file of such bytes can be lent as it was read or mapped, at an
 *   even address.
 * - No piece of memory is larger than PTRDIFF_MAX bytes.
 * - There is stack for the call: MISTROGU_BUILD_STACK bytes for the two that
 *   build and MISTROGU_STACK for every other call, conversions included, are enough
 *   for any input, be it a book or not, with what the call itself pushes and without
 *   what your own memcpy and memset take. On real names every call but those that
 *   build or convert takes less than 2,048 bytes; names that are each the beginning
 *   of the next, and bytes that are made to look so, take the most, 128 bytes for
 *   each level.
 *   docs/BENCHMARKS.md says which guest can call what. The numbers are read out of
 *   the compiled code, by `host/bound`, for all inputs.
 * - An interrupt or signal handler that runs in the midst of a call leaves the 128
 *   bytes below the stack pointer alone, the red zone of System V, gives back all
 *   registers as they were, also xmm, and writes to nothing that is lent. In kernel
 *   mode that takes a stack of its own for interrupts (docs/TRUST.md).
 *
 * The code is for x86-64 with the calling convention of System V (Linux and its
 * kin); there a struct of three words or five comes back through memory, which a C
 * or C++ compiler does by itself. It keeps nothing between calls, asks for no heap,
 * and calls memcpy and memset and nothing else, so several threads may call at
 * a time.
 *
 * OTHER NAMES FOR THE CALLS
 *
 * The calls have no prefix. A guest may have a function of the same name, such as a
 * list_merge of its own, and the two can't be linked. Then make a copy of the
 * archive in which each call has a prefix, here transit_:
 *
 *     sed -n 's/.* MISTROGU_CALL(\(.*\))($/\1 transit_\1/p' mistrogu.h > renames.txt
 *     objcopy --redefine-syms=renames.txt libmistrogu.a libtransit.a
 *
 * The first command writes a line for each call, with its old and its new name. Don't
 * use --prefix-symbols: it renames memcpy and memset, too. Compile the guest with
 * -DMISTROGU_PREFIX=transit_: this header then declares transit_list_merge in the
 * place of list_merge, and so on, and the names without the prefix are free.
 * examples/renamed.c is such a guest. The code stays as it was proved.
 */
#ifndef MISTROGU_H
#define MISTROGU_H

#include <stddef.h>
#include <stdint.h>

#ifdef __cplusplus
extern "C" {
#endif

/* The version, of which CHANGELOG.md says what it brought. */
#define MISTROGU_VERSION "0.10.0"
/* The most bytes of a name, and of a question. */
#define MISTROGU_LONGEST_NAME 200
/* The most names of a book. */
#define MISTROGU_MOST_NAMES 2000
/* The most bytes of a book. */
#define MISTROGU_LONGEST_BOOK 65535
/* The most names of a block; the least is 1. */
#define MISTROGU_LARGEST_BLOCK 64
/* The last four bytes of a plain book, of a folded one, and of a column book. */
#define MISTROGU_PLAIN_MARK "NBK2"
#define MISTROGU_FOLDED_MARK "NBF2"
#define MISTROGU_COLUMNS_MARK "NBC2"
/* The most rows of a batch. */
#define MISTROGU_MOST_ROWS 64
/* The most positions of a route. */
#define MISTROGU_MOST_STOPS 120
/* The most bytes that a salvage writes: 2,000 names of 200 bytes, as records. */
#define MISTROGU_MOST_SALVAGED 402000
/* Bytes of stack that are enough for a call that builds, whatever it is given. */
#define MISTROGU_BUILD_STACK 7936
/* Bytes of stack that are enough for every other call, whatever it is given. */
#define MISTROGU_STACK 26624

/* The numbers given back when a call says no. */
enum mistrogu_refusal {
    /* The question is longer than 200 bytes. */
    MISTROGU_QUESTION_TOO_LONG = 1,
    /* The bytes are no book, or none of a kind that the call takes. */
    MISTROGU_NO_BOOK = 2,
    /* The position is at or above the number of names. */
    MISTROGU_NO_SUCH_POSITION = 3,
    /* The lent room is shorter than the output. */
    MISTROGU_ROOM_TOO_SHORT = 4,
    /* A record has length 0 or above 200, or runs past the list. */
    MISTROGU_BAD_RECORD = 5,
    /* A name is not above the one before it. */
    MISTROGU_NOT_ABOVE = 6,
    /* The list has a 2,001st name. */
    MISTROGU_TOO_MANY_NAMES = 7,
    /* The block size is not 1 to 64. */
    MISTROGU_BAD_BLOCK_SIZE = 8,
    /* The book would be longer than 65,535 bytes. */
    MISTROGU_BOOK_TOO_LONG = 9,
    /* The nearest name was asked of a book without names. */
    MISTROGU_NO_NAMES = 10,
    /* A row's kind is not 1 to 5, or its start plus length is past the buffer. */
    MISTROGU_BAD_ROW = 11,
    /* There are over 64 rows or 120 stops, or too many or too few rows to write to. */
    MISTROGU_BAD_BATCH = 12,
    /* The trailer or the block table makes no sense. */
    MISTROGU_NO_MAP = 13,
    /* The clip table has more clips or fewer than the book has names. */
    MISTROGU_BAD_CLIP_TABLE = 16
};

/* The kinds of question, as a batch row tells them. */
enum mistrogu_kind {
    MISTROGU_EXACT = 1,
    MISTROGU_PLACE = 2,
    MISTROGU_RANGE = 3,
    MISTROGU_NEAREST = 4,
    MISTROGU_WIDTH = 5
};

/* What a call gives: 0 or the number of a refusal, and two numbers beside it. */
struct mistrogu_answer {
    size_t code;
    size_t first;
    size_t second;
};

/* What a single question gives: an answer's three numbers, and how far it looked. */
struct mistrogu_counted {
    size_t code;
    size_t first;
    size_t second;
    size_t visits;
    size_t entries;
};

/* A question of a batch: its kind, and the span of the buffer that it is. */
struct mistrogu_row {
    size_t kind;
    size_t start;
    size_t length;
};

/* What a salvage reports of a block: (1, its names) kept, (0, 0) dropped. */
struct mistrogu_kept {
    size_t kept;
    size_t names;
};

/*
 * A head of two lists: a name, as a part of the list that it stands in. The list
 * is 1 for the first and 2 for the second, the start is where the name's first
 * byte is in it, behind the length byte, and the length how many bytes the name
 * has. (1, 0, 0) is the empty part: there is no head. A name is never empty.
 */
struct mistrogu_head {
    size_t list;
    size_t start;
    size_t length;
};

/* The name of a call: its own or, where MISTROGU_PREFIX is defined, behind that. */
#if defined(MISTROGU_PREFIX)
#define MISTROGU_GLUED(prefix, name) prefix##name
#define MISTROGU_BEHIND(prefix, name) MISTROGU_GLUED(prefix, name)
#define MISTROGU_CALL(name) MISTROGU_BEHIND(MISTROGU_PREFIX, name)
#else
#define MISTROGU_CALL(name) name
#endif

/* Lets a compiler that knows how warn of a null pointer. */
#if defined(__GNUC__)
#define MISTROGU_NEVER_NULL __attribute__((nonnull))
#else
#define MISTROGU_NEVER_NULL
#endif

/*
 * Builds the plain book of a list, in blocks of so many names, 1 to 64, at the
 * front of the room. Small blocks make reading a name cheaper, large ones make
 * the book shorter; 16 is a good middle. A room of MISTROGU_LONGEST_BOOK bytes is
 * always long enough.
 *
 * Accepted: (0, length of the book, 0).
 * Refused: 8; then, record by record, 5, 6, 7; then 9; then 4. Beside 5, 6 and 7
 * stands first the number of the record, counted from 0.
 */
struct mistrogu_answer MISTROGU_CALL(book_build)(
    const uint8_t *list, size_t list_length, size_t block,
    uint8_t *room, size_t room_length)
    MISTROGU_NEVER_NULL;

/*
 * Builds the folded book of a list, as book_build does the plain one. The list
 * has to strictly rise by letters, capitals counted as small ones: 6 is also given
 * to a name that is equal to the one before it once both are folded. A list that
 * rises for one of the two need not for the other: Zoo, abbey is a list for a plain
 * book, and abbey, Zoo for a folded one.
 *
 * Accepted: (0, length of the book, 0).
 * Refused: as book_build.
 */
struct mistrogu_answer MISTROGU_CALL(book_build_folded)(
    const uint8_t *list, size_t list_length, size_t block,
    uint8_t *room, size_t room_length)
    MISTROGU_NEVER_NULL;

/*
 * Tells whether bytes are a book: exactly those that book_build or
 * book_build_folded writes for some list and block size, or book_to_columns for
 * some plain book. All of the bytes count, so a book with one byte more is none. A
 * plain book ends with the mark 4E 42 4B 32, a folded one with 4E 42 46 32, and a
 * column book with 4E 42 43 32. One that ends with 4E 42 4B 31 was built before
 * nodes had widths, is none any more, and has to be built again.
 *
 * A book has no checksum, and a damaged one may be another book: one wrong bit
 * makes Marine of Marina, and the bytes are accepted. Whoever has to know that a
 * book is the one that was built keeps a checksum of its own beside it.
 *
 * The kind is not told beside n and k: once a book is accepted, its mark tells it.
 *
 * Accepted: (0, number of names, block size).
 * Refused: 2.
 */
struct mistrogu_answer MISTROGU_CALL(book_check)(
    const uint8_t *book, size_t book_length)
    MISTROGU_NEVER_NULL;

/*
 * Reads the name at a position back, to the front of the room, as it was spelt. A
 * room of MISTROGU_LONGEST_NAME bytes is always long enough. No byte is put behind
 * the name; a name may hold bytes of 0 itself.
 *
 * Accepted: (0, length of the name, 0).
 * Refused: 2, 3, 4.
 */
struct mistrogu_answer MISTROGU_CALL(book_read)(
    const uint8_t *book, size_t book_length, size_t position,
    uint8_t *room, size_t room_length)
    MISTROGU_NEVER_NULL;

/*
 * The five questions. Each checks the whole book before it answers, and nearly
 * all of its time goes there: whoever has several questions asks a batch. Of a
 * folded book, 'equals', 'less', 'begins' and 'shares' below go by letters,
 * capitals counted as small ones, in the names and in the question.
 *
 * Behind its answer each tells how far it looked, the check left aside: how many
 * nodes of the table it visited going down, the root and the last one counted, and
 * how many entries it read to rebuild the one name that it compared. To one
 * question all five look equally far: at the nodes that lead to nearest's name.
 * With n names in blocks of k, visits are 1 at least, and at most n and at most the
 * question's length plus 2; entries are 1 to k: nearest's position modulo k, plus
 * 1. Of a book without names, and where the question is refused, both are 0.
 */

/*
 * Asks for the name that equals the question.
 *
 * Accepted: (0, position, 1) where there is one, else (0, 0, 0).
 * Refused: 2, 1.
 */
struct mistrogu_counted MISTROGU_CALL(book_exact)(
    const uint8_t *book, size_t book_length,
    const uint8_t *question, size_t question_length)
    MISTROGU_NEVER_NULL;

/*
 * Asks how many names are less than the question.
 *
 * Accepted: (0, their number, 0).
 * Refused: 2, 1.
 */
struct mistrogu_counted MISTROGU_CALL(book_place)(
    const uint8_t *book, size_t book_length,
    const uint8_t *question, size_t question_length)
    MISTROGU_NEVER_NULL;

/*
 * Asks which names begin with the question; they stand side by side. The empty
 * question begins every name.
 *
 * Accepted: (0, the question's place, how many names begin with it).
 * Refused: 2, 1.
 */
struct mistrogu_counted MISTROGU_CALL(book_range)(
    const uint8_t *book, size_t book_length,
    const uint8_t *question, size_t question_length)
    MISTROGU_NEVER_NULL;

/*
 * Asks for a name that shares as many leading bytes with the question as any
 * name does, and how much of the question to light. Of several such names the
 * book's nodes lead to one, always the same, and not always the first:
 * docs/STATEMENTS.md says which.
 *
 * Of a text in UTF-8 no half character is lit. The number is the greatest, not
 * above the shared bytes, that is 0, or the question's length, or a place where
 * the question's byte is not 128 to 191: in UTF-8 those are the bytes that go on
 * with a character. With the name Café, C3 A9 at its end, the question Cafè, C3 A8
 * at its end, shares four bytes, and three are lit: Caf. The name begins with the
 * lit bytes, in a folded book in whatever case; what it goes on with does not
 * count. A question that ends inside a character and is shared in full is lit in
 * full.
 *
 * Accepted: (0, its position, how many leading bytes of the question to light).
 * Refused: 2, 1, 10.
 */
struct mistrogu_counted MISTROGU_CALL(book_nearest)(
    const uint8_t *book, size_t book_length,
    const uint8_t *question, size_t question_length)
    MISTROGU_NEVER_NULL;

/*
 * Asks how many bytes the longest of the names has that begin with the question:
 * how much space to keep for any of them. The empty question begins every name.
 * No name of the range is read for it.
 *
 * Accepted: (0, that length, 0), with length 0 where no name begins with it, as in
 * a book without names.
 * Refused: 2, 1.
 */
struct mistrogu_counted MISTROGU_CALL(book_width)(
    const uint8_t *book, size_t book_length,
    const uint8_t *question, size_t question_length)
    MISTROGU_NEVER_NULL;

/*
 * Asks up to 64 questions of one book, which is checked once. Each row's
 * question is a span of the buffer `questions`; spans may overlap. There are as
 * many answer rows as rows, and each gets the code and the two numbers that its
 * question alone would get: no other row counts, and of the buffer outside its
 * span only the length.
 *
 * Accepted: (0, number of rows, 0), and every answer row is written.
 * Refused: 12, 2.
 * A row is refused: 11, 1, 10. Its answer row is then (that number, 0, 0), and
 * the other rows are answered as ever.
 */
struct mistrogu_answer MISTROGU_CALL(book_batch)(
    const uint8_t *book, size_t book_length,
    const uint8_t *questions, size_t questions_length,
    const struct mistrogu_row *rows, size_t row_count,
    struct mistrogu_answer *answers, size_t answer_count)
    MISTROGU_NEVER_NULL;

/*
 * Turns a plain book into the column book of the same names, at the front of the
 * room: exactly the bytes that building gives for that kind, with the same list and
 * block size. Both books are of one length, so a room as long as the book is long
 * enough, and a shorter one never is. The room must not overlap the book: a book is
 * not turned in place.
 *
 * Only the order of the numbers in the node table and the mark's third byte change.
 * No list and no names are needed.
 *
 * Accepted: (0, length of the book, 0).
 * Refused: 2 to anything but a sound plain book, so also to a folded book and to a
 * column book; then 4.
 */
struct mistrogu_answer MISTROGU_CALL(book_to_columns)(
    const uint8_t *book, size_t book_length,
    uint8_t *room, size_t room_length)
    MISTROGU_NEVER_NULL;

/*
 * Turns a column book into the plain book of the same names, as book_to_columns does
 * the other way: exactly the bytes that book_build gives for the same list and block
 * size. To columns and back is the same book, and so is back and to columns.
 *
 * Accepted: (0, length of the book, 0).
 * Refused: 2 to anything but a sound column book; then 4.
 */
struct mistrogu_answer MISTROGU_CALL(book_from_columns)(
    const uint8_t *book, size_t book_length,
    uint8_t *room, size_t room_length)
    MISTROGU_NEVER_NULL;

/*
 * How many blocks a damaged book has, and so how many report rows book_salvage
 * takes. Any bytes will do: a trailer is read where there is one, and nothing else.
 * With n the number at length - 16 and k the one at length - 14, each of two bytes,
 * the low one first, it is n / k, rounded up, at most MISTROGU_MOST_NAMES. It is 0
 * where there are no names, and where book_salvage refuses the bytes with 13
 * whatever rows it is lent: with under 16 bytes, with n above MISTROGU_MOST_NAMES,
 * and with k not 1 to MISTROGU_LARGEST_BLOCK.
 *
 * The archive has no such call: it is compiled with what includes this header.
 */
static inline size_t mistrogu_blocks_of(const uint8_t *card, size_t length)
{
    const uint8_t *trailer;
    size_t names, block;

    if (length < 16)
        return 0;
    trailer = card + (length - 16);
    names = trailer[0] + (size_t)256 * trailer[1];
    block = trailer[2] + (size_t)256 * trailer[3];
    if (names > MISTROGU_MOST_NAMES || block == 0 || block > MISTROGU_LARGEST_BLOCK)
        return 0;
    return (names + block - 1) / block;
}

/*
 * Salvages the names of a damaged book, block by block, such as one from a worn
 * card. Where the trailer and the block table make sense, each block is judged
 * alone, and by nothing but the bytes of its own span: entries have to fill it
 * exactly, in the proper number, with names of 1 to 200 bytes, strictly rising,
 * and greatest shared counts. The names of the sound blocks are written as list
 * records, in order, and each block has a report row: kept, with how many names
 * were written, or dropped.
 *
 * So damage inside of one block's span changes neither verdict nor names of any
 * other block, and nodes are never looked at. A damaged block that is sound with
 * other names is kept with those, as one with Marine in the place of Marina: a book
 * has no checksum. Names rise inside of a block, and need not rise from block to
 * block: what is written may be no list.
 *
 * The trailer and the block table make sense where there are at most 2,000 names,
 * in blocks of 1 to 64; where the parts meet without gaps at the places that the
 * trailer names, and the length and the mark are right, which is that of a plain
 * book: to a folded book and to a column book the answer is 13; and where the
 * blocks' starts strictly rise from 0 inside of the entries. Without names there
 * are no bytes of entries.
 *
 * There are as many report rows as blocks: mistrogu_blocks_of tells how many. A
 * room of MISTROGU_MOST_SALVAGED bytes is always long enough.
 *
 * Accepted: (0, bytes written, 0), and every report row is written.
 * Refused: 13; then 12 where there are other than as many report rows as blocks;
 * then 4. Neither the room nor a row is written to then.
 */
struct mistrogu_answer MISTROGU_CALL(book_salvage)(
    const uint8_t *data, size_t data_length,
    uint8_t *room, size_t room_length,
    struct mistrogu_kept *report, size_t report_count)
    MISTROGU_NEVER_NULL;

/*
 * Two lists. Each may have any number of names, also more than a book can have;
 * both may be the same bytes. They are judged first, the whole of the first and
 * then the whole of the second: 5 and 6, record by record, with first the number
 * of the record, counted from 0, and second that of the list, 1 or 2, beside it.
 */

/*
 * Merges two lists into one strictly rising list at the front of the room; a
 * name in both is written once. A room as long as both lists together is always
 * long enough, and what is written is a list for book_build.
 *
 * Accepted: (0, bytes written, 0).
 * Refused: 5, 6 of the lists; then (7, 2000, 0) where the merged list would have
 * over 2,000 names; then 4.
 */
struct mistrogu_answer MISTROGU_CALL(list_merge)(
    const uint8_t *first, size_t first_length,
    const uint8_t *second, size_t second_length,
    uint8_t *room, size_t room_length)
    MISTROGU_NEVER_NULL;

/*
 * Tells whether two runs of bytes are lists, and if not, which record of which
 * is bad: why list_head gives no head.
 *
 * Accepted: (0, 0, 0).
 * Refused: 5, 6 of the lists.
 */
struct mistrogu_answer MISTROGU_CALL(list_judge)(
    const uint8_t *first, size_t first_length,
    const uint8_t *second, size_t second_length)
    MISTROGU_NEVER_NULL;

/*
 * Shows the lesser of the two heads behind so many passed records of each list;
 * of equal heads the first list's. A list of which as many records as it has, or
 * more, up to SIZE_MAX, are passed has no head, and the other's is shown.
 *
 * Gives the head, or (1, 0, 0) where neither list has one, and where one is
 * refused; list_judge tells these apart.
 *
 * Nothing is kept between calls: whoever follows a merge counts the record that
 * is shown as passed, and asks again. Of a name in both lists the second one's
 * is then shown next; it is passed likewise. Each call judges both lists and goes
 * over them from their start, so it takes time as their bytes together do, and
 * to follow a merge to its end takes as many such calls as both have records.
 */
struct mistrogu_head MISTROGU_CALL(list_head)(
    const uint8_t *first, size_t first_length,
    const uint8_t *second, size_t second_length,
    size_t passed_first, size_t passed_second)
    MISTROGU_NEVER_NULL;

/*
 * The announcer: what is typed becomes the clip that is spoken, and a route becomes
 * a row of clips. Both calls take a book and a clip table. The book is plain or
 * folded: a column book gets 2. The table has one clip for each name, the one at
 * place i for the name at position i; any numbers will do. So a table belongs to one
 * book: when the book is built anew, the table is made anew. No call can tell that a
 * table is another book's, if it has as many clips. Both calls check the whole book
 * before they answer.
 */

/*
 * Gives the clip for a text: that of the name that equals it, or else of the only
 * name that begins with it. Where there is neither, it tells how many names begin
 * with the text, which is 0 or 2 or more. Mar has its own clip, also where Marina
 * begins with Mar. The empty text begins every name. Of a folded book, 'equals' and
 * 'begins' go by letters, capitals counted as small ones.
 *
 * Accepted: (0, 1, the clip), or (0, 0, how many names begin with the text).
 * Refused: 2; then 16; then 1 where the text is longer than 200 bytes.
 */
struct mistrogu_answer MISTROGU_CALL(announce_clip)(
    const uint8_t *book, size_t book_length,
    const uint16_t *clips, size_t clip_count,
    const uint8_t *text, size_t text_length)
    MISTROGU_NEVER_NULL;

/*
 * Writes the clips of a route to the front of the room: one for each position, in
 * the route's order. A route has 0 to 120 positions, and may have one of them
 * several times. A room of MISTROGU_MOST_STOPS clips is always long enough.
 *
 * Accepted: (0, bytes written, 0): two for each position.
 * Refused: 2; then 16; then 12 with over 120 positions; then 3 where a position is
 * at or above the number of names; then 4 where the room is for fewer clips than
 * there are positions. Beside 3 stands first the place of the first such position
 * in the route, counted from 0.
 */
struct mistrogu_answer MISTROGU_CALL(announce_route)(
    const uint8_t *book, size_t book_length,
    const uint16_t *clips, size_t clip_count,
    const size_t *positions, size_t position_count,
    uint16_t *room, size_t room_count)
    MISTROGU_NEVER_NULL;

#undef MISTROGU_NEVER_NULL
#undef MISTROGU_CALL
#undef MISTROGU_BEHIND
#undef MISTROGU_GLUED

#ifdef __cplusplus
}
#endif

#endif
