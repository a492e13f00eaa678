/* The calls for a processor other than x86-64.
 *
 * The prover writes each call as C on x86-64 sees it: an answer is three numbers or five, a head three, and the caller says in a first argument
 * where they go. Other processors hand that place over in another way, so what the prover wrote gets other names (host/archive.sh), and
 * the calls are these functions, which the compiler knows as C. For tests and benchmarks only, as the archive that holds them.
 */
typedef __UINT8_TYPE__ byte;
typedef __UINT16_TYPE__ clip;
typedef __SIZE_TYPE__ size;

struct answer {
    size code, first, second;
};

struct counted {
    size code, first, second, visits, entries;
};

struct row {
    size kind, start, length;
};

struct kept {
    size kept, names;
};

struct head {
    size list, start, length;
};

struct answer *written_book_check(struct answer *, const byte *, size);
struct answer *written_book_read(struct answer *, const byte *, size, size, byte *, size);
struct answer *written_book_batch(struct answer *, const byte *, size, const byte *, size, const struct row *, size, struct answer *, size);
struct answer *written_book_salvage(struct answer *, const byte *, size, byte *, size, struct kept *, size);
struct answer *written_list_merge(struct answer *, const byte *, size, const byte *, size, byte *, size);
struct head *written_list_head(struct head *, const byte *, size, const byte *, size, size, size);
struct answer *written_announce_clip(struct answer *, const byte *, size, const clip *, size, const byte *, size);
struct answer *written_announce_route(struct answer *, const byte *, size, const clip *, size, const size *, size, clip *, size);

/* A call that builds a book of a list, of one kind or the other. */
#define BUILDS(name)                                                                                            \
    struct answer *written_##name(struct answer *, const byte *, size, size, byte *, size);                     \
    struct answer name(const byte *list, size list_length, size block, byte *room, size room_length) {          \
        struct answer given;                                                                                    \
        return *written_##name(&given, list, list_length, block, room, room_length);                            \
    }

BUILDS(book_build)
BUILDS(book_build_folded)

struct answer book_check(const byte *book, size book_length) {
    struct answer given;
    return *written_book_check(&given, book, book_length);
}

struct answer book_read(const byte *book, size book_length, size position, byte *room, size room_length) {
    struct answer given;
    return *written_book_read(&given, book, book_length, position, room, room_length);
}

/* A call that reads two runs of bytes and takes nothing else: two lists, or a question to a book. */
#define READS_TWO(shape, name)                                                                                  \
    struct shape *written_##name(struct shape *, const byte *, size, const byte *, size);                       \
    struct shape name(const byte *one, size one_length, const byte *other, size other_length) {                 \
        struct shape given;                                                                                     \
        return *written_##name(&given, one, one_length, other, other_length);                                   \
    }

READS_TWO(counted, book_exact)
READS_TWO(counted, book_place)
READS_TWO(counted, book_range)
READS_TWO(counted, book_nearest)
READS_TWO(counted, book_width)
READS_TWO(answer, list_judge)

struct answer book_batch(const byte *book, size book_length, const byte *questions, size questions_length, const struct row *rows,
                         size row_count, struct answer *answers, size answer_count) {
    struct answer given;
    return *written_book_batch(&given, book, book_length, questions, questions_length, rows, row_count, answers, answer_count);
}

/* A call that turns a book of one kind into one of another. */
#define CONVERTS(name)                                                                                          \
    struct answer *written_##name(struct answer *, const byte *, size, byte *, size);                           \
    struct answer name(const byte *book, size book_length, byte *room, size room_length) {                      \
        struct answer given;                                                                                    \
        return *written_##name(&given, book, book_length, room, room_length);                                   \
    }

CONVERTS(book_to_columns)
CONVERTS(book_from_columns)

struct answer book_salvage(const byte *data, size data_length, byte *room, size room_length, struct kept *report, size report_count) {
    struct answer given;
    return *written_book_salvage(&given, data, data_length, room, room_length, report, report_count);
}

struct answer list_merge(const byte *first, size first_length, const byte *second, size second_length, byte *room, size room_length) {
    struct answer given;
    return *written_list_merge(&given, first, first_length, second, second_length, room, room_length);
}

struct head list_head(const byte *first, size first_length, const byte *second, size second_length, size passed_first,
                      size passed_second) {
    struct head given;
    return *written_list_head(&given, first, first_length, second, second_length, passed_first, passed_second);
}

struct answer announce_clip(const byte *book, size book_length, const clip *clips, size clip_count, const byte *text, size text_length) {
    struct answer given;
    return *written_announce_clip(&given, book, book_length, clips, clip_count, text, text_length);
}

struct answer announce_route(const byte *book, size book_length, const clip *clips, size clip_count, const size *positions,
                             size position_count, clip *room, size room_count) {
    struct answer given;
    return *written_announce_route(&given, book, book_length, clips, clip_count, positions, position_count, room, room_count);
}
