// Empty vectors of C++, lent to calls that take no null pointer.
//
// The data() of an empty std::vector may be null, so a byte of one's own is lent
// in its place, as include/mistrogu.h says. Where an answer differs from what
// documents 01 and 02 say, the exit status is 1.
//
// run.sh compiles it and, with an archive for the machine at hand, links it and
// runs it.
#include "mistrogu.h"

#include <cstdio>
#include <vector>

namespace {

uint8_t none;

// What to lend of a vector: its bytes, or any other address.
const uint8_t *lent(const std::vector<uint8_t> &bytes) {
    return bytes.empty() ? &none : bytes.data();
}

uint8_t *lent(std::vector<uint8_t> &bytes) {
    return bytes.empty() ? &none : bytes.data();
}

bool is(mistrogu_answer answer, size_t code, size_t first, size_t second) {
    return answer.code == code && answer.first == first && answer.second == second;
}

// Whether a question is accepted and finds nothing, without a look at anything.
bool is_nothing(mistrogu_counted answer) {
    return answer.code == 0 && answer.first == 0 && answer.second == 0 && answer.visits == 0 && answer.entries == 0;
}

} // namespace

int main() {
    const std::vector<uint8_t> list, question;
    std::vector<uint8_t> no_room, book(16);

    bool fine = is(book_build(lent(list), list.size(), 16, lent(no_room), no_room.size()), MISTROGU_ROOM_TOO_SHORT, 0, 0);
    fine = fine && is(book_build(lent(list), list.size(), 16, lent(book), book.size()), 0, 16, 0);
    fine = fine && is(book_check(lent(list), list.size()), MISTROGU_NO_BOOK, 0, 0);
    fine = fine && is_nothing(book_range(lent(book), book.size(), lent(question), question.size()));
    fine = fine && is(list_merge(lent(list), list.size(), lent(list), list.size(), lent(no_room), no_room.size()), 0, 0, 0);

    std::puts(fine ? "Empty vectors are taken as they should be." : "An empty vector is not taken as it should be.");
    return fine ? 0 : 1;
}
