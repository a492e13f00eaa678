// marisa, as a library that the comparison loads: see src/loaded.rs.
//
// marisa numbers the names in its own way. So an exact question tells only whether there is such a name, and a range only how many names
// begin with the question, found one by one.

#include <cstddef>
#include <cstdint>
#include <cstring>
#include <marisa.h>

namespace {

struct Peer {
    marisa::Trie trie;
    marisa::Agent agent;
};

void answer(std::size_t *numbers, std::size_t first, std::size_t second) {
    numbers[0] = 0;
    numbers[1] = first;
    numbers[2] = second;
}

void ask(Peer *peer, const std::uint8_t *question, std::size_t length) {
    peer->agent.set_query(reinterpret_cast<const char *>(question), length);
}

}  // namespace

extern "C" {

Peer *peer_build(const std::uint8_t *list, std::size_t length) {
    marisa::Keyset names;
    for (std::size_t at = 0; at < length; at += 1 + list[at])
        names.push_back(reinterpret_cast<const char *>(list + at + 1), list[at]);
    Peer *peer = new Peer;
    peer->trie.build(names);
    return peer;
}

void peer_free(Peer *peer) { delete peer; }

std::size_t peer_size(const Peer *peer) { return peer->trie.io_size(); }

// The name that marisa gave this number.
void peer_read(Peer *peer, std::size_t number, std::uint8_t *room, std::size_t length, std::size_t *numbers) {
    peer->agent.set_query(number);
    peer->trie.reverse_lookup(peer->agent);
    std::size_t bytes = peer->agent.key().length();
    if (bytes <= length) std::memcpy(room, peer->agent.key().ptr(), bytes);
    answer(numbers, bytes, 0);
}

void peer_exact(Peer *peer, const std::uint8_t *question, std::size_t length, std::size_t *numbers) {
    ask(peer, question, length);
    bool found = peer->trie.lookup(peer->agent);
    answer(numbers, found ? peer->agent.key().id() : 0, found);
}

void peer_range(Peer *peer, const std::uint8_t *question, std::size_t length, std::size_t *numbers) {
    ask(peer, question, length);
    std::size_t count = 0;
    while (peer->trie.predictive_search(peer->agent)) ++count;
    answer(numbers, 0, count);
}

}
