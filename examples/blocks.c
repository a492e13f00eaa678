/*
 * How many report rows a salvage takes, by mistrogu_blocks_of, for bytes that are a
 * damaged book and for bytes that are none.
 *
 * Where a number differs from what was counted here, the program says so and its
 * exit status is 1. It is C99 and C++, and wants no library: run.sh compiles it as
 * both and runs it.
 */
#include "mistrogu.h"

#include <stdio.h>

#define COUNT(array) (sizeof(array) / sizeof *(array))
#define TRAILER 16
#define LONGEST_CARD 20

/* Numbers of a trailer, names and names in a block, and how many blocks they make:
   counted by hand, and 0 where no book has such numbers. The tests of host/mistrogu
   hold Rust's blocks_of to these rows, too. */
struct row {
    unsigned names;
    unsigned block;
    size_t blocks;
};

static const struct row ROWS[] = {
    {0, 1, 0},
    {0, 64, 0},
    {1, 1, 1},
    {1, 64, 1},
    {3, 2, 2},
    {4, 2, 2},
    {5, 2, 3},
    {63, 64, 1},
    {64, 64, 1},
    {65, 64, 2},
    {256, 16, 16},
    {257, 16, 17},
    {1999, 64, 32},
    {2000, 1, 2000},
    {2000, 2, 1000},
    {2000, 3, 667},
    {2000, 64, 32},
    {2001, 1, 0},
    {2001, 64, 0},
    {65535, 1, 0},
    {65535, 64, 0},
    {0, 0, 0},
    {1, 0, 0},
    {2000, 0, 0},
    {65535, 0, 0},
    {0, 65, 0},
    {3, 65, 0},
    {3, 256, 0},
    {3, 258, 0},
    {2000, 65535, 0},
    {65535, 65535, 0},
};

static int differences;

/* Writes a number as a trailer has it: two bytes, the low one first. */
static void put(uint8_t *at, unsigned number)
{
    at[0] = (uint8_t)(number % 256);
    at[1] = (uint8_t)(number / 256);
}

/* Writes the trailer of a card that ends here. Of what follows its first two numbers
   no byte counts. */
static void put_trailer(uint8_t *end, unsigned names, unsigned block)
{
    int i;
    put(end - 16, names);
    put(end - 14, block);
    for (i = 1; i <= 12; i++)
        end[-i] = 0xFF;
}

/* Holds what is told of a card to what it should be. */
static void hold(const uint8_t *card, size_t length, unsigned names, unsigned block,
                 size_t blocks)
{
    size_t told = mistrogu_blocks_of(card, length);
    if (told == blocks)
        return;
    printf("WRONG: %u names in blocks of %u, in %lu bytes: %lu blocks are told, not %lu\n",
           names, block, (unsigned long)length, (unsigned long)told,
           (unsigned long)blocks);
    differences++;
}

/* The numbers of a row, with every number of bytes: where a card has fewer than a
   trailer does, the rest of a trailer stands before it, and must not count. */
static void hold_row(const struct row *row)
{
    uint8_t bytes[LONGEST_CARD];
    uint8_t *end = bytes + sizeof bytes;
    size_t length;

    for (length = 0; length < sizeof bytes - TRAILER; length++)
        bytes[length] = 1;
    put_trailer(end, row->names, row->block);
    for (length = 0; length <= sizeof bytes; length++)
        hold(end - length, length, row->names, row->block,
             length < TRAILER ? 0 : row->blocks);
}

/* Where a book can have so many names in such blocks, each block-th name begins a
   block, and there are no others. */
static size_t counted(unsigned names, unsigned block)
{
    size_t blocks = 0;
    unsigned at;

    if (names > 2000 || block < 1 || block > 64)
        return 0;
    for (at = 0; at < names; at += block)
        blocks++;
    return blocks;
}

/* All numbers that a book can have, and those beside them. */
static void hold_all(void)
{
    uint8_t card[TRAILER];
    unsigned names, block;

    for (names = 0; names <= 2002; names++) {
        for (block = 0; block <= 66; block++) {
            put_trailer(card + TRAILER, names, block);
            hold(card, sizeof card, names, block, counted(names, block));
        }
    }
}

int main(void)
{
    size_t i;
    for (i = 0; i < COUNT(ROWS); i++)
        hold_row(&ROWS[i]);
    hold_all();
    puts(differences == 0 ? "The blocks of any bytes are told as they are counted."
                          : "Blocks are told otherwise than they are counted.");
    return differences == 0 ? 0 : 1;
}
