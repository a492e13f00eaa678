/*
 * What all guests share: the book, the clips and the routes.
 *
 * A box is written while it starts, before there are guests. Then its pages are made
 * read-only, and from there on no address leads to it by which it could be changed.
 */
#define _DEFAULT_SOURCE

#include "minibus.h"

#include <errno.h>
#include <fcntl.h>
#include <stdio.h>
#include <string.h>
#include <sys/mman.h>
#include <unistd.h>

#define NAMES_IN_A_BLOCK 16

/* A text of a box, as it was read. */
static uint8_t text[MISTROGU_MOST_SALVAGED];

/* Reads a whole file into the room, and gives its length. */
static size_t read_file(const char *path, uint8_t *room, size_t room_length)
{
    FILE *file = fopen(path, "rb");
    size_t length;
    if (file == NULL)
        give_up("a file can't be opened");
    length = fread(room, 1, room_length, file);
    if (ferror(file) || fgetc(file) != EOF)
        give_up("a file can't be read, or is too long");
    fclose(file);
    return length;
}

size_t end_of_line(const uint8_t *lines, size_t length, size_t start)
{
    size_t end = start;
    while (end < length && lines[end] != '\n')
        end++;
    return end;
}

/* Writes a list of the text's lines: a record for each, whose length byte takes the
   place of the newline. Gives the list's length. */
static size_t write_list(size_t length, uint8_t *list)
{
    size_t used = 0;
    size_t start, end;
    for (start = 0; start < length; start = end + 1) {
        end = end_of_line(text, length, start);
        if (end - start > MISTROGU_LONGEST_NAME)
            give_up("a name is longer than 200 bytes");
        list[used] = (uint8_t)(end - start);
        memcpy(list + used + 1, text + start, end - start);
        used += 1 + (end - start);
    }
    return used;
}

/* Builds the book of the stops. It is folded, since drivers type small letters. */
static void build_book(struct box *box, const char *path)
{
    static uint8_t list[sizeof text + 1];
    size_t length = write_list(read_file(path, text, sizeof text), list);
    struct mistrogu_answer built = book_build_folded(list, length, NAMES_IN_A_BLOCK,
                                                     box->book, sizeof box->book);

    if (built.code != 0)
        give_up("the stops are no list for a folded book");
    box->book_length = built.first;
    box->name_count = book_check(box->book, box->book_length).first;
    if (box->name_count == 0)
        give_up("there are no stops");
}

/* The clip that a line of so many digits is. */
static uint16_t read_clip(const uint8_t *digits, size_t count)
{
    unsigned clip = 0;
    size_t i;
    for (i = 0; i < count; i++) {
        unsigned digit = (unsigned)digits[i] - '0';
        clip = 10 * clip + digit;
        if (digit > 9 || clip > UINT16_MAX)
            give_up("a clip is no number of two bytes");
    }
    return (uint16_t)clip;
}

/* Reads the clip table: a number a line, for the names in the book's order. */
static void read_clips(struct box *box, const char *path)
{
    size_t length = read_file(path, text, sizeof text);
    size_t start, end;
    for (start = 0; start < length; start = end + 1) {
        end = end_of_line(text, length, start);
        if (end == start || box->clip_count == MISTROGU_MOST_NAMES)
            give_up("there is a line without a clip, or there are too many");
        box->clips[box->clip_count++] = read_clip(text + start, end - start);
    }
}

/* Reads the names of a route's stops. */
static void read_sheet(struct sheet *sheet, const char *path)
{
    size_t lines = 0;
    size_t start;
    sheet->length = read_file(path, sheet->lines, sizeof sheet->lines);
    for (start = 0; start < sheet->length; lines++)
        start = end_of_line(sheet->lines, sheet->length, start) + 1;
    if (lines == 0 || lines > MISTROGU_MOST_STOPS)
        give_up("a route has no stops, or over 120");
}

const struct box *start_box(const struct files *files)
{
    struct box *box = mmap(NULL, sizeof *box, PROT_READ | PROT_WRITE,
                           MAP_PRIVATE | MAP_ANONYMOUS, -1, 0);
    if (box == MAP_FAILED)
        give_up("there is no memory for the box");
    build_book(box, files->stops);
    read_clips(box, files->clips);
    read_sheet(&box->route, files->route);
    read_sheet(&box->misspelt, files->misspelt);
    if (mprotect(box, sizeof *box, PROT_READ) != 0)
        give_up("the box can't be sealed");
    return box;
}

/* The system is asked to put a byte there. Where that is forbidden it says so, and
   does not end the program. */
int can_be_written(const void *address)
{
    int zeros = open("/dev/zero", O_RDONLY);
    int forbidden;
    if (zeros < 0)
        give_up("/dev/zero can't be opened");
    forbidden = read(zeros, (void *)address, 1) < 0 && errno == EFAULT;
    close(zeros);
    return !forbidden;
}
