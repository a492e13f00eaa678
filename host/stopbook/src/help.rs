//! What `--help` prints.

/// Where no command is given.
pub const NO_COMMAND: &str =
    "give a command: build, convert, merge, list, ask, clip, route, check, salvage, tree; see: stopbook --help";

/// The help of the tool.
pub const TOOL: &str = "\
stopbook: books of stop names, built, checked, listed and asked by the proved library

  stopbook build NAMES.txt [-o BOOK] [--fold]      make a book from a list of names
  stopbook convert BOOK -o NEW                     make a column book of a plain one, or back
  stopbook merge A.txt B.txt [-o TEXT]             make one list of names from two
  stopbook list BOOK [--long]                      print its names, or their numbers, too
  stopbook ask BOOK [KIND QUESTION]                ask it: exact, place, range, nearest, width
  stopbook clip BOOK CLIPS TEXT                    tell the clip that speaks what is typed
  stopbook route BOOK CLIPS [STOP ..]              tell the clips of a route
  stopbook check BOOK                              say whether it is a book, and of which kind
  stopbook salvage CARD [-o TEXT]                  write the names left of a damaged book
  stopbook tree BOOK [--svg FILE | --dot FILE]     draw its tree

  stopbook COMMAND --help                          more on a command, with an example
  stopbook --version

A lone - is standard input, or standard output where something is written. After -- no
word is an option. Names print as text; a backslash, control characters and bytes that
are no UTF-8 print as \\ and two hex digits for each byte. Numbers print with commas, 2,000,
and may be given with them or without. A file that is written takes the old one's place
once all of it is there; where that fails, the old one is as it was.

Exit status: 0 done; 1 refused, or not found where that is the question; 2 wrong usage,
or a file that cannot be read or written; 3 salvaged, and some names are lost.
";

/// The help of `build`.
pub const BUILD: &str = "\
stopbook build NAMES.txt [-o BOOK] [--block K] [--fold | --columns] [--trim | --as-is] [--empty]

Makes a book from a text in UTF-8 with a name on each line, in any order. Lines end with LF
or CR LF; empty ones are skipped. Names are sorted by their bytes; doubles are dropped, and
told. Bad lines (over 200 bytes, not UTF-8, with a control character such as a tab) are told
by number, and then no book is written. A book has at most 2,000 names and 65,535 bytes;
with larger blocks it is shorter.

Where the text has no names, as after an export that failed, no book is written either, and
an old one stays as it was; with --empty a book without names is made.

It warns, by line number, about what was hardly meant so, and continues: leading or trailing
blanks, lines of blanks alone, and look-alike names, which differ only in capitals, in blanks
or in how accents are composed (Latin letters).

A folded book takes capitals A to Z as small letters wherever it compares, so that MAR is
found by mar; letters with accents stay apart. It gives names back as they are spelt. Names
that are the same but for their case are doubles then, and the first is kept; both
spellings are told.

A column book is a plain book whose node table is stored field by field, for memory that is
faster when one field is read at a time. It has the same names, answers and length.

Every command takes every kind of book, but for three: salvage takes plain books, clip and
route take plain and folded ones. `stopbook convert` makes a plain book of a column book.

  -o BOOK, --output BOOK   where the book goes; without it NAMES.book, and standard output
                           where the names come from standard input
  --block K                names in a block, 1 to 64; without it 16
  --fold                   make a folded book
  --columns                make a column book
  --trim                   take blanks off before and behind names; what is empty then is
                           left out. Blanks are the space, U+00A0, U+2007, U+202F, U+3000.
  --as-is                  take every line as it is, with control characters, too, and tell
                           of doubles alone; UTF-8 and 200 bytes are still asked for
  --empty                  make the book also where there are no names

Examples:

  stopbook build sample/stops.txt -o stops.book
  stopbook build sample/stops.txt --fold -o typed.book
";

/// The help of `convert`.
pub const CONVERT: &str = "\
stopbook convert BOOK -o NEW

Makes a column book of a plain book, or a plain book of a column book, and says which. The new
book is the one that `stopbook build` makes of the same names with the same block size, byte
for byte, so to columns and back gives the old book again. Both have the same length, names
and answers. A folded book cannot be converted.

  -o NEW, --output NEW   where the new book goes; not to the file that is read

Examples:

  stopbook convert stops.book -o columns.book
  stopbook convert columns.book -o rows.book
";

/// The help of `merge`.
pub const MERGE: &str = "\
stopbook merge A.txt B.txt [-o TEXT] [--trim | --as-is] [--empty]

Makes one text of names from two, each with a name on each line, in any order: the names
of both, sorted by their bytes, each once, as they are. `stopbook build` makes a book from
it. Both texts are read as `build` reads one, with doubles told and dropped, and what looks
wrong told; where a line is bad, nothing is written. Names of the second text that look like
one of the first are told, too. A text may have any number of names, and both together at
most 2,000. How many names each brought, and how many are in both, is said on standard error.
A text without names is told, and the other's names are written; where neither has names,
nothing is written, and an old text stays as it was.

  -o TEXT, --output TEXT   where the names go; without it standard output
  --trim                   take blanks off before and behind names, as `build` does
  --as-is                  take every line as it is, as `build` does
  --empty                  write an empty text where neither has names

Examples:

  stopbook merge north.txt south.txt -o both.txt
  stopbook merge north.txt south.txt | stopbook build - -o both.book
";

/// The help of `list`.
pub const LIST: &str = "\
stopbook list BOOK [--long] [--from N] [--count N]

Prints the names of a book, a line for each, as `stopbook build` reads them.

  --long      print their numbers, too: first how many names, names in a block, nodes and
              bytes the book has; then, under a line of heads, for each name its position,
              its block, how many bytes of the name before it its entry shares, its length
              in bytes, and the name. Positions and blocks begin at 0.
  --from N    begin with the name at this position
  --count N   print so many names at most
  --plain     print the names alone, as without an option

Examples:

  stopbook list stops.book
  stopbook list stops.book --long --from 11 --count 3
";

/// The help of `ask`.
pub const ASK: &str = "\
stopbook ask BOOK KIND QUESTION [--limit N | --tsv] [--looked]
stopbook ask BOOK [--limit N | --tsv] [--looked]

Asks a book one question of at most 200 bytes:

  exact     is this a stop, and which?
  place     where does it stand, or where would it?
  range     which names begin with it?
  nearest   which name has the longest common beginning with it? The part of the name that
            matches is highlighted, or lit, but no half letter: in reverse video on a
            terminal, unless NO_COLOR is set, and elsewhere in brackets.
  width     how many bytes has the longest of the names that begin with it?

A folded book answers without regard to case; of a stop that it spells otherwise than it
was typed, the spelling is told.

Nearest counts bytes from the first on, up to the first that differs, and nothing behind it;
capitals count. A folded book counts letters, whatever their case. Of several names that
share as much it gives one, always the same. It is no search for the name that is most like
the question: of the sample's stops, Old Marina gets Old Mill and not Marina, and market sq
gets none, but in a folded book Market Square.

A question that begins with a dash goes behind --, so that it is taken for no option.

Without a question, lines of standard input are asked, a kind, a blank and a question on
each: 64 at a time, or each at once from a terminal. Answers come in the order of the lines,
each behind the number of its line, and what is refused is told on standard error.

  --limit N   of a range, print so many names at most; without it 20
  --tsv       for programs: a line for each question, in order, with six fields and a tab
              between each two:

                line      the line of the question, 1 for one on the command line
                kind      its kind; - where the line has none
                answer    yes, no, or refused; why is told on standard error
                first     exact: the stop's position; place: the place; range: where it
                          begins; nearest: the stop's position; width: the width
                second    range: how many names; nearest: how many bytes are lit
                question  its text, printed as names are; where there is no kind, the line

              Numbers have digits alone. A lone - stands where there is no such number.

  --looked    tell how far each question looked, without the check of the book: how many
              nodes of the tree it visited on its way down, and how many entries it read to
              rebuild the one name that it compared. All kinds look equally far. Behind an
              answer it is a line of its own; with --tsv these two numbers are two more
              fields behind the question, 0 and 0 where it is refused. A batch does not tell
              it, so lines of standard input are then asked one by one, each with a check.

The exit status is 1 where exact, range or width find nothing or the question is refused;
for lines of standard input, where a line is refused.

Examples:

  stopbook ask stops.book nearest \"Market Sq\"
  stopbook ask stops.book exact -- -Mar
  printf 'exact Mar\\nrange Harb\\n' | stopbook ask stops.book
  printf 'exact Mar\\nrange Harb\\n' | stopbook ask stops.book --tsv
  stopbook ask stops.book exact Marina --looked
";

/// The help of `clip`.
pub const CLIP: &str = "\
stopbook clip BOOK CLIPS TEXT [--tsv]

Tells which recorded clip the announcer plays for a text: that of the stop of this name, or
else of the only stop whose name begins with the text. Where there is neither, it tells how
many names begin with the text. A folded book takes the text in any case. A column book is
not taken; `stopbook convert` makes a plain one of it.

CLIPS is a text with a number on each line, 0 to 65535: line 1 is for the first name that
`stopbook list BOOK` prints, line 2 for the second, and so on. No line may be empty, and
there are as many lines as the book has names. Bad lines are told by number. So the clips
belong to one book: when names are added or taken away, make them anew. Another book's clips
are taken if there are as many.

  --tsv   for programs: one line with four fields and a tab between each two:

            answer   yes, no, or refused; why is told on standard error
            clip     the clip
            names    how many names begin with the text, where there is no clip
            text     the text, printed as names are

          Numbers have digits alone. A lone - stands where there is no such number.

The exit status is 1 where there is no clip.

Examples:

  seq 301 320 > clips.txt
  stopbook clip stops.book clips.txt Mar
  stopbook clip stops.book clips.txt Mark --tsv
";

/// The help of `route`.
pub const ROUTE: &str = "\
stopbook route BOOK CLIPS [STOP ..] [--names] [--tsv]

Tells the clips of a route, in its order. A route has up to 120 stops, and may come to a stop
several times. A STOP is a position, as `stopbook list BOOK --long` prints it. Without a STOP
they are read from standard input, one on each line; empty lines are skipped. Where one of
them is no stop, nothing is printed but which. The book is plain or folded, as for `clip`.

CLIPS is a text with a number on each line, as `stopbook clip --help` says.

  --names   stops are given by name: all of it, in any case for a folded book
  --tsv     for programs: a line for each stop, with four fields and a tab between each two:
            its place in the route, from 0, its position, its clip and its name

The exit status is 1 where the route is refused.

Examples:

  stopbook route stops.book clips.txt 8 13 16
  printf 'Harbour\\nMarket Square\\nStation\\n' | stopbook route stops.book clips.txt --names
";

/// The help of `check`.
pub const CHECK: &str = "\
stopbook check BOOK

Says whether the bytes are a book, and if so whether it is a plain, a folded or a column
book, and how many names, names in a block, nodes and bytes it has. The exit status is 1 where
they are none.

A book has no checksum. If one letter of a name is damaged, the bytes are often another sound
book: one wrong bit makes Marine of Marina, and check still says that it is a book. So keep a
checksum beside each book, and compare it after a copy and before use.

Examples:

  stopbook check stops.book
  sha256sum stops.book > stops.sha256       (once, when the book is built)
  sha256sum --check stops.sha256            (ever after)
";

/// The help of `salvage`.
pub const SALVAGE: &str = "\
stopbook salvage CARD [-o TEXT] [--empty]

Writes the names that are left of a damaged book, such as one from a worn card, a name on
each line, as `stopbook list` prints them; `stopbook build` makes a book from them.
Each block is judged alone, so damage in one block costs no name of another, and the nodes
do not count. Standard error has the number of each block that is lost, from 0, how many
names it had, and between which names they stood; and where a block is not above the one
before it: then one of the two has other names than it had. Where the trailer or the block
table makes no sense, where it is marked as a folded or a column book, and where no name is
left, nothing is written, and an old text stays as it was.

A book has no checksum, so a damaged letter may not show: if one wrong bit makes Marine of
Marina, the block is still sound, Marine is written, and nothing is said to be lost. Read what
was written, or compare it with an older text. `stopbook check --help` says how to keep a
checksum.

  -o TEXT, --output TEXT   where the names go; without it standard output
  --empty                  write an empty text where no name is left

The exit status is 3 where blocks are lost and a text is written, and 1 where none is
written.

Examples:

  stopbook salvage worn.book -o left.txt
  stopbook salvage worn.book | stopbook build - -o mended.book
";

/// The help of `tree`.
pub const TREE: &str = "\
stopbook tree BOOK [--svg FILE | --dot FILE] [--limit N]

Draws the node table of a book: the letters that lead to each node, its number, its depth,
its width, which is how many bytes its longest name has, and its names. The letters of a
folded book are small ones. Without a file it is indented text on standard output.

  --svg FILE   a picture, for a light or a dark page
  --dot FILE   the same in the DOT language
  --limit N    draw so many nodes at most, in the order of the table; without it 100

Example:

  printf 'Mar\\nMarina\\nMarket Square\\n' | stopbook build - --block 2 | stopbook tree - --svg mar-tree.svg
";
