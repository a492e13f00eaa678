#!/usr/bin/env bash
# Counts the instructions of calls of the proved library, each with all that it calls, by valgrind's callgrind.
#
#   host/measure.sh build LISTFILE K              instructions of book_build on that list with that block size
#   host/measure.sh build_folded LISTFILE K       of book_build_folded, likewise
#   host/measure.sh check BOOKFILE                of book_check on that book
#   host/measure.sh read BOOKFILE POSITION        of book_read at that position of that book
#   host/measure.sh exact BOOKFILE QUESTION       of book_exact with that question to that book
#   host/measure.sh place|range|nearest|width ..  of book_place, book_range, book_nearest, book_width, as for exact
#   host/measure.sh to_columns BOOKFILE           of book_to_columns on that plain book, into a room of its length
#   host/measure.sh from_columns BOOKFILE         of book_from_columns on that column book, likewise
#   host/measure.sh clip BOOKFILE TEXT            of announce_clip with that text to that book
#   host/measure.sh route BOOKFILE [STOPS]        of announce_route with so many positions of that book, or with 120
#   host/measure.sh salvage CARDFILE              of book_salvage on that card, into a room that is always long enough
#   host/measure.sh merge FIRST SECOND            of list_merge on these two lists, into a room as long as both
#   host/measure.sh judge FIRST SECOND            of list_judge on them
#   host/measure.sh step FIRST SECOND COUNT COUNT of list_head behind so many records of the first and of the second
#   host/measure.sh questions BOOKFILE            of mixed questions to that book, less those of its check
#   host/measure.sh batch BOOKFILE                of book_batch with 64 mixed questions to that book, and of each of them alone
#   host/measure.sh clips BOOKFILE                of announce_clip with the texts of the same mix, less those of the book's check
#   host/measure.sh screen BOOKFILE TYPED         of a book_range with what is typed, and a book_read of the first ten names of it
#   host/measure.sh growth                        of build, check and place, on lists of which one parameter doubles
#   host/measure.sh worst [SEED]                  of check and place, on shapes that may cost most: the ten dearest of each
#   host/measure.sh worst_folded [SEED]           the same of folded books, of which neighbours differ in case
#   host/measure.sh split LISTFILE ODD EVEN       counts nothing, but parts a list into two files, to be merged again
#   host/measure.sh wear BOOKFILE CARDFILE        counts nothing, but damages every tenth block of a book, to be salvaged
#   host/measure.sh book LISTFILE K BOOKFILE      counts nothing, but writes a list's book, and tells its names and levels
#   host/measure.sh columns BOOKFILE NEW          counts nothing, but writes the column book of a plain book, and tells its nodes
#   host/measure.sh fold LISTFILE K NAME          counts nothing, but writes a list's names for folded books, and those books
#
# A question, like a text, is a word, or `hex:` and two digits for each byte. The clip at each position is the position's own number. `vectors lists FOLDER` and `vectors books FOLDER K` write files to measure
# with, and `split` two more: the records of that list that have odd numbers, counted from 0, and those that have even ones. Of what `wear`
# writes, a damaged block is broken in its last entry, so all of it is gone through before it is dropped. `fold` writes NAME-folded.list and
# NAME-folded.book, with the names as they are spelt, and NAME-turns.list and NAME-turns.book, in small letters and capitals by turns, so that
# neighbours share no byte. Levels, of which `book` tells, are forks that stand inside each other, on the longest way down. Every call that
# takes a book takes each kind, but for those of the announcer, which take plain and folded books, and those of one kind alone: a conversion
# and salvage. The words go to the program `bench`. The archive is the one that MISTROGU_ARCHIVE names, or archive.sh's;
# reference.sh and small.sh make others, to measure in the same way.
#
# `questions` makes 100 questions from the book's names, the same ones each time: 20 names, 20 beginnings, 20 extensions, 20 that miss a
# name by one byte, and 20 strangers. Each is asked in all five kinds, and every call is counted by itself. Since a call checks the book
# before it answers, the count of book_check on the same book is taken off. For each kind, and for all, it prints the average of what
# is left, the most, and the question that took the most.
#
# `batch` takes 64 of these questions from all over the mix, a fifth in each kind, asks them as one batch, and then each by a call of its own,
# which checks the book again. It prints the instructions of the batch, those of the others, and how many times the average of the others
# the batch took.
#
# `growth` prints a table. Beside each number stands how many times the one before it is; of place the check is taken off.
set -eu
usage() {
    sed -n '2,/^set /{/^set /d;s/^# \{0,1\}//p;}' "$0"
}
[ $# -ge 1 ] || { usage >&2; exit 2; }
case $1 in
-h | --help) usage && exit ;;
merge | judge) call=list_$1 ;;
clip | route) call=announce_$1 ;;
step) call=list_head ;;
*) call=book_$1 ;;
esac

host=$(cd "$(dirname "$0")" && pwd -P)
archive=${MISTROGU_ARCHIVE:-$("$host/archive.sh")}
MISTROGU_ARCHIVE=$archive cargo build --quiet --release --offline --manifest-path "$host/Cargo.toml" -p bench

work=$(mktemp -d)
trap 'rm -rf "$work"' EXIT
profile=$work/profile
bench=${CARGO_TARGET_DIR:-$host/target}/release/bench

# Runs `bench` with the words after a `--`, callgrind with those before it.
profiled() {
    local options=()
    while [ "$1" != -- ]; do options+=("$1"); shift; done
    shift
    valgrind --quiet --tool=callgrind --callgrind-out-file="$profile" ${options[@]+"${options[@]}"} "$bench" "$@"
}

# Of one call. A line of the report: 12,345 (67.8%)  file:function [object]
one_call() {
    profiled -- "$@"
    callgrind_annotate --inclusive=yes --threshold=100 "$profile" | awk -v call="$call" '
        $0 ~ "[^:]:" call "( |$)" { gsub(",", "", $1); print call ": " $1 " instructions"; found = 1; exit }
        END { if (!found) { print call " is not in the profile" > "/dev/stderr"; exit 1 } }'
}

# Of each of many calls: writes the line that `bench` prints for it, behind its instructions, to the file `counts`. Only what is inside the
# calls is counted, whose names begin with the first word, and a profile is written at the end of each: profile.1 for the first, and so on.
each_call() {
    local begin=$1 number=0 line
    shift
    profiled --toggle-collect="${begin}_*" --dump-after='*measured_*' -- "$@" >"$work/calls"
    while IFS= read -r line; do
        number=$((number + 1))
        echo "$(sed -n 's/^totals: //p' "$profile.$number") $line"
    done <"$work/calls" >"$work/counts"
}

# What is done first with such a line.
counted='$1 !~ /^[1-9][0-9]*$/ { print "a call is not in the profile: " $0 > "/dev/stderr"; failed = 1; exit 1 }'

# Of mixed questions: the check, then each question. Their answers are held to the second program outside of the profiler, where that is soon done.
mixed_questions() {
    "$bench" questions "$@" >"$work/right"
    each_call book asked "$@"
    cmp -s "$work/right" "$work/calls" || { echo "questions $*: other answers under the profiler" >&2 && exit 1; }
    awk "$counted"'
        # instructions, kind, the word answer, its numbers and a colon, the question
        function count(kind, cost, question) {
            if (!calls[kind]++ || cost > most[kind]) { most[kind] = cost; dearest[kind] = question }
            sum[kind] += cost
        }
        NR == 1 { check = $1; print "book_check: " check " instructions, which are taken off below"; next }
        {
            question = $0; sub(/^[^:]*: /, "", question)
            count("book_" $2, $1 - check, question)
            count("all", $1 - check, $2 " " question)
        }
        END {
            if (failed) exit 1
            split("book_exact book_place book_range book_nearest book_width all", kinds, " ")
            for (i = 1; i <= 6; i++) {
                kind = kinds[i]
                printf "%s: %d questions, %.0f instructions on average, %d at most, for %s\n",
                    kind, calls[kind], sum[kind] / calls[kind], most[kind], dearest[kind]
            }
        }' "$work/counts"
}

# Of the texts of the mix. The check is counted by itself: the announcer's calls may come to a function of the book's, whose name would begin and
# end the counting in their midst.
mixed_texts() {
    local check
    call=book_check
    check=$(one_call check "$@" | sed -n 's/^book_check: \([0-9]*\) instructions$/\1/p')
    "$bench" texts "$@" >"$work/right"
    each_call announce announced "$@"
    cmp -s "$work/right" "$work/calls" || { echo "clips $*: other answers under the profiler" >&2 && exit 1; }
    awk -v check="$check" 'NR == 1 { next }'"$counted"'
        {
            text = $0; sub(/^[^:]*: /, "", text)
            cost = $1 - check
            if (!calls++ || cost > most) { most = cost; dearest = text }
            sum += cost
        }
        END {
            if (failed) exit 1
            print "book_check: " check " instructions, which are taken off below"
            printf "announce_clip: %d texts, %.0f instructions on average, %d at most, for %s\n", calls, sum / calls, most, dearest
        }' "$work/counts"
}

# Of a batch, then each of its questions.
one_batch() {
    each_call book together "$@"
    awk "$counted"'
        NR == 1 { batch = $1; next }
        NR == 2 { least = $1; most = $1 }
        $1 < least { least = $1 }
        $1 > most { most = $1 }
        { sum += $1 }
        END {
            if (failed) exit 1
            alone = NR - 1
            printf "book_batch: %d instructions for %d questions\n", batch, alone
            printf "each alone: %.0f instructions on average, %d to %d\n", sum / alone, least, most
            printf "the batch takes %.3f times the average of one question, %.3f times the least\n", batch * alone / sum, batch / least
        }' "$work/counts"
}

# Of a screen: all its calls together.
screen() {
    each_call book "$@"
    awk "$counted"'
        { sum += $1 }
        END { if (failed) exit 1; printf "screen: %d instructions, of a range and %d reads\n", sum, NR - 1 }' "$work/counts"
}

# A line of three calls for each list: label, bytes of the book, build, check, place less the check. What is too large is left out.
three_calls() {
    each_call book "$@"
    awk "$counted"'
        { label = $0; sub(/^[^ ]* [^ ]* /, "", label); bytes = label; sub(/.*: /, "", bytes); sub(/: [^:]*$/, "", label) }
        $2 == "build" { build = $1 }
        $2 == "check" { check = $1 }
        $2 == "place" { print label "\t" bytes "\t" build "\t" check "\t" $1 - check }
        END { if (failed) exit 1 }' "$work/counts" >"$work/lists"
}

growth() {
    three_calls growth
    awk -F '\t' '
        function cell(now, before) { return before ? sprintf("%d (%.2f)", now, now / before) : now }
        BEGIN { print "| Parameter | Value | Bytes of the book | build | check | place, after the check |"; print "|---|---:|---:|---:|---:|---:|" }
        {
            split($1, part, ", ")
            if (part[1] != parameter) build = check = place = 0
            parameter = part[1]
            print "| " parameter " | " part[2] " | " $2 " | " cell($3, build) " | " cell($4, check) " | " cell($5, place) " |"
            build = $3; check = $4; place = $5
        }' "$work/lists"
}

# Of the search that the first word names.
worst() {
    three_calls "$@"
    echo "check:" && sort -t "$(printf '\t')" -k 4,4nr "$work/lists" | awk -F '\t' 'NR <= 10 { print $4 " " $1 ", bytes " $2 }'
    echo "place, after the check:" && sort -t "$(printf '\t')" -k 5,5nr "$work/lists" | awk -F '\t' 'NR <= 10 { print $5 " " $1 ", bytes " $2 }'
}

case $1 in
questions) shift && mixed_questions "$@" ;;
batch) shift && one_batch "$@" ;;
clips) shift && mixed_texts "$@" ;;
screen) screen "$@" ;;
growth) growth ;;
worst | worst_folded) worst "$@" ;;
split | wear | book | columns | fold) "$bench" "$@" ;;
*) one_call "$@" ;;
esac
