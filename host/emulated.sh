#!/usr/bin/env bash
# Counts the instructions of calls of the product itself, which is compiled for x86-64, on a machine of another processor: measure.sh counts
# there what archive.sh compiles anew, and the compiler's choices are not the same for two processors.
#
#   host/emulated.sh build LISTFILE K [BOOKFILE]         of book_build on that list with that block size; the book goes to that file
#   host/emulated.sh build_folded LISTFILE K [BOOKFILE]  of book_build_folded, likewise
#   host/emulated.sh check BOOKFILE                      of book_check on that book
#   host/emulated.sh salvage CARDFILE                    of book_salvage on that card, into a room that is always long enough
#   host/emulated.sh merge|judge FIRST SECOND            of list_merge, list_judge on these two lists
#   host/emulated.sh batch BOOKFILE                      of book_batch with 64 questions to that book, in the five kinds by turns
#   host/emulated.sh to_columns|from_columns BOOKFILE    of book_to_columns, book_from_columns on that book
#   host/emulated.sh clip BOOKFILE TEXT                  of announce_clip with that text to that book
#   host/emulated.sh route BOOKFILE                      of announce_route with 120 positions of that book
#   host/emulated.sh screen BOOKFILE TYPED               of a range and ten reads, as a passenger screen makes them when something is typed
#   host/emulated.sh questions BOOKFILE                  of 100 questions to that book, in each of the five kinds, less those of its check
#
# Needs Debian's qemu-user and gcc-x86-64-linux-gnu. The archive is the one that MISTROGU_PRODUCT names, or archive.sh's. The
# instructions between two marks that have nothing between them are taken off.
set -eu
usage() {
    sed -n '2,/^set /{/^set /d;s/^# \{0,1\}//p;}' "$0"
}
case ${1:-} in -h | --help) usage && exit ;; esac
[ $# -ge 2 ] || { usage >&2; exit 2; }
host=$(cd "$(dirname "$0")" && pwd -P)
for needed in qemu-x86_64 x86_64-linux-gnu-gcc; do
    command -v "$needed" >/dev/null || { echo "emulated.sh: $needed is missing" >&2; exit 1; }
done
MISTROGU_PRODUCT=${MISTROGU_PRODUCT:-$("$host/archive.sh" --product)}

work=$(mktemp -d)
trap 'rm -rf "$work"' EXIT
cc -O2 -Wall -Wextra -Werror -shared -fPIC "$host/emulated/count.c" -o "$work/count.so"
x86_64-linux-gnu-gcc -std=gnu99 -O1 -Wall -Wextra -Werror -static -I"$host/../include" "$host/emulated/call.c" "$MISTROGU_PRODUCT" -o "$work/call"
qemu-x86_64 -plugin "$work/count.so" "$work/call" "$@" 2>"$work/counts" >"$work/answer" || { cat "$work/counts" >&2; exit 1; }

case $1 in
questions)
    awk 'NR == 2 { empty = $1 } NR == 4 { check = $1 - empty; print "book_check: " check " instructions, which are taken off below" }
        NR > 4 { sum[int((NR - 5) / 100)] += $1 - empty - check }
        END {
            split("exact place range nearest width", kinds, " ")
            for (i = 0; i < 5; i++) printf "book_%s: 100 questions, %.0f instructions on average\n", kinds[i + 1], sum[i] / 100
        }' "$work/counts" ;;
*)
    awk -v call="$1" 'NR == 2 { empty = $1 } NR == 4 { print call ": " $1 - empty " instructions" }' "$work/counts"
    cat "$work/answer" ;;
esac
