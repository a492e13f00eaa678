#!/usr/bin/env bash
# Compiles the examples, links them with the proved library and runs them.
#
#   examples/run.sh [ARCHIVE]        without ARCHIVE: what `host/archive.sh --product` makes, again only where sources changed
#
# stops.c goes through all calls, and renamed.c has a table of them; both are held to the header's. renamed.c is linked with a copy of the
# archive in which the calls have other names, where there is an objcopy that knows x86-64 (of binutils or LLVM, or what OBJCOPY names); else it
# is left out, and a line says so. blocks.c tries what the header itself computes, and wants no library. Where there is a C++ compiler, it
# compiles the last two, too, and empty.cpp. minibus/ is the box as it is meant, with three guests on stacks of their own; what it prints is
# compared with minibus/expected.txt. It is left out, and a line says so, where the kit compiles the examples: the system's threads are those of
# the machine at hand.
#
# Each failure ends it with status 1. The library is for x86-64, and there the system's compilers are used (CC and CXX, else cc and
# c++). Elsewhere the system's compiler only puts in what the examples include; the kit's compiles them for x86-64, and Debian's qemu-user
# runs them with the kit's C library. With MISTROGU_KIT=1 that way is taken on x86-64, too, without qemu. The example in C++ is linked
# with an archive for the machine at hand, which MISTROGU_ARCHIVE names elsewhere; without one it is compiled alone.
set -eu

fail() {
    echo "examples: $1" >&2
    exit 1
}

case ${1:-} in
-h | --help)
    sed -n '2,/^set /{/^set /d;s/^# \{0,1\}//p;}' "$0"
    exit
    ;;
-*) fail "$1 is no option; --help has the rest" ;;
esac
[ $# -le 1 ] || fail "give one archive, or none; --help has the rest"
[ -z "${1:-}" ] || [ -f "$1" ] || fail "$1 is not there"
archive=${1:+$(realpath "$1")}
cd "$(dirname "$0")/.."
command -v "${CC:-cc}" >/dev/null || fail "${CC:-cc}, the C compiler, is missing"
[ -n "$archive" ] || archive=$(host/archive.sh --product)

machine=$(uname -m)
strict=(-std=c99 -pedantic -Wall -Wextra -Werror)
strict_cpp=(-pedantic -Wall -Wextra -Werror)
work=$(mktemp -d)
trap 'rm -rf "$work"' EXIT

# Compiles the example $1, with the options from $3 on, links it with the archive $2 and runs it. Its exit status is that of the example.
with_the_system() {
    "${CC:-cc}" "${strict[@]}" "${@:3}" -Iinclude "examples/$1.c" "$2" -o "$work/$1" || fail "$1.c could not be compiled"
    "$work/$1"
}

# The same. Both compilers have to read the same headers: GNU C 4 is what the kit's says it is.
with_the_kit() {
    local tools emulator
    command -v rt >/dev/null || fail "rt, the program of the Rattle kit, is missing, and the kit compiles the examples here"
    tools=$(dirname "$(rt doc)")/toolchain
    emulator=
    if [ "$machine" != x86_64 ]; then
        emulator=$(command -v qemu-x86_64) || fail "qemu-x86_64, of Debian's qemu-user, is missing, and runs the examples here"
    fi

    "${CC:-cc}" -E -std=c99 -U__GNUC__ -D__GNUC__=4 "${@:3}" -Iinclude "examples/$1.c" -o "$work/$1.i" || fail "$1.c could not be read"
    "$tools/bin/clang" --target=x86_64-unknown-linux-gnu "${strict[@]}" -fPIE -c -x cpp-output "$work/$1.i" -o "$work/$1.o" ||
        fail "$1.c could not be compiled"
    "$tools/bin/ld.lld" -pie --dynamic-linker /lib64/ld-linux-x86-64.so.2 "$tools/lib/Scrt1.o" "$tools/lib/crti.o" \
        "$tools/lib/crtbeginS.o" "$work/$1.o" "$2" "$tools/lib/libc.so.6" "$tools/lib/libc_nonshared.a" \
        "$tools/lib/libgcc.a" "$tools/lib/crtendS.o" "$tools/lib/crtn.o" -o "$work/$1" || fail "$1.c could not be linked"
    ${emulator:+"$emulator"} "$tools/lib/ld-linux-x86-64.so.2" --library-path "$tools/lib" "$work/$1"
}

with=with_the_system
if [ "$machine" != x86_64 ] || [ "${MISTROGU_KIT:-0}" = 1 ]; then with=with_the_kit; fi

# Both have every call that the header declares: stops.c makes it, and the table of renamed.c has it by its new name, and no other.
sed -n 's/.* MISTROGU_CALL(\(.*\))($/\1/p' include/mistrogu.h | sort >"$work/calls.txt"
while read -r call; do
    grep -qE "(^|[^a-z_])$call\\(" examples/stops.c || fail "stops.c does not call $call"
done <"$work/calls.txt"
grep -o '(any_call)transit_[a-z_]*' examples/renamed.c | sed 's/.*)transit_//' | sort >"$work/renamed.txt"
odd=$(comm -3 "$work/calls.txt" "$work/renamed.txt")
[ -z "$odd" ] || fail "the table of renamed.c and the header differ in these calls:
$odd"

"$with" stops "$archive" || fail "the library does not answer stops.c as documents 01 and 02 say"

# Makes a copy of the archive in which each call has the prefix transit_, by the first of these programs that can.
rename_calls() {
    local program
    sed -n 's/.* MISTROGU_CALL(\(.*\))($/\1 transit_\1/p' include/mistrogu.h >"$work/renames.txt"
    for program in ${OBJCOPY:+"$OBJCOPY"} x86_64-linux-gnu-objcopy objcopy llvm-objcopy; do
        if "$program" --redefine-syms="$work/renames.txt" "$archive" "$work/libtransit.a" 2>/dev/null &&
            grep -aq transit_list_merge "$work/libtransit.a"; then
            return 0
        fi
    done
    return 1
}

if rename_calls; then
    "$with" renamed "$work/libtransit.a" -DMISTROGU_PREFIX=transit_ || fail "the calls do not answer renamed.c by their other names"
else
    echo "examples: no objcopy here knows x86-64, so renamed.c is left out; OBJCOPY can name one" >&2
fi

# Compiles the minibus, runs it and compares what it prints with what it should print. How much stack its calls took depends on the compiler: that
# is shown, and not compared.
with_guests() {
    local folder=examples/minibus
    "${CC:-cc}" "${strict[@]}" -pthread -Wl,-z,now -Iinclude "$folder"/*.c "$archive" -o "$work/minibus" || fail "the minibus could not be compiled"
    "$work/minibus" sample/stops.txt "$folder/clips.txt" "$folder/route.txt" "$folder/misspelt.txt" >"$work/minibus.txt" ||
        fail "the minibus did not run to its end"
    cat "$work/minibus.txt"
    sed -E 's/[0-9]+ bytes of/N bytes of/' "$work/minibus.txt" | diff "$folder/expected.txt" - >&2 ||
        fail "the minibus prints something else than $folder/expected.txt"
}

if [ "$with" = with_the_system ]; then
    with_guests
else
    echo "examples: the minibus wants x86-64 and the system's own threads, so it is left out" >&2
fi

# Compiles blocks.c for the machine at hand, by the compiler that the words name, and runs it.
with_blocks() {
    "$@" -Iinclude examples/blocks.c -o "$work/blocks" || fail "blocks.c could not be compiled by $1"
    "$work/blocks" || fail "mistrogu_blocks_of does not tell the blocks as they are counted, by $1"
}

with_blocks "${CC:-cc}" "${strict[@]}"

if command -v "${CXX:-c++}" >/dev/null; then
    with_blocks "${CXX:-c++}" "${strict_cpp[@]}" -x c++
    "${CXX:-c++}" "${strict_cpp[@]}" -DMISTROGU_PREFIX=transit_ -Iinclude -fsyntax-only -x c++ examples/renamed.c ||
        fail "renamed.c is not good C++"
    "${CXX:-c++}" "${strict_cpp[@]}" -Iinclude -c examples/empty.cpp -o "$work/empty.o" || fail "empty.cpp could not be compiled"
    native=${MISTROGU_ARCHIVE:-}
    [ "$machine" != x86_64 ] || native=$archive
    if [ -n "$native" ]; then
        "${CXX:-c++}" "$work/empty.o" "$native" -o "$work/empty" || fail "empty.cpp could not be linked"
        "$work/empty" || fail "the library does not take empty vectors as it should"
    fi
fi
