#!/usr/bin/env bash
# Measures every call of the proved library beside other ways to keep names: instructions, time and stack, with names like those of
# stations that it makes itself.
#
#   host/benchmark.sh FOLDER
#
# writes FOLDER/benchmark.md, which it also prints, and FOLDER/benchmark.svg, a drawing of the instructions; and FOLDER/stations.list and
# FOLDER/stations.book, with stations-folded.list and stations-folded.book for folded books, for measure.sh. It takes about a minute once the
# archive is there.
#
# Instructions are counted by valgrind's callgrind and do not depend on the machine's load. Those of the proved library are the same on
# every run; those of the others, which call the C library, move by a few percent with the addresses that they get. Times are
# ratios within the run.
#
# The others are the second program, a plain sorted array and, where Debian's packages libmarisa-dev and librust-fst-dev are installed,
# marisa and fst. These two are compiled here, from compare/peers and from the packages, and loaded while the program runs; nothing
# else in the repository knows of them. Where one is not there, the page says so. Merging stands beside `sort -mu`, on lines of the same
# names.
#
# The archive is the one that MISTROGU_ARCHIVE names, or archive.sh's.
set -eu
usage() {
    sed -n '2,/^set /{/^set /d;s/^# \{0,1\}//p;}' "$0"
}
fail() {
    echo "benchmark.sh: $1" >&2
    exit "${2:-1}"
}
case ${1:-} in
-h | --help) usage && exit ;;
-*) fail "$1 is no option; --help has the rest" 2 ;;
esac
[ $# -eq 1 ] || { usage >&2; exit 2; }
folder=$1
mkdir -p "$folder" 2>/dev/null || fail "$folder can't be made a folder"
[ -w "$folder" ] || fail "$folder can't be written to"

host=$(cd "$(dirname "$0")" && pwd -P)
for needed in cargo valgrind; do
    command -v "$needed" >/dev/null || fail "$needed is missing"
done
[ -n "${MISTROGU_ARCHIVE:-}" ] || command -v rt >/dev/null || fail "rt, the program of the Rattle kit, is missing, and MISTROGU_ARCHIVE names no archive"
archive=${MISTROGU_ARCHIVE:-$("$host/archive.sh")}
MISTROGU_ARCHIVE=$archive cargo build --quiet --release --offline --manifest-path "$host/Cargo.toml" -p compare --features library

work=$(mktemp -d)
trap 'rm -rf "$work"' EXIT

# Compiles marisa's wrapper.
compile_marisa() {
    c++ -O3 -shared -fPIC "$host/compare/peers/marisa.cpp" -lmarisa -o "$work/marisa.so"
}

# Compiles fst and what it needs from the packages' sources, then its wrapper.
registry=/usr/share/cargo/registry
compile_fst() {
    rustc --crate-name byteorder --edition 2018 --cfg 'feature="std"' --crate-type rlib -C opt-level=3 --cap-lints allow \
        --out-dir "$work" "$(echo "$registry"/byteorder-1.*/src/lib.rs)" &&
        rustc --crate-name fst --edition 2015 --crate-type rlib -C opt-level=3 --cap-lints allow \
            -L "$work" --out-dir "$work" "$(echo "$registry"/fst-0.*/src/lib.rs)" &&
        rustc --crate-name peer --edition 2021 --crate-type cdylib -C opt-level=3 -C panic=abort \
            -L "$work" --extern fst="$work/libfst.rlib" -o "$work/fst.so" "$host/compare/peers/fst.rs"
}

# A word for each: the name and its version, and the library where there is one. What the compilers say is not shown, since nearly
# always the package is not there.
peers=()
if compile_marisa >/dev/null 2>&1; then
    peers+=("marisa $(pkg-config --modversion marisa 2>/dev/null || echo)=$work/marisa.so")
else
    peers+=("marisa=")
fi
if compile_fst >/dev/null 2>&1; then
    peers+=("$(basename "$registry"/fst-0.* | tr - ' ')=$work/fst.so")
else
    peers+=("fst=")
fi

"${CARGO_TARGET_DIR:-$host/target}/release/compare" "$folder" "${peers[@]}"
