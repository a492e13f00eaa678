#!/usr/bin/env bash
# Holds README.md to what it shows: its commands run as they stand there, from the top folder of a fresh copy of the repository, and write
# nothing that git does not ignore; every sample in C compiles as a file by itself, and runs.
#
#   host/readme.sh [ARCHIVE]
#
# ARCHIVE is the proved library for this machine, as archive.sh makes it; without it the one that MISTROGU_ARCHIVE names. Where there is
# neither, commands are only looked at, and samples compiled and not run. Nothing is proved here: a stub stands for the prover, which looks
# whether a crate is there, and commands that take long, or need what only the prover makes, have to be there and know --help. (The samples in Rust
# are tried by the tests of host/mistrogu.) It takes under half a minute. Where something fails, one sentence says what, and the exit
# status is 1.
set -eu
case ${1:-} in
-h | --help)
    sed -n '2,/^set /{/^set /d;s/^# \{0,1\}//p;}' "$0"
    exit
    ;;
esac
[ $# -le 1 ] || { echo "readme.sh: give one archive; --help has the rest" >&2; exit 2; }
archive=${1:-${MISTROGU_ARCHIVE:-}}
[ -z "$archive" ] || archive=$(realpath -e "$archive")
cd "$(dirname "$0")/.."
unset MISTROGU_ARCHIVE MISTROGU_PRODUCT MISTROGU_NATIVE MISTROGU_TARGET CARGO_TARGET_DIR

work=$(mktemp -d)
trap 'rm -rf "$work"' EXIT
clone=$work/mistrogu
# shellcheck source=host/stub.sh
. host/stub.sh
copy_files "$clone"
make_kit "$work/kit" "$archive"
cd "$clone"

fail() {
    echo "readme.sh: $1" >&2
    exit 1
}

# Writes each block of README.md that is marked as $1 to a file: $2.1, $2.2 and so on, with the ending $3.
blocks() {
    awk -v mark="\`\`\`$1" -v name="$2" -v ending="$3" '
        $0 == mark { inside = 1; file = name "." ++number ending; printf "" > file; next }
        $0 == "```" { inside = 0 }
        inside { print > file }' README.md
}

# Blocks have to be marked, or nobody would look at them.
awk '/^```/ { inside = !inside; if (inside && $0 == "```") bad = 1 } !inside && /^    [^ ]/ { bad = 1 } END { exit bad }' README.md ||
    fail "README.md has a block that is not marked as sh, c, rust or toml"

# Whether a command wants objcopy, or what that has made.
wants_objcopy() {
    case $1 in
    objcopy* | *libtransit.a* | ./renamed*) return 0 ;;
    *) return 1 ;;
    esac
}

# Whether a command is only looked at.
takes_long() {
    case $1 in
    ./demo* | ./test* | ./fuzz* | examples/run.sh* | host/benchmark.sh* | host/figures.sh* | 'cargo test'*) return 0 ;;
    *crates/*/out/*) return 0 ;;
    *) return 1 ;;
    esac
}

# Looks whether a command is there. A program of the prover's is one of the crates.
look_at() {
    local word=${1%% *} program
    case $1 in
    *crates/*/out/*)
        program=${1##*/out/}
        grep -q "^${program%% *}:" crates.txt
        ;;
    ./* | */*.sh*) "$word" --help >"$work/help" 2>&1 && [ -s "$work/help" ] ;;
    *) command -v "$word" >/dev/null ;;
    esac
}

# The commands: those that are run, one after the other in one shell, say in the log what they are.
blocks sh "$work/block" .sh
[ -f "$work/block.1.sh" ] || fail "README.md has no commands"
{
    echo 'set -eu'
    for number in $(seq "$(find "$work" -name 'block.*.sh' | wc -l)"); do
        bash -n "$work/block.$number.sh" || fail "block $number of commands is no shell"
        cat "$work/block.$number.sh"
    done
} | sed -e 's/  *#.*$//' -e '/^$/d' >"$work/commands"
run=0
looked=0
left_out=0
while IFS= read -r command; do
    if takes_long "$command"; then
        looked=$((looked + 1))
        look_at "$command" || fail "README.md has the command $command, which is not there or has no --help"
    elif wants_objcopy "$command" && ! command -v objcopy >/dev/null; then
        left_out=$((left_out + 1))
    elif [ "$command" = 'set -eu' ] || [ -n "$archive" ]; then
        [ "$command" = 'set -eu' ] || run=$((run + 1))
        printf 'echo %q\n%s\n' "\$ $command" "$command"
    fi
done <"$work/commands" >"$work/walk"
commit_all
PATH=$work/kit/bin:$PATH bash "$work/walk" >"$work/log" 2>&1 || {
    cat "$work/log" >&2
    fail "the last of these commands of README.md failed"
}
left=$(git status --porcelain)
[ -z "$left" ] || fail "README.md's commands write what git does not ignore: $left"
echo "README.md: $run commands run, $looked looked at"
[ "$left_out" = 0 ] || echo "README.md: $left_out commands left out, since there is no objcopy here"

# The samples in C.
blocks c "$work/sample" .c
[ -f "$work/sample.1.c" ] || fail "README.md has no sample in C"
for sample in "$work"/sample.*.c; do
    number=$(basename "$sample" .c)
    number=${number#sample.}
    strict=(-std=c99 -pedantic -Wall -Wextra -Werror -Iinclude)
    "${CC:-cc}" "${strict[@]}" -c "$sample" -o "$work/sample.o" || fail "sample $number in C could not be compiled"
    if [ -n "$archive" ]; then
        "${CC:-cc}" "$work/sample.o" "$archive" -o "$work/sample" || fail "sample $number in C could not be linked"
        "$work/sample" || fail "sample $number in C did not run to its end"
    fi
done
echo "README.md: $number samples in C compiled${archive:+ and run}"
