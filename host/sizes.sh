#!/usr/bin/env bash
# Prints how many bytes of code each call of the product takes by itself, and all of them together, and what that code asks of a processor. The two
# objects of the archive, book.o and announcer.o, share no code: all calls of each stand there, too.
#
#   host/sizes.sh [ARCHIVE]                without ARCHIVE: archive.sh's product
#   host/sizes.sh --hold PAGE [ARCHIVE]    prints nothing where the sizes on PAGE, in such a table, are right within a sixteenth
#
# Each call is linked alone, without what it does not reach (--gc-sections). Code is .text and .rodata; there is nothing in .data or .bss, and
# the script fails where there is, or where something else than memcpy and memset is wanted. SSE counts the instructions that use xmm
# registers. Aligned says whether some store or load of 16 bytes stops the processor where the stack pointer was no multiple of 16
# when the call was made. Red zone says whether something is kept below the stack pointer, where System V grants 128 bytes.
#
# Needs a linker and an objdump that know x86-64: those of binutils or LLVM, or what LD and OBJDUMP name.
set -eu
fail() {
    echo "sizes.sh: $1" >&2
    exit 1
}
page=
case ${1:-} in
-h | --help)
    sed -n '2,/^set /{/^set /d;s/^# \{0,1\}//p;}' "$0"
    exit
    ;;
--hold)
    page=${2:-}
    [ -f "$page" ] || fail "--hold needs a page"
    page=$(realpath "$page")
    shift 2
    ;;
-*) fail "$1 is no option; --help has the rest" ;;
esac
[ $# -le 1 ] || fail "give one archive, or none; --help has the rest"
[ -z "${1:-}" ] || [ -f "$1" ] || fail "$1 is not there"
archive=${1:+$(realpath "$1")}
cd "$(dirname "$0")/.."

[ -n "$archive" ] || archive=$(host/archive.sh --product)
work=$(mktemp -d)
trap 'rm -rf "$work"' EXIT

# The first of these programs that reads the archive's code.
objdump=
for program in ${OBJDUMP:+"$OBJDUMP"} x86_64-linux-gnu-objdump objdump llvm-objdump; do
    if "$program" -d "$archive" >"$work/code" 2>/dev/null && grep -q '%rsp' "$work/code"; then
        objdump=$program
        break
    fi
done
[ -n "$objdump" ] || fail "no objdump here reads $archive as code for x86-64; OBJDUMP can name one"
"$objdump" -t "$archive" >"$work/symbols"
wanted=$(awk '
    $2 == "g" { there[$NF] }
    $2 == "*UND*" && $NF != "memcpy" && $NF != "memset" { asked[$NF] }
    END { for (name in asked) if (!(name in there)) print name }' "$work/symbols")
[ -z "$wanted" ] || fail "the archive wants $wanted"
calls=$(awk '$2 == "g" && $3 == "F" && $NF ~ /^(book|list|announce)_/ { print $NF }' "$work/symbols" | LC_ALL=C sort)
[ -n "$calls" ] || fail "$archive has no calls"

# Links a program of these calls and what they reach.
linked() {
    local ld=$1 call keep=()
    shift
    for call in "$@"; do keep+=(-u "$call"); done
    "$ld" -m elf_x86_64 -e "$1" "${keep[@]}" --gc-sections --unresolved-symbols=ignore-all "$archive" -o "$work/linked"
}

# The first of these linkers that can; the last is the kit's, where there is a kit.
kit=
if command -v rt >/dev/null; then kit=$(dirname "$(rt doc)")/toolchain/bin/ld.lld; fi
ld=
for program in ${LD:+"$LD"} x86_64-linux-gnu-ld ld ld.lld ${kit:+"$kit"}; do
    # shellcheck disable=SC2086
    if linked "$program" $calls 2>/dev/null; then
        ld=$program
        break
    fi
done
[ -n "$ld" ] || fail "no linker for x86-64 is here; LD can name one"

# A row of the table for the program of these calls.
row() {
    local name=$1
    shift
    linked "$ld" "$@" || fail "$name could not be linked"
    "$objdump" -h "$work/linked" >"$work/sections"
    "$objdump" -d --no-show-raw-insn "$work/linked" >"$work/code"
    local bytes=0 size section
    while read -r section size; do
        case $section in
        .text* | .rodata*) bytes=$((bytes + 0x$size)) ;;
        .data* | .bss*) [ "$((0x$size))" = 0 ] || fail "$name has $section" ;;
        esac
    done < <(awk '$1 ~ /^[0-9]+$/ { print $2, $3 }' "$work/sections")
    awk -v name="$name" -v bytes="$bytes" '
        function grouped(number) { return number < 1000 ? number : grouped(int(number / 1000)) sprintf(",%03d", number % 1000) }
        /%xmm/ { sse++ }
        /%[yz]mm/ { other++ }
        /(movaps|movapd|movdqa)[ \t].*\(%r/ { aligned++ }
        /-(0x)?[0-9a-f]+\(%rsp/ { below++ }
        END {
            printf "| %s | %s | %d | %s | %s |\n", name, grouped(bytes), sse, aligned ? "yes" : "no", below ? "yes" : "no"
            exit other > 0
        }' "$work/code" ||
        fail "$name uses more than SSE"
}

table() {
    echo "| Call | Code, bytes | SSE | Aligned | Red zone |"
    echo "|---|---:|---:|---|---|"
    local call announcing others
    announcing=$(echo "$calls" | grep '^announce_' || true)
    others=$(echo "$calls" | grep -v '^announce_' || true)
    for call in $calls; do
        row "\`$call\`" "$call"
    done
    # shellcheck disable=SC2086
    [ -z "$announcing" ] || row "all calls of \`announcer.o\`" $announcing
    # shellcheck disable=SC2086
    [ -z "$others" ] || row "all calls of \`book.o\`" $others
    # shellcheck disable=SC2086
    row "all calls" $calls
}
table >"$work/table"
if [ -z "$page" ]; then
    cat "$work/table"
    exit
fi

# The page's number may be off by a sixteenth.
awk -F ' *[|] *' '
    function number(text) { gsub(/[^0-9]/, "", text); return text + 0 }
    FNR == NR { if ($3 ~ /^[0-9,]+$/) { size[$2] = number($3); order[++count] = $2 } next }
    $2 in size && $3 ~ /^[0-9,]+$/ { said[$2] = number($3) }
    END {
        for (i = 1; i <= count; i++) {
            call = order[i]
            if (!(call in said)) { print "the page has no size of " call; exit 1 }
            if (said[call] * 16 > size[call] * 17 || said[call] * 16 < size[call] * 15) { print "the page says " said[call] " bytes of " call ", and it has " size[call]; exit 1 }
        }
    }' "$work/table" "$page" >"$work/wrong" || fail "$(cat "$work/wrong")"
