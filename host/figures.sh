#!/usr/bin/env bash
# Takes every figure of docs/BENCHMARKS.md anew and prints the tables of that page, each under the page's own heading.
#
#   host/figures.sh FOLDER [LIST[:BLOCK] ..]   take them, print them and write them to FOLDER/figures.md; the drawing is FOLDER/benchmark.svg
#   host/figures.sh --into PAGE FOLDER         take nothing, but put the figures of FOLDER into PAGE, and the drawing beside it
#
# A LIST is a file of list records, of which books in blocks of BLOCK names are measured, or of 16. Such lists have the first rows of the
# tables. Behind them stand names like those of stations, which benchmark.sh makes, and the lists that `vectors lists` writes. For example:
#
#   host/figures.sh figures city.list town.list:1 && host/figures.sh --into docs/BENCHMARKS.md figures
#
# PAGE has each part between a line <!-- figures NAME --> and a line <!-- end of figures -->. What is between is replaced. Where a part is
# missing on either side, PAGE stays as it is.
#
# It takes some three minutes, and one more for each LIST of a full book. Instructions do not depend on the machine's load, and those of the
# proved library are the same on every run. Times do depend on it, so nothing else should run in the first minute, in which they are taken.
# All figures are of code for x86-64, and of the archive that MISTROGU_ARCHIVE names, or archive.sh's; reference.sh and small.sh make two
# more to measure beside it. Which command takes a single figure stands on the page.
set -eu
usage() {
    sed -n '2,/^set /{/^set /d;s/^# \{0,1\}//p;}' "$0"
}
fail() {
    echo "figures.sh: $1" >&2
    exit "${2:-1}"
}
host=$(cd "$(dirname "$0")" && pwd -P)
begin='<!-- figures '
end='<!-- end of figures -->'

# Puts the parts of the figures $2 into the page $1, and the drawing that is beside them beside the page.
into() {
    local page=$1 figures=$2 new
    new=$(mktemp)
    awk -v begin="$begin" -v end="$end" -v page="$page" -v figures="$figures" '
        function stop(sentence) { print sentence > "/dev/stderr"; failed = 1; exit 1 }
        FNR == 1 { if (part != "") stop(figures " does not end its figures " part); part = ""; file++ }
        index($0, begin) == 1 {
            part = substr($0, length(begin) + 1)
            sub(/ -->$/, "", part)
            if (seen[file, part]++) stop((file == 1 ? figures : page) " has the figures " part " twice")
            if (file == 1) order[++count] = part
            else if (!seen[1, part]) stop(figures " has no figures " part)
            else printf "%s\n%s", $0, text[part]
            next
        }
        $0 == end { part = ""; if (file == 2) print; next }
        part != "" { if (file == 1) text[part] = text[part] $0 "\n"; next }
        file == 2 { print }
        END {
            if (failed) exit 1
            if (part != "") stop(page " does not end its figures " part)
            for (i = 1; i <= count; i++) if (!seen[2, order[i]]) stop(page " has no figures " order[i])
        }' "$figures" "$page" >"$new" 2>"$new.wrong" || {
        wrong=$(cat "$new.wrong")
        rm -f "$new" "$new.wrong"
        fail "$wrong"
    }
    cat "$new" >"$page"
    rm -f "$new" "$new.wrong"
    cp "$(dirname "$figures")/benchmark.svg" "$(dirname "$page")/benchmark.svg"
}

case ${1:-} in
-h | --help) usage && exit ;;
--into)
    [ $# -eq 3 ] || fail "--into needs a page and a folder; --help has the rest" 2
    [ -f "$2" ] || fail "$2 is not there"
    [ -w "$2" ] || fail "$2 can't be written to"
    for file in figures.md benchmark.svg; do
        [ -f "$3/$file" ] || fail "$3 has no $file"
    done
    into "$2" "$3/figures.md"
    exit
    ;;
-*) fail "$1 is no option; --help has the rest" 2 ;;
esac
[ $# -ge 1 ] || { usage >&2; exit 2; }

# The lists by their names: the file, and the names in a block.
declare -A file block
made=(stations binary pairs long chain mirror stops example)
given=()
folder=$1
shift
for word in "$@"; do
    list=$word names=16
    case $word in *:*) list=${word%:*} names=${word##*:} ;; esac
    case $names in '' | *[!0-9]* | ???*) names=0 ;; esac
    if [ "$names" -lt 1 ] || [ "$names" -gt 64 ]; then fail "$word names no block of 1 to 64 names" 2; fi
    [ -f "$list" ] || fail "$list is not there"
    name=$(basename "$list" .list)
    case " ${made[*]} ${given[*]-} " in *" $name "*) fail "two lists are called $name" 2 ;; esac
    given+=("$name")
    file[$name]=$(realpath "$list") block[$name]=$names
done
mkdir -p "$folder" 2>/dev/null || fail "$folder can't be made a folder"
[ -w "$folder" ] || fail "$folder can't be written to"
[ "$(uname -m)" = x86_64 ] || fail "the figures are of code for x86-64, and this is another processor"
for needed in cargo rustc cc ar objcopy valgrind; do
    command -v "$needed" >/dev/null || fail "$needed is missing"
done
[ -n "${MISTROGU_ARCHIVE:-}" ] || command -v rt >/dev/null || fail "rt, the program of the Rattle kit, is missing, and MISTROGU_ARCHIVE names no archive"
[ -z "${MISTROGU_ARCHIVE:-}" ] || [ -f "$MISTROGU_ARCHIVE" ] || fail "$MISTROGU_ARCHIVE is not there"
folder=$(cd "$folder" && pwd -P)
product=$(realpath "${MISTROGU_ARCHIVE:-$("$host/archive.sh")}")

# How many random cases are held to the second program.
cases=100000

work=$(mktemp -d)
trap 'rm -rf "$work"' EXIT
say() {
    echo "figures.sh: $1" >&2
}
run() {
    cargo run --quiet --release --offline --manifest-path "$host/Cargo.toml" -p "$@"
}

# ---- taking: every number goes to `of`, by a key such as 'own check stations'

declare -A of
use() {
    who=$1
    export MISTROGU_ARCHIVE=$2
}

# Counts a call, whose words follow the key: its instructions, and under the key and `first` and `second` the numbers of its answer. A call
# that was refused is not worth counting; of a head the first number is its list. What a question tells of how far it looked is left.
count() {
    local key=$1 code=0 first=0 second=0
    shift
    "$host/measure.sh" "$@" >"$work/said" || fail "measure.sh $* failed"
    of[$who $key]=$(sed -n 's/^[a-z_]*: \([0-9]*\) instructions.*/\1/p' "$work/said")
    [ -n "${of[$who $key]}" ] || fail "measure.sh $* counted nothing"
    read -r code first second _ < <(sed -n 's/^answer //p' "$work/said") || true
    [ "$1" = step ] || [ "${code:-0}" = 0 ] || fail "measure.sh $* counted a refusal"
    of[$key first]=$first of[$key second]=$second
}

# Counts the mixed questions to a book: on average of each kind and of all, and the most. The dearest question of each kind is kept.
questions() {
    local key=$1 kind average most question
    "$host/measure.sh" questions "$2" >"$work/said" || fail "measure.sh questions $2 failed"
    while read -r kind average most question; do
        of[$who $key ${kind#book_}]=$average
        of[$who $key ${kind#book_} most]=$most
        of[$key ${kind#book_} dearest]=$question
    done < <(sed -n 's/^\([a-z_]*\): [0-9]* questions, \(-\{0,1\}[0-9]*\) instructions on average, \([0-9]*\) at most, for \(.*\)$/\1 \2 \3 \4/p' "$work/said")
}

# Counts the clips of the mix's texts: on average, and the most.
texts() {
    local key=$1 average most
    "$host/measure.sh" clips "$2" >"$work/said" || fail "measure.sh clips $2 failed"
    read -r average most < <(sed -n 's/^announce_clip: [0-9]* texts, \([0-9]*\) instructions on average, \([0-9]*\) at most, for .*$/\1 \2/p' "$work/said")
    of[$who $key]=$average
    of[$who $key most]=$most
}

# The bytes of stack that a call takes, painted.
painted() {
    local key=$1
    shift
    run bench -- stack "$@" >"$work/said" || fail "bench stack $* failed"
    of[stack $key]=$(sed -n 's/.*stack //p' "$work/said")
}

# What is counted of every list, by the archive at hand.
of_every_list() {
    local name last
    for name in "${all[@]}"; do
        last=$((${of[names $name]} - 1))
        say "$who, $name"
        count "build $name" build "${file[$name]}" "${block[$name]}"
        count "check $name" check "$work/$name.book"
        count "read $name" read "$work/$name.book" "$last"
        questions "$name" "$work/$name.book"
    done
}

# What is counted of the lists of full books.
of_large_lists() {
    local name call
    for name in "${large[@]}"; do
        say "$who, $name: batch, two lists, card"
        count_batch "$name"
        for call in merge judge; do
            count "$call itself $name" "$call" "${file[$name]}" "${file[$name]}"
            count "$call parts $name" "$call" "$work/$name.odd" "$work/$name.even"
        done
        count "sound $name" salvage "$work/$name.book"
        count "worn $name" salvage "$work/$name.card"
    done
}

# What is counted of the announcer.
of_announcer() {
    local name
    for name in "${large[@]}"; do
        say "$who, $name: clips, route"
        texts "clips $name" "$work/$name.book"
        count "route $name" route "$work/$name.book"
    done
}

# A head of two lists, before all records and behind half of both.
of_heads() {
    local name half
    for name in "${large[@]}"; do
        half=$((${of[names $name]} / 2))
        count "head itself $name" step "${file[$name]}" "${file[$name]}" 0 0
        count "half itself $name" step "${file[$name]}" "${file[$name]}" "$half" "$half"
        count "head parts $name" step "$work/$name.odd" "$work/$name.even" 0 0
        count "half parts $name" step "$work/$name.odd" "$work/$name.even" $((half / 2)) $((half / 2))
    done
}

# A batch, and the average of its questions alone.
count_batch() {
    "$host/measure.sh" batch "$work/$1.book" >"$work/said" || fail "measure.sh batch failed"
    of[$who batch $1]=$(sed -n 's/^book_batch: \([0-9]*\) .*/\1/p' "$work/said")
    of[$who alone $1]=$(sed -n 's/^each alone: \([0-9]*\) .*/\1/p' "$work/said")
}

# The dearest books that are kept, and the place that each is asked for.
of_dearest() {
    local name
    for name in dearest-check dearest-question dearest-folded-check; do
        count "check $name" check "$work/$name.book"
        count "place $name" place "$work/$name.book" "$(cat "$work/$name.question")"
    done
}

# The same names in folded books.
of_folded() {
    local name
    for name in "${large[@]}"; do
        say "$who, $name, folded"
        count "fold $name" build_folded "$work/$name-folded.list" "${block[$name]}"
        count "check $name-folded" check "$work/$name-folded.book"
        questions "$name-folded" "$work/$name-folded.book"
    done
}

# The same names in column books, and both conversions.
of_columns() {
    local name
    for name in "${large[@]}"; do
        say "$who, $name, columns"
        count "check $name-columns" check "$work/$name-columns.book"
        questions "$name-columns" "$work/$name-columns.book"
        count "to $name" to_columns "$work/$name.book"
        count "from $name" from_columns "$work/$name-columns.book"
    done
}

# The deepest stack of each call on every list, and of the check on hostile bytes.
of_stacks() {
    local name kind book most=0
    say "stack"
    for name in "${all[@]}"; do
        painted "build $name" build "${file[$name]}" "${block[$name]}"
        painted "check $name" check "$work/$name.book"
        painted "read $name" read "$work/$name.book" 0
        painted "batch $name" batch "$work/$name.book"
        painted "convert $name" to_columns "$work/$name.book"
        painted "clip $name" clip "$work/$name.book" "${of[$name range dearest]}"
        painted "route $name" route "$work/$name.book"
        painted "salvage $name" salvage "$work/$name.book"
        painted "merge $name" merge "${file[$name]}" "${file[$name]}"
        of[stack ask $name]=0
        for kind in exact place range nearest width; do
            painted asked "$kind" "$work/$name.book" "${of[$name $kind dearest]}"
            [ "${of[stack asked]}" -le "${of[stack ask $name]}" ] || of[stack ask $name]=${of[stack asked]}
        done
    done
    for book in "$work"/hostile/*.book; do
        painted hostile check "$book"
        [ "${of[stack hostile]}" -le "$most" ] || most=${of[stack hostile]}
    done
    of[stack hostile]=$most
}

say "beside other ways to keep names"
export MISTROGU_ARCHIVE=$product
"$host/benchmark.sh" "$folder" >/dev/null
say "lists and books"
run vectors -- lists "$work"
run vectors -- worst "$work"
run vectors -- hostile "$work/hostile"
for name in "${made[@]}"; do
    file[$name]=$work/$name.list block[$name]=16
done
file[stations]=$folder/stations.list
large=(${given[@]+"${given[@]}"} stations)
all=("${large[@]}" "${made[@]:1}")
for name in "${all[@]}"; do
    "$host/measure.sh" book "${file[$name]}" "${block[$name]}" "$work/$name.book" >"$work/said" || fail "${file[$name]} has no book in blocks of ${block[$name]}"
    read -r of["names $name"] of["levels $name"] < <(sed -n 's/^\([0-9]*\) names, \([0-9]*\) levels$/\1 \2/p' "$work/said")
done
for name in "${large[@]}"; do
    "$host/measure.sh" split "${file[$name]}" "$work/$name.odd" "$work/$name.even" >/dev/null
    "$host/measure.sh" fold "${file[$name]}" "${block[$name]}" "$work/$name" >/dev/null
    of[nodes $name]=$("$host/measure.sh" columns "$work/$name.book" "$work/$name-columns.book" | sed 's/ nodes$//')
    of[damaged $name]=$("$host/measure.sh" wear "$work/$name.book" "$work/$name.card" | sed 's/.*: //')
done

use own "$product"
of_every_list
of_large_lists
of_announcer
of_heads
of_folded
of_columns
of_dearest
count screen screen "$work/stations.book" San
"$host/measure.sh" growth >"$work/growth"
of_stacks
run bound -- "$product" "$host/../include/mistrogu.h" >"$work/bound"
say "vectors and random cases"
for set in $(run vectors 2>&1 | sed -n 's/^The sets are: //p' | tr -d ,); do
    run vectors -- "$set" "$work/cases"
done >"$work/sets"
run difftest -- --cases "$cases" --seed 1 2>/dev/null >"$work/cases.md" || fail "the proved library and the second program differ: difftest --cases $cases --seed 1"
use reference "$("$host/reference.sh")"
of_every_list
of_large_lists
of_announcer
of_columns
of_dearest
export MISTROGU_ARCHIVE=$product
use small "$("$host/small.sh")"
for name in "${large[@]}"; do
    say "$who, $name"
    count "build $name" build "${file[$name]}" "${block[$name]}"
    count "check $name" check "$work/$name.book"
    questions "$name" "$work/$name.book"
done

# ---- printing

# A number in groups of three digits.
g() {
    echo "$1" | sed -E ':again; s/([0-9])([0-9]{3})(,|$)/\1,\2\3/; t again'
}

# A number, and in brackets how many times another it is.
beside() {
    echo "$(g "$1") ($(awk -v one="$1" -v other="$2" 'BEGIN { printf "%.2f", one / other }'))"
}

# The number of some key, and that of the reference beside it, as two cells.
both() {
    echo "$(g "${of[own $1]}") | $(beside "${of[reference $1]}" "${of[own $1]}")"
}

# The same of what is left of a call once the check is taken off.
after_check() {
    local own=$((${of[own $1]} - ${of[own $2]})) other=$((${of[reference $1]} - ${of[reference $2]}))
    echo "$(g "$own") | $(beside "$other" "$own")"
}

# Opens a part of the page, and closes it.
open_part() {
    echo "$begin$1 -->"
}
close_part() {
    echo "$end"
    echo
}

state() {
    echo "# What the calls cost"
    echo
    open_part state
    echo "Taken on $(date +%F) by one run of the command, of the archive whose SHA-256 begins with $(sha256sum <"$product" | cut -c 1-16), with"
    echo "$(valgrind --version), $(rustc --version | cut -d ' ' -f 1,2) and the C library $(getconf GNU_LIBC_VERSION 2>/dev/null || echo "of this system")."
    close_part
}

building() {
    echo "## Building"
    echo
    open_part building
    echo "| List | Names | Block | Levels | List bytes | Book bytes | \`book_build\` | reference |"
    echo "|---|---:|---:|---:|---:|---:|---:|---:|"
    local name
    for name in "${all[@]}"; do
        echo "| \`$name\` | $(g "${of[names $name]}") | ${block[$name]} | ${of[levels $name]} | $(g "$(wc -c <"${file[$name]}")") | $(g "${of[build $name first]}") | $(both "build $name") |"
    done
    close_part
}

checking() {
    echo "## Checking and reading back"
    echo
    open_part checking
    echo "| Book | \`book_check\` | reference | \`book_read\`, last name, after the check | reference |"
    echo "|---|---:|---:|---:|---:|"
    local name
    for name in "${all[@]}"; do
        echo "| \`$name\` | $(both "check $name") | $(after_check "read $name" "check $name") |"
    done
    close_part
}

asking() {
    echo "## Questions"
    echo
    open_part questions
    echo "| Book | exact | place | range | nearest | width | all five | reference | most | reference |"
    echo "|---|---:|---:|---:|---:|---:|---:|---:|---:|---:|"
    local name kind row
    for name in "${all[@]}"; do
        row="| \`$name\` |"
        for kind in exact place range nearest width; do row+=" $(g "${of[own $name $kind]}") |"; done
        echo "$row $(both "$name all") | $(both "$name all most") |"
    done
    close_part
}

batching() {
    echo "## A batch"
    echo
    open_part batch
    echo "| Book | \`book_batch\`, 64 questions | reference | one question alone, average | reference |"
    echo "|---|---:|---:|---:|---:|"
    local name
    for name in "${large[@]}"; do
        echo "| \`$name\` | $(both "batch $name") | $(both "alone $name") |"
    done
    close_part
}

announcing() {
    echo "## The announcer"
    echo
    open_part announcer
    echo "| Book | \`announce_clip\`, after the check, average | reference | exact and range | most | reference | \`announce_route\`, 120 stops, after the check | reference | a stop |"
    echo "|---|---:|---:|---:|---:|---:|---:|---:|---:|"
    local name two stop
    for name in "${large[@]}"; do
        two=$((${of[own $name exact]} + ${of[own $name range]}))
        stop=$(awk -v all="${of[own route $name]}" -v check="${of[own check $name]}" 'BEGIN { printf "%.1f", (all - check) / 120 }')
        echo "| \`$name\` | $(both "clips $name") | $(g "$two") | $(both "clips $name most") | $(after_check "route $name" "check $name") | $stop |"
    done
    close_part
}

two_lists() {
    echo "## Two lists"
    echo
    open_part lists
    echo "| Lists | Bytes of both | \`list_merge\` | reference | a byte | \`list_judge\` | reference | \`list_head\`, first | behind half of both |"
    echo "|---|---:|---:|---:|---:|---:|---:|---:|---:|"
    local name how bytes label
    for name in "${large[@]}"; do
        for how in itself parts; do
            bytes=$(wc -c <"${file[$name]}")
            label="\`$name\`, odd with even names"
            [ "$how" = parts ] || bytes=$((2 * bytes)) label="\`$name\` with itself"
            echo "| $label | $(g "$bytes") | $(both "merge $how $name") | $(awk -v all="${of[own merge $how $name]}" -v bytes="$bytes" 'BEGIN { printf "%.1f", all / bytes }') | $(both "judge $how $name") | $(g "${of[own head $how $name]}") | $(g "${of[own half $how $name]}") |"
        done
    done
    close_part
}

cards() {
    echo "## A worn card"
    echo
    open_part card
    echo "| Card | Bytes written | \`book_salvage\` | reference | \`book_check\` of the sound book | a byte, less a check |"
    echo "|---|---:|---:|---:|---:|---:|"
    local name how bytes label check more
    for name in "${large[@]}"; do
        check=${of[own check $name]}
        for how in sound worn; do
            bytes=${of[$how $name first]} label="\`$name\`, sound"
            [ "$how" = sound ] || label="\`$name\`, ${of[damaged $name]} blocks damaged"
            more=$(awk -v all="${of[own $how $name]}" -v check="$check" -v bytes="$bytes" 'BEGIN { if (all < check) print "less than the check"; else printf "%.1f", (all - check) / bytes }')
            echo "| $label | $(g "$bytes") | $(both "$how $name") | $(g "$check") | $more |"
        done
    done
    close_part
}

folded() {
    echo "## Folded books"
    echo
    open_part folded
    echo "| List | build | folded | check | folded | a question, average | folded |"
    echo "|---|---:|---:|---:|---:|---:|---:|"
    local name build check question
    for name in "${large[@]}"; do
        build=${of[own build $name]} check=${of[own check $name]} question=${of[own $name all]}
        echo "| \`$name\` | $(g "$build") | $(beside "${of[own fold $name]}" "$build") | $(g "$check") | $(beside "${of[own check $name-folded]}" "$check") | $(g "$question") | $(beside "${of[own $name-folded all]}" "$question") |"
    done
    close_part
}

columns() {
    echo "## Column books"
    echo
    open_part columns
    echo "| List | check | columns | a question, average | columns | \`book_to_columns\`, after the check | reference | a byte of the node table | \`book_from_columns\`, after the check | reference | a byte |"
    echo "|---|---:|---:|---:|---:|---:|---:|---:|---:|---:|---:|"
    local name check column question to from
    for name in "${large[@]}"; do
        check=${of[own check $name]} column=${of[own check $name-columns]} question=${of[own $name all]}
        to=$(awk -v all="${of[own to $name]}" -v check="$check" -v nodes="${of[nodes $name]}" 'BEGIN { printf "%.1f", (all - check) / (12 * nodes) }')
        from=$(awk -v all="${of[own from $name]}" -v check="$column" -v nodes="${of[nodes $name]}" 'BEGIN { printf "%.1f", (all - check) / (12 * nodes) }')
        echo "| \`$name\` | $(g "$check") | $(beside "$column" "$check") | $(g "$question") | $(beside "${of[own $name-columns all]}" "$question") | $(after_check "to $name" "check $name") | $to | $(after_check "from $name" "check $name-columns") | $from |"
    done
    close_part
}

growing() {
    echo "## How it grows"
    echo
    open_part growth
    sed -E ':again; s/([0-9])([0-9]{3})([^0-9]|$)/\1,\2\3/; t again' "$work/growth"
    close_part
}

dearest() {
    echo "## The dearest that were found"
    echo
    open_part dearest
    echo "| Book | Names | Block | Bytes | \`book_check\` | reference | its \`book_place\`, after the check | reference |"
    echo "|---|---:|---:|---:|---:|---:|---:|---:|"
    local name
    for name in dearest-check dearest-question dearest-folded-check; do
        echo "| \`$name\` | $(g "${of[check $name first]}") | ${of[check $name second]} | $(g "$(wc -c <"$work/$name.book")") | $(both "check $name") | $(after_check "place $name" "check $name") |"
    done
    close_part
}

by_bytes() {
    echo "## A guest that copies byte by byte"
    echo
    open_part bytes
    echo "| List | build | byte by byte | check | byte by byte | a question, average | byte by byte |"
    echo "|---|---:|---:|---:|---:|---:|---:|"
    local name key row
    for name in "${large[@]}"; do
        row="| \`$name\` |"
        for key in "build $name" "check $name" "$name all"; do
            row+=" $(g "${of[own $key]}") | $(beside "${of[small $key]}" "${of[own $key]}") |"
        done
        echo "$row"
    done
    close_part
}

# The paragraph of bound's page that begins so.
of_bound() {
    awk -v RS= -v start="$1" 'index($0, start) == 1' "$work/bound"
}

stacks() {
    echo "## Stack, for any input"
    echo
    open_part bound
    of_bound "| Call | Stack"
    echo
    of_bound "The cycle"
    close_part
    open_part painted
    echo "| List | build | check | read | question | batch | to columns | clip | route | salvage | merge with itself |"
    echo "|---|---:|---:|---:|---:|---:|---:|---:|---:|---:|---:|"
    local name call row
    for name in "${all[@]}"; do
        row="| \`$name\` |"
        for call in build check read ask batch convert clip route salvage merge; do row+=" $(g "${of[stack $call $name]}") |"; done
        echo "$row"
    done
    echo
    echo "Of $(find "$work/hostile" -name '*.book' | wc -l) hostile books the deepest takes $(g "${of[stack hostile]}") bytes for its check."
    close_part
    echo "### Which guest can call what"
    echo
    open_part guests
    of_bound "| Call | 2 KiB"
    close_part
}

others() {
    echo "## Beside other ways to keep names"
    echo
    open_part beside
    sed -e '1,2d' -e 's/^## /### /' "$folder/benchmark.md"
    close_part
}

screen() {
    echo "## A screen of ten hits"
    echo
    open_part screen
    local check=${of[own check stations]}
    echo "| \`stations\` | Instructions, and how many checks that is |"
    echo "|---|---:|"
    echo "| \`book_check\` | $(g "$check") |"
    echo "| \`book_range\`, and \`book_read\` of ten hits | $(beside "${of[own screen]}" "$check") |"
    echo "| \`book_batch\`, 64 questions | $(beside "${of[own batch stations]}" "$check") |"
    echo "| \`book_salvage\`: all $(g "${of[names stations]}") names | $(beside "${of[own sound stations]}" "$check") |"
    close_part
}

vector_sets() {
    echo "## Vectors"
    echo
    open_part vectors
    echo "| Set | Cases |"
    echo "|---|---:|"
    local set count rest sum=0
    while read -r set count rest; do
        echo "| \`${set%:}\` | $(g "$count") |"
        sum=$((sum + count))
    done <"$work/sets"
    echo "| all | $(g "$sum") |"
    close_part
}

random_cases() {
    echo "## Differential test"
    echo
    open_part fuzz
    echo "\`difftest --cases $cases --seed 1\`, no difference:"
    echo
    sed -n '/^|/p' "$work/cases.md"
    close_part
}

for part in state building checking asking batching announcing two_lists cards folded columns growing dearest by_bytes stacks others screen vector_sets random_cases; do
    "$part"
done >"$folder/figures.md"
cat "$folder/figures.md"
