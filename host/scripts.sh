#!/usr/bin/env bash
# Tries the scripts without a proof: a stub stands for the prover, and notes what it is asked.
#
#   host/scripts.sh
#
# An archive is made again only where its sources changed, with one line on the screen; every script knows --help, looks at its words before
# it has anything proved, and says in one sentence what is missing; a package has what it should. Where that is not so, the exit status is 1. It takes some seconds.
set -eu
case ${1:-} in
-h | --help)
    sed -n '2,/^set /{/^set /d;s/^# \{0,1\}//p;}' "$0"
    exit
    ;;
esac
cd "$(dirname "$0")/.."
unset MISTROGU_ARCHIVE MISTROGU_PRODUCT MISTROGU_NATIVE MISTROGU_TARGET CARGO_TARGET_DIR

work=$(mktemp -d)
trap 'rm -rf "$work"' EXIT
clone=$work/mistrogu
asked=$work/kit/asked

fail() {
    echo "scripts.sh: $1" >&2
    [ ! -s "$work/err" ] || sed 's/^/    /' "$work/err" >&2
    exit 1
}

# shellcheck source=host/stub.sh
. host/stub.sh
copy_files "$clone"
make_kit "$work/kit"
all_but rt "$work/without"
without=$work/without
with=$work/kit/bin:$without

# Runs a script of the clone with the words behind it, and commands from the folders $1: out and err have what it prints, and status how it ends.
try() {
    local path=$1
    shift
    : >"$asked"
    status=0
    (cd "$clone" && PATH=$path "$@") >"$work/out" 2>"$work/err" || status=$?
}

# How often the prover was asked to make this library.
times_made() {
    grep -cx "lib ${1}_c" "$asked" || true
}

# After a try: that it gave this path, with one line on the screen, made each library so many times, and left the product with both of them.
gave() {
    local library
    [ "$status" = 0 ] || fail "archive.sh ended with $status, $3"
    [ "$(cat "$work/out")" = "$clone/$1" ] || fail "archive.sh did not print the path alone, $3"
    [ "$(wc -l <"$work/err")" = 1 ] || fail "archive.sh did not say one line, $3"
    for library in book announcer; do
        [ "$(times_made "$library")" = "$2" ] || fail "archive.sh had $library made $(times_made "$library") times and not $2, $3"
    done
    [ -f "$clone/$1" ] || fail "archive.sh made nothing, $3"
    cat "$clone"/crates/{book_c/out/libbook_c,announcer_c/out/libannouncer_c}.a | cmp -s - "$clone/$product" || fail "the product has not just the two libraries, $3"
}

product=target/staticlib/libmistrogu.a
native=target/native/libmistrogu.a
for way in --product native; do
    words=(--product) path=$product
    [ "$way" = --product ] || { words=() path=$native && export MISTROGU_NATIVE=1; }
    rm -rf "$clone/target"
    try "$with" host/archive.sh "${words[@]}" && gave "$path" 1 "where there was none"
    grep -q 'a long log' "$clone/target/archive.log" || fail "the prover's log is not in target/archive.log"
    try "$with" host/archive.sh "${words[@]}" && gave "$path" 0 "where nothing changed"
    touch "$clone"/crates/*/src/*.rt
    try "$with" host/archive.sh "${words[@]}" && gave "$path" 0 "where only times changed"
    try "$with" host/archive.sh "${words[@]}" --anew && gave "$path" 1 "where it was asked for"
    for file in crates.txt crates/book/src/lib.rt crates/book/proofs/new.antt crates/format/specs/new.antt; do
        echo >>"$clone/$file"
        try "$with" host/archive.sh "${words[@]}" && gave "$path" 1 "where $file changed"
    done
    rm "$clone/crates/book/proofs/new.antt"
    try "$with" host/archive.sh "${words[@]}" && gave "$path" 1 "where a file went"
    sed -i 's/a stub of/another stub of/' "$work/kit/bin/rt"
    try "$with" host/archive.sh "${words[@]}" && gave "$path" 1 "where the kit changed"
    sed -i 's/another stub of/a stub of/' "$work/kit/bin/rt"
    try "$with" host/archive.sh "${words[@]}" && gave "$path" 1 "where the kit changed back"
    echo >>"$clone/$product"
    try "$with" host/archive.sh "${words[@]}" && gave "$path" 1 "where somebody changed the archive"
    rm "$clone/$path"
    try "$with" host/archive.sh "${words[@]}" && gave "$path" 1 "where somebody took it away"
done
try "$with" host/archive.sh --product && gave "$product" 0 "where the other way left the product"
export MISTROGU_TARGET=other-unknown-linux-gnu
try "$with" host/archive.sh && gave "$native" 1 "for another processor"
unset MISTROGU_NATIVE MISTROGU_TARGET

# That a try ended with the status $1 and a sentence that has the word $2, and that the prover was asked for no proof.
said() {
    [ "$status" = "$1" ] || fail "it ended with $status and not $1, $3"
    [ "$(wc -l <"$work/err")" = 1 ] || fail "it did not say one sentence, $3"
    grep -qF -e "$2" "$work/err" || fail "it did not speak of $2, $3"
    if grep -qvE '^(version|doc)$' "$asked"; then fail "the prover was asked, $3"; fi
}

touch "$work/kit/broken"
rm -rf "$clone/target"
try "$with" host/archive.sh --product
if [ "$status" != 1 ] || [ -s "$work/out" ] || ! grep -q 'archive.log says why' "$work/err"; then
    fail "archive.sh does not say that nothing was made"
fi
rm "$work/kit/broken"

for script in demo fuzz test package examples/run.sh host/*.sh; do
    [ "$script" != host/stub.sh ] || continue
    try "$without" "./$script" --help
    if [ "$status" != 0 ] || [ -s "$work/err" ] || [ "$(wc -l <"$work/out")" -lt 3 ]; then fail "$script --help has no help"; fi
    if grep -q '^set \|^#' "$work/out"; then fail "$script --help shows its code"; fi
done

try "$without" host/archive.sh && said 1 "rt, " "archive.sh without the prover"
try "$without" ./demo && said 1 "rt, " "demo without the prover"
try "$without" ./test && said 2 "rt is missing" "test without the prover"
try "$without" ./fuzz 1 && said 1 "rt, " "fuzz without the prover"
try "$without" examples/run.sh && said 1 "rt, " "examples/run.sh without the prover"
if command -v valgrind >/dev/null; then
    try "$without" host/benchmark.sh "$work/figures" && said 1 "rt, " "benchmark.sh without the prover"
fi
try "$with" host/archive.sh --prodcut && said 2 "--prodcut" "archive.sh with a slip"
try "$with" ./demo no-such.txt && said 1 "no-such.txt" "demo without its text"
try "$with" ./demo --fast && said 2 "--fast" "demo with an option"
try "$with" ./demo sample/stops.txt again && said 2 "one text" "demo with two texts"
try "$with" ./fuzz soon && said 2 "soon" "fuzz with a word"
try "$with" ./fuzz 1 2 3 && said 2 "third" "fuzz with three numbers"
try "$with" ./test fast && said 2 "no words" "test with a word"
try "$with" examples/run.sh no-such.a && said 1 "no-such.a" "examples/run.sh without its archive"
try "$with" examples/run.sh --fast && said 1 "--fast" "examples/run.sh with an option"
try "$with" host/benchmark.sh README.md && said 1 "README.md" "benchmark.sh with a file for a folder"
try "$with" host/benchmark.sh --fast && said 2 "--fast" "benchmark.sh with an option"
try "$with" host/figures.sh --fast && said 2 "--fast" "figures.sh with an option"
try "$with" host/figures.sh "$work/figures" no-such.list && said 1 "no-such.list" "figures.sh without its list"
for word in README.md:0 README.md:65 README.md:many README.md:; do
    try "$with" host/figures.sh "$work/figures" "$word" && said 2 "$word" "figures.sh with a block that is none"
done
try "$with" host/figures.sh "$work/figures" README.md ./README.md:1 && said 2 "two lists" "figures.sh with a list twice"
try "$with" host/figures.sh README.md sample/stops.txt && said 1 "README.md" "figures.sh with a file for a folder"
if [ "$(uname -m)" != x86_64 ]; then
    try "$with" host/figures.sh "$work/figures" && said 1 "x86-64" "figures.sh on another processor"
elif command -v valgrind >/dev/null; then
    try "$without" host/figures.sh "$work/figures" && said 1 "rt, " "figures.sh without the prover"
fi
try "$without" host/sizes.sh && said 1 "rt, " "sizes.sh without the prover"
try "$with" host/sizes.sh no-such.a && said 1 "no-such.a" "sizes.sh without its archive"
try "$without" ./package && said 1 "rt is missing" "package without the prover"
try "$with" ./package now && said 2 "no words" "package with a word"

# Figures put into a page: the parts go where their names stand, and where one is missing on either side, the page stays.
taken=$work/taken
mkdir "$taken" "$work/pages"
part() {
    printf '<!-- figures %s -->\n' "$1"
    printf '| %s |\n' "${@:2}"
    echo '<!-- end of figures -->'
}
page=$work/pages/page.md
old_page() {
    echo before && part two old older && echo between && part one && echo behind
}
{ echo '# Head' && part one 1 && echo '## Another' && part two 2 3; } >"$taken/figures.md"
old_page >"$page"
try "$with" host/figures.sh --into "$page" && said 2 "a folder" "figures.sh --into without its folder"
try "$with" host/figures.sh --into no-such.md "$taken" && said 1 "no-such.md" "figures.sh --into without its page"
try "$with" host/figures.sh --into "$page" "$work/pages" && said 1 "figures.md" "figures.sh --into without figures"
try "$with" host/figures.sh --into "$page" "$taken" && said 1 "benchmark.svg" "figures.sh --into without its drawing"
echo drawn >"$taken/benchmark.svg"
{ echo before && part two 2 3 && echo between && part one 1 && echo behind; } >"$work/new.md"
for time in once twice; do
    try "$with" host/figures.sh --into "$page" "$taken"
    [ "$status" = 0 ] || fail "figures.sh --into ended with $status, $time"
    cmp -s "$page" "$work/new.md" || fail "figures.sh --into did not put the figures where they belong, $time"
done
cmp -s "$taken/benchmark.svg" "$work/pages/benchmark.svg" || fail "figures.sh --into did not put the drawing beside the page"

# That figures are refused with a sentence that has the word $1, and change nothing.
refused_page() {
    cp "$page" "$work/old.md"
    try "$with" host/figures.sh --into "$page" "$taken" && said 1 "$1" "figures.sh --into, $2"
    cmp -s "$page" "$work/old.md" || fail "figures.sh --into changed a page that it refused, $2"
}
{ old_page && part three; } >"$page" && refused_page "no figures three" "with a part too many"
part two >"$page" && refused_page "no figures one" "with a part too few"
{ old_page && part one; } >"$page" && refused_page "twice" "with a part twice"
old_page | sed '$d' | sed '$d' >"$page" && refused_page "does not end" "with a part that does not end"
page_parts=$(sed -n 's/^<!-- figures \([a-z]*\) -->$/\1/p' docs/BENCHMARKS.md)
own_parts=$(sed -n 's/^ *open_part \([a-z]*\)$/\1/p' host/figures.sh)
[ "$page_parts" = "$own_parts" ] || fail "docs/BENCHMARKS.md has other parts, or in another order, than figures.sh prints"

# The package, with a stub for cargo, too.
mkdir "$work/cargo"
cat >"$work/cargo/cargo" <<'END'
#!/bin/sh
mkdir -p host/target/release
echo stopbook >host/target/release/stopbook
END
chmod +x "$work/cargo/cargo"
(cd "$clone" && commit_all)
commit=$(git -C "$clone" rev-parse HEAD)
version=$(sed -n 's/^#define MISTROGU_VERSION "\(.*\)"$/\1/p' include/mistrogu.h)
packed=$clone/packages/mistrogu-$version

# That a package was made whose text has this commit and this line of the gate.
packed() {
    [ "$status" = 0 ] || fail "package ended with $status, $3"
    grep -qxF "version   $version" "$packed/PACKAGE.txt" || fail "the package has no version, $3"
    grep -qxF "commit    $1" "$packed/PACKAGE.txt" || fail "the package names another commit, $3"
    grep -qxF "kit       a stub of the kit" "$packed/PACKAGE.txt" || fail "the package names no kit, $3"
    grep -qxF "gate      $2" "$packed/PACKAGE.txt" || fail "the package says something else of the gate, $3"
    (cd "$packed" && sha256sum --check --quiet SHA256SUMS) || fail "the checksums of the package are wrong, $3"
    rm -rf "$work/unpacked" && mkdir "$work/unpacked"
    tar -xzf "$packed.tar.gz" -C "$work/unpacked"
    diff -r "$packed" "$work/unpacked/mistrogu-$version" >"$work/err" || fail "the tar file has something else, $3"
}

unseen="./test was not seen to pass for this commit"
mkdir -p "$clone/target"
try "$work/cargo:$with" ./package && packed "$commit" "$unseen" "without a gate"
for file in PACKAGE.txt SHA256SUMS CHANGELOG.md LICENSE bin/stopbook docs/FORMAT.md docs/STATEMENTS.md docs/TRUST.md examples/renamed.c examples/stops.c include/mistrogu.h lib/libmistrogu.a; do
    [ -s "$packed/$file" ] || fail "the package has no $file"
    [ "$file" = SHA256SUMS ] || grep -qF "  $file" "$packed/SHA256SUMS" || fail "$file has no checksum"
done
cmp -s "$clone/$product" "$packed/lib/libmistrogu.a" || fail "the package has another archive"
sum=$(sha256sum <"$packed.tar.gz")
printf '%s\n7 passed, 0 failed\n' "$commit" >"$clone/target/gate"
try "$work/cargo:$with" ./package && packed "$commit" "7 passed, 0 failed" "with a gate"
rm "$clone/target/gate"
try "$work/cargo:$with" ./package && packed "$commit" "$unseen" "without a gate, again"
[ "$sum" = "$(sha256sum <"$packed.tar.gz")" ] || fail "the tar file differs from one time to the other"
printf '%s\n7 passed, 0 failed\n' "${commit//[0-4]/5}" >"$clone/target/gate"
try "$work/cargo:$with" ./package && packed "$commit" "$unseen" "with a gate of another commit"
printf '%s\n7 passed, 0 failed\n' "$commit" >"$clone/target/gate"
echo >>"$clone/README.md"
try "$work/cargo:$with" ./package && packed "$commit, with changes that are in no commit" "$unseen" "with changes"
echo "scripts.sh: all scripts do as they say"
