#!/usr/bin/env bash
# Makes the archive of the proved library for the machine at hand and prints its path, alone on standard output.
#
#   export MISTROGU_ARCHIVE=$(host/archive.sh)
#
#   --product   the product itself, which is for x86-64, on any machine
#   --anew      make it even where it is there already, of the same sources
#
# On x86-64 it is target/staticlib/libmistrogu.a, the product itself: the objects that `rt lib` writes in crates/book_c and crates/announcer_c,
# as they are but for their names, in one archive. They are for any x86-64 processor. The prover compiles for no other one, so elsewhere the
# LLVM modules that it hands to its compiler are kept on the way and compiled anew for this machine, to target/native/libmistrogu.a. That
# archive is for tests and benchmarks only. With MISTROGU_NATIVE=1 the second way is taken on x86-64, too; with MISTROGU_TARGET, such as
# aarch64-unknown-linux-gnu, it is compiled for that processor. Either way the product is there, too. The kit itself is for x86-64: on another
# machine it runs only where the system runs such programs.
#
# It is made again only where what it is made from has changed: crates.txt, the crates' src, specs and proofs, the kit, and for the second
# way this script, native.c and the processor. A sum of these, and of the archive itself, is kept beside it. What the prover says goes to
# target/archive.log; on the screen there is one line, on standard error.
set -eu
cd "$(dirname "$0")/.."
root=$(pwd -P)
libraries=(book announcer)
processor=x86-64
machine=$(uname -m)
product=$root/target/staticlib/libmistrogu.a
native=$root/target/native/libmistrogu.a
log=$root/target/archive.log

say() {
    echo "archive.sh: $1" >&2
}

archive=$native
if [ "$machine" = x86_64 ] && [ "${MISTROGU_NATIVE:-0}" != 1 ]; then archive=$product; fi
anew=0
for word in "$@"; do
    case $word in
    --product) archive=$product ;;
    --anew) anew=1 ;;
    -h | --help)
        sed -n '2,/^set /{/^set /d;s/^# \{0,1\}//p;}' "host/$(basename "$0")"
        exit
        ;;
    *)
        say "$word is no option; --help has all"
        exit 2
        ;;
    esac
done
command -v rt >/dev/null || { say "rt, the program of the Rattle kit, is missing, and makes the archive"; exit 1; }
target=${MISTROGU_TARGET:-$machine-unknown-linux-gnu}

# The sums of what the product, and what the other archive, are made from.
of_product=$({
    rt version
    echo "${libraries[@]} $processor"
    find crates.txt crates/*/src crates/*/specs crates/*/proofs -type f -print0 | LC_ALL=C sort -z | xargs -0 sha256sum
} | sha256sum)
of_native=$({ echo "$of_product $target" && sha256sum host/archive.sh host/native.c; } | sha256sum)

# Notes beside the archive $1 that it was made from the sources with the sum $2, and what it is.
note() {
    { echo "$2" && sha256sum <"$1"; } >"$1.sum"
}

# Whether the archive $1 is there, as it was made from the sources with the sum $2.
is_made() {
    [ -f "$1" ] && [ -f "$1.sum" ] && [ "$(cat "$1.sum")" = "$(echo "$2" && sha256sum <"$1")" ]
}

if [ "$anew" = 0 ] && is_made "$product" "$of_product" && { [ "$archive" = "$product" ] || is_made "$native" "$of_native"; }; then
    say "${archive#"$root/"} is there already, of these sources"
    echo "$archive"
    exit
fi

kit=$(dirname "$(rt doc)")
tools=$kit/toolchain
work=$(mktemp -d)
trap 'rm -rf "$work"' EXIT

# Has the libraries proved and compiled, by the program $1, which is rt or that of another kit, and puts their objects into the product, each
# under the name of its library. A module that is kept on the way gets that name, too. All that is said is in the log.
make_product() {
    local rt=$1 library crate made
    say "the library is proved and compiled, which can take minutes; target/archive.log has what the prover says"
    mkdir -p "$(dirname "$product")"
    : >"$log"
    for library in "${libraries[@]}"; do
        crate=${library}_c
        made=crates/$crate/out/lib$crate.a
        (cd "crates/$crate" && "$rt" lib "--cpu=$processor") >>"$log" 2>&1 || { say "the library was not made: target/archive.log says why"; exit 1; }
        [ -f "$made" ] || { say "the prover wrote no $made: target/archive.log may say why"; exit 1; }
        [ ! -f "$work/module.bc" ] || mv "$work/module.bc" "$work/$library.bc"
        {
            "$tools/bin/llvm-ar" p "$made" "$crate.o" >"$work/$library.o" && "$tools/bin/llvm-ar" qcs "$work/product.a" "$work/$library.o"
        } 2>>"$log" || { say "$made could not be put into the product: target/archive.log says why"; exit 1; }
    done
    cp "$work/product.a" "$product"
    note "$product" "$of_product"
}

if [ "$archive" = "$product" ]; then
    make_product rt
    echo "$product"
    exit
fi

# Makes the folder $2, with a link in it to everything in the folder $1.
link_all() {
    mkdir -p "$2"
    ln -s "$1"/* "$2/"
}

# A kit of links, in which only the compiler is another: it keeps the module, then does what it is asked. rt finds its kit by the folder in
# which its own file stands, so that is a copy, with what it loads.
own=$work/kit
link_all "$kit" "$own"
rm "$own/bin" "$own/toolchain"
link_all "$kit/bin" "$own/bin"
rm "$own"/bin/rt*
cp "$kit"/bin/rt* "$own/bin/"
link_all "$tools" "$own/toolchain"
rm "$own/toolchain/bin"
link_all "$tools/bin" "$own/toolchain/bin"
rm "$own/toolchain/bin/clang"
cat >"$own/toolchain/bin/clang" <<END
#!/bin/sh
for word in "\$@"; do
    case \$word in *.bc) cp "\$word" "$work/module.bc" ;; esac
done
exec "$tools/bin/clang" "\$@"
END
chmod +x "$own/toolchain/bin/clang"
make_product "$own/bin/rt"

# Each module as text, without the words on x86-64; the compiler puts in those of its target. The calls get other names there, and
# native.c has them as this processor's C sees them. Inner functions have the name of their crate and :: in theirs, and keep it; a call that
# native.c does not have is missed when it is linked.
clang=$tools/bin/clang
flags=(--target="$target" -O3 -fPIC -ffunction-sections -fdata-sections -c)
objects=()
for library in "${libraries[@]}"; do
    [ -f "$work/$library.bc" ] || { say "the prover handed no module of $library to its compiler"; exit 1; }
    "$clang" --target=x86_64-unknown-linux-gnu -S -emit-llvm -Xclang -disable-llvm-passes -x ir "$work/$library.bc" -o "$work/$library.ll"
    sed -i -e '/^target datalayout = /d' -e '/^target triple = /d' -e 's/@\(book\|list\|announce\)_/@written_\1_/g' \
        -e 's/ *"\(target-cpu\|target-features\|tune-cpu\)"="[^"]*"//g' "$work/$library.ll"
    "$clang" "${flags[@]}" -Wno-override-module -x ir "$work/$library.ll" -o "$work/$library.o"
    objects+=("$work/$library.o")
done
"$clang" "${flags[@]}" -std=c99 -Wall -Wextra -Werror host/native.c -o "$work/calls.o"

mkdir -p "$(dirname "$native")"
rm -f "$native"
"$tools/bin/llvm-ar" rcs "$native" "${objects[@]}" "$work/calls.o"
note "$native" "$of_native"
echo "$native"
