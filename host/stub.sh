#!/usr/bin/env bash
# For scripts.sh and readme.sh, which read it: a fresh copy of the repository's files, and a stub for the kit. It is run in the top folder.
#
#   . host/stub.sh
#   copy_files FOLDER         the files as they are now, without what was made from them
#   make_kit FOLDER [ARCHIVE] FOLDER/bin/rt, which proves nothing: what it is asked it notes in FOLDER/asked, and ARCHIVE is what it makes
#   commit_all                the files of the folder at hand, in a new repository
#   all_but NAME FOLDER       every command that can be called, but NAME, as links in FOLDER
set -eu

# Where git does not know the files, all are copied but what is made from them.
copy_files() {
    mkdir -p "$1"
    if ! git ls-files --error-unmatch crates.txt >/dev/null 2>&1; then
        tar --exclude=./.git --exclude=./target --exclude=./host/target --exclude=./packages --exclude='./crates/*/out' -cf - . | tar -xf - -C "$1"
        return
    fi
    git ls-files -z --cached --others --exclude-standard | while IFS= read -r -d '' file; do
        [ ! -f "$file" ] || printf '%s\0' "$file"
    done | tar --null -cf - -T - | tar -xf - -C "$1"
}

commit_all() {
    git init --quiet .
    git add --all
    git -c user.name=copy -c user.email=copy@example.org -c commit.gpgsign=false commit --quiet --message copy
}

# Without an archive the stub makes one for each library, with the name of its crate and crates.txt. While FOLDER/broken is there, it makes none.
# A crate that is proved, built or run has to be the folder at hand, and one of crates.txt, as do those that the gate is run for.
make_kit() {
    local folder=$1 archive=${2:-} tools=$1/toolchain
    # shellcheck disable=SC2016
    local put='cat "$@" >>"$out"'
    [ -z "$archive" ] || put="cat \"$archive\" >\"\$out\""
    mkdir -p "$tools/bin" "$tools/lib" "$folder/bin"
    cat >"$tools/bin/clang" <<'END'
#!/bin/sh
while [ $# -gt 0 ]; do
    [ "$1" != -o ] || echo compiled >"$2"
    shift
done
END
    cat >"$tools/bin/llvm-ar" <<END
#!/bin/sh
how=\$1 out=\$2
shift 2
case \$how in
p) cat "\$out" ;;
*) $put ;;
esac
END
    cat >"$folder/bin/rt" <<END
#!/bin/sh
kit=\$(dirname "\$(dirname "\$(realpath "\$0")")")
crate=\$(basename "\$PWD")
case \$1 in
check | lib | run)
    echo "\$1 \$crate" >>"$folder/asked"
    grep -q "^\$crate\( staticlib\)*:" ../../crates.txt || { echo "rt: there is no crate \$crate" >&2; exit 1; }
    ;;
*) echo "\$*" >>"$folder/asked" ;;
esac
case \$1 in
version) echo "a stub of the kit" ;;
doc) echo "$folder/index" ;;
check | run) ;;
ci)
    shift
    for crate in "\$@"; do
        grep -q "^\$crate\( staticlib\)*:" crates.txt || { echo "rt: there is no crate \$crate" >&2; exit 1; }
    done
    ;;
lib)
    echo "a long log"
    [ ! -f "$folder/broken" ] || exit 1
    mkdir -p out
    { echo "\$crate" && cat ../../crates.txt; } >"out/lib\$crate.a"
    echo module >"$folder/\$crate.bc"
    "\$kit/toolchain/bin/clang" "$folder/\$crate.bc" -o "$folder/\$crate.o"
    ;;
*) echo "rt: the stub can't \$1" >&2 && exit 1 ;;
esac
END
    chmod +x "$tools/bin/clang" "$tools/bin/llvm-ar" "$folder/bin/rt"
}

all_but() {
    local folder
    mkdir -p "$2"
    for folder in ${PATH//:/ }; do
        ln -s "$folder"/* "$2/" 2>/dev/null || true
    done
    rm -f "$2/$1"
}
