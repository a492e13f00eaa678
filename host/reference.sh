#!/usr/bin/env bash
# Compiles the reference, careful code without index tests, as an archive with the calls of the proved library, and prints its path.
# So it is measured like that one:
#
#   MISTROGU_ARCHIVE=$(host/reference.sh) host/measure.sh check BOOKFILE
#
# For measuring alone: it is not proved, and not for use.
set -eu
case ${1:-} in
-h | --help)
    sed -n '2,/^set /{/^set /d;s/^# \{0,1\}//p;}' "$0"
    exit
    ;;
esac
cd "$(dirname "$0")"
folder=${CARGO_TARGET_DIR:-$PWD/target}/reference
mkdir -p "$folder"
rustc --edition 2021 --crate-name reference --crate-type lib --cfg 'feature="archive"' -C opt-level=3 -C panic=abort -C codegen-units=1 \
    --emit obj="$folder/reference.o" reference/src/lib.rs >&2
rm -f "$folder/libmistrogu_reference.a"
ar rcs "$folder/libmistrogu_reference.a" "$folder/reference.o"
echo "$folder/libmistrogu_reference.a"
