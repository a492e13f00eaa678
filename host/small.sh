#!/usr/bin/env bash
# Makes an archive of the proved library that copies and clears a byte at a time, as a guest with a small C library does, and prints its
# path. So it is measured like the other:
#
#   MISTROGU_ARCHIVE=$(host/small.sh) host/measure.sh check BOOKFILE
#
# The code is that of the archive which MISTROGU_ARCHIVE names, or of archive.sh's; only its calls of memcpy and memset go
# to small.c. For measuring alone.
set -eu
case ${1:-} in
-h | --help)
    sed -n '2,/^set /{/^set /d;s/^# \{0,1\}//p;}' "$0"
    exit
    ;;
esac
host=$(cd "$(dirname "$0")" && pwd -P)
archive=${MISTROGU_ARCHIVE:-$("$host/archive.sh")}
folder=${CARGO_TARGET_DIR:-$host/target}/small
rm -rf "$folder"
mkdir -p "$folder"
cd "$folder"
ar x "$archive"
for object in *.o; do
    objcopy --redefine-sym memcpy=small_memcpy --redefine-sym memset=small_memset "$object"
done
# At -O1 no compiler makes a loop into a call again, or into wider steps.
cc -std=c99 -O1 -fno-builtin -fPIC -Wall -Wextra -Werror -c "$host/small.c" -o small.o
ar rcs libmistrogu_small.a ./*.o
echo "$folder/libmistrogu_small.a"
