#!/bin/sh
# Proves and builds the door's static library for C and Rust, by `rt lib` in crates/door_c, and copies it to where hosts link it from.
#   tools/native_library.sh FOLDER      writes FOLDER/libdoor.a
set -eu
mkdir -p "$1"
folder=$(cd "$1" && pwd -P)
cd "$(dirname "$0")/../crates/door_c"
if ! rt lib >"$folder/door.log" 2>&1; then
    tail -n 20 "$folder/door.log" >&2
    echo "the door's library could not be built; $folder/door.log says why" >&2
    exit 1
fi
cp out/libdoor_c.a "$folder/libdoor.a"
