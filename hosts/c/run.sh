#!/usr/bin/env bash
# Builds the door's library and the C example, and runs the example on an image.
#   hosts/c/run.sh [IMAGE]      (default: examples/primer.img)
# With a C compiler for x86-64 (cc there, x86_64-linux-gnu-gcc elsewhere, or what CC names) the example is linked as any C program.
# Without one, or with CC empty, the kit's compiler and linker do it on x86-64, with the few declarations in hosts/c/kit.
set -euo pipefail
image=$(readlink -f "${1:-$(dirname "$0")/../../examples/primer.img}")
cd "$(dirname "$0")/../.."
# shellcheck source=hosts/common.sh
. hosts/common.sh

link=()
if [ "$machine" = x86_64 ]; then
    usual=cc
else
    usual=x86_64-linux-gnu-gcc
    link=(-static)
fi
compiler=${CC-$(command -v "$usual" || true)}

if [ -n "$compiler" ]; then
    "$compiler" -std=c99 -O2 -Wall -Wextra -o "$out/example" ${link[@]+"${link[@]}"} hosts/c/example.c "$lib/libdoor.a"
    exec ${under[@]+"${under[@]}"} "$out/example" "$image"
fi
kit=$(dirname "$(dirname "$(readlink -f "$(command -v rt)")")")
tools=$kit/toolchain
target=x86_64-unknown-linux-gnu
"$tools/bin/clang" --no-default-config --target=$target -O2 -fPIC -nostdinc -isystem hosts/c/kit -c hosts/c/example.c -o "$out/example.o"
"$kit/bin/rattle-link" --target $target --toolchain "$tools" -o "$out/example" "$out/example.o" "$lib/libdoor.a" >"$out/link.log" 2>&1 || {
    cat "$out/link.log" >&2
    exit 1
}
exec "$tools/lib/ld-linux-x86-64.so.2" --library-path "$tools/lib" "$out/example" "$image"
