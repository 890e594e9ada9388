#!/usr/bin/env bash
# The deepest images on threads with just the documented stack; then the door between guard pages, over the project's stored cases (specimens,
# generated and damaged images, limits) and, where the oracle's folder is given, over more damaged images by seed; then 1,000,000 calls in one
# process.
#   compare/faults/run.sh [--oracle FOLDER] [N]     N more damaged images (default 20000; 0 without the folder)
#   compare/faults/run.sh --stack                   the threads alone
# Needs rt (it builds the door's library), python3 and a C compiler for x86-64: cc there, x86_64-linux-gnu-gcc elsewhere, or what CC names.
set -euo pipefail
cd "$(dirname "$0")/../.."
# shellcheck source=hosts/common.sh
. hosts/common.sh
usual=cc
link=()
if [ "$machine" != x86_64 ]; then
    usual=x86_64-linux-gnu-gcc
    link=(-static)
fi
compiler=${CC:-$(command -v "$usual" || true)}
[ -n "$compiler" ] || { echo "missing: a C compiler for x86-64" >&2; exit 2; }
build() { # NAME: compare/faults/NAME.c with the door's library
    "$compiler" -std=gnu11 -O2 -Wall -Wextra -pthread -o "$out/$1" ${link[@]+"${link[@]}"} "compare/faults/$1.c" "$lib/libdoor.a"
}
build stack
python3 compare/faults/cases.py --deep >"$out/deep.bin"
${under[@]+"${under[@]}"} "$out/stack" "$out/deep.bin"
[ "${1:-}" != --stack ] || exit 0
build guard
python3 compare/faults/cases.py "$@" >"$out/faults.bin"
exec ${under[@]+"${under[@]}"} "$out/guard" "$out/faults.bin"
