#!/bin/sh
# Builds target/compare/crate_driver: the supplied files of apollo-compiler 1.33.0, copied byte for byte, over the shim in this folder.
#   compare/crate/build.sh [FOLDER]     FOLDER has the crate's files under src/ (default: ../shared/docs/src)
# Needs cargo and, for the public crates that those files use, Debian's packages (fetch.sh). Nothing that is copied is tracked.
set -eu
files=$(cd "${1:-$(dirname "$0")/../../../shared/docs/src}" 2>/dev/null && pwd -P) || { echo "missing: the folder of the crate's files" >&2; exit 2; }
cd "$(dirname "$0")/../.."
command -v cargo >/dev/null || { echo "missing: cargo" >&2; exit 2; }
[ -e "$files/src/validation/selection.rs" ] || { echo "missing: $files/src/validation/selection.rs" >&2; exit 2; }
compare/crate/fetch.sh

out=target/compare/crate
rm -rf "$out/src"
mkdir -p "$out"
cp compare/crate/Cargo.toml "$out/"
cp -R compare/crate/shim "$out/src"
supplied=$(cd "$files" && find src -name '*.rs' | sort)
for f in $supplied; do
    [ ! -e "$out/$f" ] || { echo "the shim has $f, which is supplied" >&2; exit 1; }
    mkdir -p "$(dirname "$out/$f")"
    cp "$files/$f" "$out/$f"
    cmp "$files/$f" "$out/$f"
done
cd "$out"
cargo build --quiet --release --offline --config 'source.crates-io.replace-with="debian"' \
    --config "source.debian.directory=\"$PWD/../vendor/usr/share/cargo/registry\""
cp target/release/crate_driver ../crate_driver
cd ../../..
echo "crate: $(echo "$supplied" | wc -l) files, $(cd "$files" && cat $supplied | wc -l) lines, the same byte for byte;" \
    "shim: $(find compare/crate/shim -name '*.rs' | wc -l) files, $(find compare/crate/shim -name '*.rs' -exec cat {} + | wc -l) lines"
