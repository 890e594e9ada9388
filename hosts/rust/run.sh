#!/usr/bin/env bash
# Builds the door's library, runs the Rust host's tests, then its example on an image.
#   hosts/rust/run.sh [IMAGE]      (default: examples/primer.img)
# On x86-64 it needs cargo. Elsewhere the tests are built for x86-64 and run under qemu-x86_64: that takes a Rust compiler that has the
# x86-64 standard library (`rustup target add x86_64-unknown-linux-gnu`, or RUSTC=..) and x86_64-linux-gnu-gcc with its C library
# (Debian: qemu-user gcc-x86-64-linux-gnu libc6-dev-amd64-cross).
set -euo pipefail
image=$(readlink -f "${1:-$(dirname "$0")/../../examples/primer.img}")
cd "$(dirname "$0")/../.."
# shellcheck source=hosts/common.sh
. hosts/common.sh

export PONYBLUSTER_LIB=$lib CARGO_TARGET_DIR=$out/rust
target=()
needed=(cargo)
if [ "$machine" != x86_64 ]; then
    needed+=(x86_64-linux-gnu-gcc)
    target=(--target x86_64-unknown-linux-gnu)
    export CARGO_TARGET_X86_64_UNKNOWN_LINUX_GNU_LINKER=x86_64-linux-gnu-gcc
    export CARGO_TARGET_X86_64_UNKNOWN_LINUX_GNU_RUSTFLAGS="-C target-feature=+crt-static"
    export CARGO_TARGET_X86_64_UNKNOWN_LINUX_GNU_RUNNER="${under[*]}"
fi
for tool in "${needed[@]}"; do
    if ! command -v "$tool" >/dev/null; then
        echo "hosts/rust/run.sh: needs $tool; its first lines say what it takes on this machine" >&2
        exit 2
    fi
done

cd hosts/rust
cargo test --offline --locked ${target[@]+"${target[@]}"}
cargo run --offline --locked --quiet --example check ${target[@]+"${target[@]}"} -- "$image"
