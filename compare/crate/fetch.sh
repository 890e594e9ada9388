#!/bin/sh
# Unpacks the sources of the public Rust crates that apollo-compiler's files use, from Debian's packages, in target/compare/vendor.
# Nothing is installed and no root is needed: the lists and the packages lie under target/compare too. The suite is trixie, whose versions
# are the majors that the files are written for. Needs apt-get, dpkg-deb and Debian's archive.
set -eu
cd "$(dirname "$0")/../.."
suite=trixie
here=$PWD/target/compare
packages="ahash allocator-api2 cfg-if equivalent getrandom hashbrown indexmap libc once-cell proc-macro2 quote serde serde-derive syn
    thiserror thiserror-impl typed-arena unicode-ident version-check zerocopy zerocopy-derive"
[ ! -e "$here/vendor/complete" ] || exit 0
for tool in apt-get dpkg-deb; do
    command -v "$tool" >/dev/null || { echo "missing: $tool (these sources come from Debian's packages)" >&2; exit 2; }
done

mkdir -p "$here/apt/state/lists/partial" "$here/apt/cache/archives/partial" "$here/apt/parts" "$here/apt/debs" "$here/vendor"
now=$(. /etc/os-release && echo "$VERSION_CODENAME")
for f in /etc/apt/sources.list.d/*.sources; do
    [ ! -f "$f" ] || sed "/^Suites:/s/$now/$suite/g" "$f" >"$here/apt/parts/$(basename "$f")"
done
: >"$here/apt/sources.list"
[ ! -f /etc/apt/sources.list ] || sed "s/$now/$suite/g" /etc/apt/sources.list >"$here/apt/sources.list"
apt_here() {
    apt-get -q -o Dir::State="$here/apt/state" -o Dir::State::status=/var/lib/dpkg/status -o Dir::Cache="$here/apt/cache" \
        -o Dir::Etc::sourceparts="$here/apt/parts" -o Dir::Etc::sourcelist="$here/apt/sources.list" -o APT::Sandbox::User= "$@"
}
apt_here update >"$here/fetch.log" 2>&1 || { tail -n 5 "$here/fetch.log" >&2; echo "missing: Debian's archive (suite $suite)" >&2; exit 2; }
cd "$here/apt/debs"
for p in $packages; do
    [ -z "$(find . -name "librust-$p-dev_*")" ] || continue
    apt_here download "librust-$p-dev" >>"$here/fetch.log" 2>&1 || { echo "missing: the package librust-$p-dev of $suite" >&2; exit 2; }
done
for d in *.deb; do
    dpkg-deb -x "$d" "$here/vendor"
done
touch "$here/vendor/complete"
