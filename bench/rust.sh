#!/bin/sh
# Times the Rust crate by turns with libkeywrap_hw, and its tables by turns with the tables of keywrap.c: wraps and
# unwraps, also with a kept KEK, and calls for many keys. It builds the crate in release by the first cargo on the
# PATH, without a network.
#
# usage: bench/rust.sh LIBRARY [SECONDS]     (LIBRARY: libkeywrap_hw.a; SECONDS for each line, 3 if not given)

set -eu
library=$(readlink -f -- "$1") seconds=${2:-3}
workdir=$(mktemp -d)
trap 'rm -rf "$workdir"' EXIT
cd "$(dirname "$(readlink -f -- "$0")")/.."

# The crate with the calls of C, which the tests have.
mkdir "$workdir/crate"
cp -R dist/Cargo.toml dist/build.rs dist/keywrap.c dist/keywrap.h dist/keywrap_steps.h dist/src "$workdir/crate"
cp tests/rust/exports.rs "$workdir/crate/src"
echo 'mod exports;' >>"$workdir/crate/src/lib.rs"
printf '\n[lib]\ncrate-type = ["cdylib"]\n' >>"$workdir/crate/Cargo.toml"
# built FEATURE: FEATURE.so is the crate with this feature.
built() {
    (cd "$workdir/crate" &&
        cargo --config 'source.crates-io.replace-with="debian"' \
            --config 'source.debian.directory="/usr/share/cargo/registry"' \
            build --offline --quiet --release --features "$1" --target-dir "$workdir/$1")
    cp "$workdir/$1/release/libkeywrap.so" "$workdir/$1.so"
}
built std
built tables

cc="${CC:-cc} -std=c99 -O2 -Wall -Ic/include -Idist"
$cc -shared -Wl,--whole-archive "$library" -Wl,--no-whole-archive -o "$workdir/hw.so"
# As in wrap.sh.
$cc -shared -fPIC -Wa,-mbranches-within-32B-boundaries -DKEYWRAP_NO_AES_INSTRUCTIONS dist/keywrap.c -o "$workdir/c.so"
$cc bench/rust.c -ldl -o "$workdir/rust"
(cd "$workdir/crate" && rustc --version >&2)
bench/record.sh rust '' "$workdir/rust" "$seconds" "$workdir/std.so" "$workdir/hw.so"
bench/record.sh rust_tables '' "$workdir/rust" "$seconds" "$workdir/tables.so" "$workdir/c.so"
