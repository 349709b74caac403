#!/usr/bin/env bash
# Builds the C library by both of the toolchain's compilers, as the archives rattle.a and llvm.a of a directory. If
# asked and possible, it also builds the library for aarch64 as its directory arm64, the module as keywrap.wasm, the one
# that keywrap.c is translated from as portable.wasm, and the exports of libkeywrap_hw as hw.a, and for aarch64 as
# hw-arm64.a.
# An archive that exists is not built again. A second process waits for the first one.
#
# usage: tests/library/build.sh DIRECTORY [arm64] [keywrap.wasm] [portable.wasm] [hw.a] [hw-arm64.a]

exec 9>"$1/lock" && flock 9 && cd "$(dirname "${BASH_SOURCE[0]}")/../.." || exit
is_asked() { [[ " $words " == *" $1 "* ]] && [ ! -e "$directory/$2" ]; }
directory=$1 words=${*:2} archives=()
for name in llvm.a rattle.a; do [ -e "$1/$name" ] || archives+=("$name"); done
! is_asked arm64 arm64/built_from-aarch64-unknown-linux-gnu || ! command -v aarch64-linux-gnu-gcc >/dev/null ||
    archives+=(arm64.a)
! is_asked keywrap.wasm keywrap.wasm || ! command -v wasm-opt >/dev/null || archives+=(wasm64.a)
! is_asked portable.wasm portable.wasm || ! command -v wasm-opt >/dev/null || archives+=(portable.a)
for name in hw.a hw-arm64.a; do ! is_asked "$name" "$name" || archives+=("$name"); done
[ ${#archives[@]} -gt 0 ] || exit 0

scripts/prove.sh "$1" "${archives[@]}" || exit

[[ " ${archives[*]} " != *' arm64.a '* ]] || make -s library TARGET=aarch64-unknown-linux-gnu LIBRARY="$1/arm64" \
    ARCHIVE="$1/arm64.a" || rm -rf "$1/arm64"
# module ARCHIVE FILE: links the archive, if it was asked for.
module() {
    [[ " ${archives[*]} " != *" $1 "* ]] || { generate/module.sh "$directory/new.wasm" "$directory/$1" &&
        mv "$directory/new.wasm" "$directory/$2"; } || rm -f "$directory/new.wasm"
}
module wasm64.a keywrap.wasm
module portable.a portable.wasm
