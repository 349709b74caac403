#!/bin/sh
# Builds the WebAssembly module. rt builds the exports, if no archive of them is given, and rattle-link links them into
# a module with 64-bit memory, since the kit has no other. wasm-opt turns it into a module with 32-bit memory, which
# every engine supports. `make dist-sources` calls it.
#
# usage: generate/module.sh FILE [ARCHIVE]

set -eu
rt=$(command -v rt) || { echo 'module.sh: no rt on the PATH: it needs the Rattle kit' >&2 && exit 1; }
wasm_opt=${WASM_OPT:-wasm-opt}
command -v "$wasm_opt" >/dev/null || { echo "module.sh: no $wasm_opt: apt-get install binaryen" >&2 && exit 1; }
mkdir -p -- "$(dirname -- "${1:?}")"
file=$(readlink -f -- "$1")
archive=${2:-crates/keywrap_wasm/out/libkeywrap_wasm.a}
cd -- "$(dirname -- "$0")/.."
kit=$(readlink -f -- "$rt")
kit=${kit%/bin/rt}
target=wasm64-unknown-unknown

workdir=$(mktemp -d)
trap 'rm -rf "$workdir"' EXIT
trap 'exit 1' HUP INT TERM
[ -n "${2-}" ] || (cd crates/keywrap_wasm && rt lib --target $target --backend llvm)

# A memory that never grows: the stack, which comes first, and twice the longest wrapped key.
"$kit/bin/rattle-link" --target $target --toolchain "$kit/toolchain" --memory 2228224 --stack 65536 \
    -o "$workdir/wide.wasm" "$archive"
# keywrap.js resets the state beside the memory, so the module has to export it.
"${wasm_opt%opt}dis" --enable-memory64 --enable-bulk-memory "$workdir/wide.wasm" -o "$workdir/wide.wat"
sed -i 's/^ (export "__heap_base" .*/&\
    (export "__stack_pointer" (global $__stack_pointer)) (export "__in_call" (global $in_call))/' "$workdir/wide.wat"
# The features that the module uses. A host needs the last two.
"$wasm_opt" --mvp-features --enable-memory64 --enable-bulk-memory --enable-mutable-globals --memory64-lowering \
    "$workdir/wide.wat" -o "$file"
