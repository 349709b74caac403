#!/usr/bin/env bash
# Proves keywrap_hw and builds its archive, in which the leaves are calls of C: see toolchain.sh. rt proves. It has no
# option for other tools, so rattle compiles what rt has kept. `make library HARDWARE=1` calls this.
#
# usage: generate/leaves.sh ARCHIVE TARGET

set -eu
rt=$(command -v rt) || { echo 'leaves.sh: no rt on the PATH: it needs the Rattle kit' >&2 && exit 1; }
kit=$(readlink -f -- "$rt")
kit=${kit%/bin/rt}
archive=$(readlink -f -- "${1:?}")
target=${2:?}
cd -- "$(dirname -- "$0")/.."

workdir=$(mktemp -d)
trap 'rm -rf "$workdir"' EXIT
trap 'exit 1' HUP INT TERM
generate/toolchain.sh "$workdir/toolchain"
cd crates/keywrap_hw
rt check --target "$target"
externs=(--extern "std=$kit/rlibs/std.rlib" -L dependency="$kit/rlibs")
for crate in $(sed -n 's/^keywrap_hw staticlib: *//p' ../../crates.txt); do
    externs+=(--extern "$crate=../$crate/out/rlib/$crate.rlib" -L dependency="../$crate/out/rlib")
done
"$kit/bin/rattle" build --crate-name keywrap_hw "${externs[@]}" \
    --antt-project "$kit/rattle/logic/antt-project.json" --logic-built "$kit/logic_built" --links keywrap_hw= \
    --crate-type staticlib --target "$target" --backend llvm --toolchain "$workdir/toolchain" \
    --incremental out/incremental -o "$archive" src/lib.rt
