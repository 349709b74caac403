#!/usr/bin/env bash
# Builds the WebAssembly module that keywrap.c is translated from: the exports of keywrap_portable, with an import for
# each leaf of aes_leaves. Nothing else uses it. `make dist-sources` calls this script.
#
# usage: generate/portable_module.sh FILE

set -eu
mkdir -p -- "$(dirname -- "${1:?}")"
file=$(readlink -f -- "$1")
cd -- "$(dirname -- "$0")/.."
workdir=$(mktemp -d)
trap 'rm -rf "$workdir"' EXIT
trap 'exit 1' HUP INT TERM
scripts/prove.sh "$workdir" portable.a
generate/module.sh "$file" "$workdir/portable.a"
