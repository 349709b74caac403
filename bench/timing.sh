#!/bin/sh
# Measures whether the time of the library's calls depends on their inputs: see timing.c. An archive takes some minutes,
# on a processor that runs nothing else.
#
# usage: bench/timing.sh ARCHIVE..        (CALLS=10000000, the calls that are measured)
set -eu
here=$(dirname -- "$0")
workdir=$(mktemp -d)
trap 'rm -rf "$workdir"' EXIT
grep -m 1 'model name' /proc/cpuinfo || true
for archive; do
    ${CC:-cc} -std=gnu99 -O2 -Wall -Wextra "-I$here/../c/include" "$here/timing.c" "$archive" -lm -o "$workdir/timing"
    echo "$archive:"
    "$workdir/timing" "${CALLS:-10000000}"
done
