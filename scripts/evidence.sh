#!/usr/bin/env bash
# Runs what takes too long for the gate, before a release. For each line of tests/evidence.txt it writes
# docs/evidence/VERSION/NAME: what was tried, with its SHA-256, and the end of the output, without lines that begin with
# [. If one fails, the others run nevertheless, and the exit status is 1.
#
# usage: scripts/evidence.sh [NAME..]        only these lines, if one is named
#        scripts/evidence.sh --stale         runs nothing, and prints the names of which something was changed since

set -euo pipefail
cd "$(dirname "${BASH_SOURCE[0]}")/.."

# tried PATH..: the SHA-256 of each file, and of the list of checksums of a directory's files that git knows.
tried() {
    local path
    for path in "$@"; do
        if [ -f "$path" ]; then sha256sum "$path"; else
            git ls-files -z -- "$path" | xargs -0 sha256sum | sha256sum | sed "s|-$|$path|"
        fi
    done
}

# PyPy takes less than half the time.
checker() { "$(command -v pypy3 || echo python3)" -B "$@"; }
all_inputs() { checker dist/check/all_inputs/check.py "$1" "${2:-full}" "$(nproc)"; }
sweep() { checker tests/all_inputs/sweeps.py "$1" 20; }
export -f checker all_inputs sweep
export KEYWRAP_ALL=1 KEYWRAP_EVIDENCE=1

stale='' failed=''
[ "${1:-}" != --stale ] || { stale=yes && shift; }
# Between two versions it is of the next one.
evidence=docs/evidence/$(sed 's/-dev$//' VERSION)
[ -n "$stale" ] || mkdir -p out "$evidence"
while IFS='|' read -r name paths command <&3; do
    [ $# = 0 ] || [[ " $* " = *" $name "* ]] || continue
    # shellcheck disable=SC2086
    sums=$(tried $paths)
    if [ -n "$stale" ]; then
        [ "$sums" = "$(sed '/^$/,$d' "$evidence/$name" 2>/dev/null)" ] || echo "$name"
        continue
    fi
    echo "$name: $command"
    output=$(bash -c "$command" 2>&1) || { echo "$output" && echo "evidence: $name failed" && failed=yes && continue; }
    printf '%s\n\n%s\n\n%s\n' "$sums" "$command" "$(sed '/^\[/d' <<<"$output" | tail -n 240)" >"$evidence/$name"
done 3< <(sed -n 's/ *| */|/g; /^[^#]/p' tests/evidence.txt)
[ -z "$failed" ]
