#!/bin/sh
# Runs a command, and shows the CSV that it writes. With BENCH=DIRECTORY it also writes it to DIRECTORY/NAME.csv, after
# lines with the processor, the date, the commit and the versions of the PACKAGEs of Debian that are measured beside
# keywrap. It refuses keys per second in which a rewrap is faster than its halves: the machine was busy.
#
# usage: bench/record.sh NAME 'PACKAGE..' COMMAND..

set -eu
name=$1 packages=$2
shift 2
csv=$("$@")
printf '%s\n' "$csv"
printf '%s\n' "$csv" | awk -F, '
    $4 + 0 > 0 { time[$1, $2] = 1 / $4 }
    $2 == "rewrap" { ways[$1] }
    END {
        for (way in ways) {
            wrap = time[way, "wrap"]; unwrap = time[way, "unwrap"]
            # A process starts once for a rewrap, and twice for its halves.
            least = way ~ /process/ ? (wrap > unwrap ? wrap : unwrap) : 0.8 * (wrap + unwrap)
            if (time[way, "rewrap"] < least) exit 1
        }
    }' || {
    echo 'bench/record.sh: a rewrap is faster than its unwrap and its wrap' >&2
    exit 1
}
[ -n "${BENCH:-}" ] && [ -n "$csv" ] || exit 0
mkdir -p -- "$BENCH"
# shellcheck disable=SC2086
cat >"$BENCH/$name.csv" <<END
# processor: $(sed -n 's/^model name[^:]*: //p' /proc/cpuinfo | head -n 1)
# date: $(date -u +%F)
# commit: $(git -C "$(dirname -- "$0")" rev-parse --short=12 HEAD 2>/dev/null || echo unknown)
# beside: $([ -z "$packages" ] || dpkg-query -W -f '${Package} ${source:Upstream-Version}, ' $packages | sed 's/, $//')
$csv
END
