#!/usr/bin/env bash
# Proves crates side by side with the kit, each after the crates below it, and builds the program or archives of the C
# library. What has not changed since the last time is not proved again: crates/keywrap/out/kept has the results.
#
# usage: scripts/prove.sh keywrap                  crates/keywrap/out/keywrap, and the record of its sources beside it
#        scripts/prove.sh DIRECTORY ARCHIVE..      archives of scripts/prove.mk there: tests/library/build.sh

set -eu
cd "$(dirname "${BASH_SOURCE[0]}")/.."
# rt locks the same directory while it works.
exec 8<crates/keywrap
flock -n 8 || { echo 'prove.sh: waiting for another build' >&2 && flock 8; }

directory='' archives='' above=keywrap
if [ "$1" = keywrap ]; then
    ! scripts/sources.sh --is-built || exit 0
    # The checksums come first: a source that changes meanwhile then differs from them.
    built_from=$(scripts/sources.sh)
    echo 'prove.sh: proving and building the program, 5 to 10 minutes the first time' >&2
else
    directory=$1 archives=${*:2} above='keywrap_[a-z]* staticlib'
fi
crates=''
for crate in $(sed -n "s/^$above: *//p" crates.txt); do
    # The kit has the crates without a directory.
    [[ ! -d crates/$crate || " $crates " == *" $crate "* ]] || crates+=" $crate"
done
# More than four gain little. Two more crates may be at work, since some take only the time that others leave.
jobs=$(nproc) && [ "$jobs" -le 4 ] || jobs=4

LOGS=$(mktemp -d)
export LOGS
# end: ends make, and so each rattle. In the background make ignores INT, so the signal is TERM.
end() {
    { kill "$!" && wait "$!"; } 2>/dev/null || :
    rm -rf "$LOGS"
}
trap end EXIT
trap 'exit 1' HUP INT QUIT TERM
# The options of a calling make are not for this make.
unset MAKEFLAGS GNUMAKEFLAGS MAKEFILES
# shellcheck disable=SC2086
make -f scripts/prove.mk -j "$((jobs + 2))" JOBS="$jobs" CRATES="$crates" ARCHIVES="$archives" ${archives:-keywrap} \
    >"$LOGS/make" 2>&1 </dev/null &
wait "$!" || {
    # A crate's log is there while it is not proved.
    logs=$(cd "$LOGS" && ls -- *.log 2>/dev/null) || logs=make
    for log in $logs; do echo "prove.sh: failed: ${log%.log}" && cat "$LOGS/$log"; done >&2
    exit 1
}

for name in $archives; do
    cp "crates/keywrap/out/kept/$name" "$directory/new" && mv "$directory/new" "$directory/$name"
done
if [ -z "$archives" ]; then
    # The record is complete once it has its name.
    printf '%s\n' "$built_from" >crates/keywrap/out/built_from.new
    mv crates/keywrap/out/built_from.new crates/keywrap/out/built_from
fi
