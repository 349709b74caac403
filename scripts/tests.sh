#!/usr/bin/env bash
# Runs the tests of tests/ by pytest, in parallel if pytest-xdist is installed; test_shell.py there runs those of *.sh.
# The last line counts what passed, failed and was skipped; out/skipped has what was skipped, and why. `make gate` sets
# KEYWRAP_ALL=1, which adds slow rows, and `make evidence` KEYWRAP_EVIDENCE=1, too, which adds all of them.
#
# usage: scripts/tests.sh [NAME..]        tests/test_NAME.py or tests/NAME.sh; all of them, if none is named
#        (KEYWRAP=PATH tries another program; KEYWRAP_BUILT=DIRECTORY takes the archives there, and builds missing ones)

set -u
cd "$(dirname "${BASH_SOURCE[0]}")/.." || exit
[ $# -gt 0 ] || set -- tests/test_*.py
files=()
for name in "$@"; do
    name=${name##*/} name=${name%.*}
    file=tests/test_${name#test_}.py
    [ ! -e "tests/$name.sh" ] || file="tests/test_shell.py::test_rows[$name]"
    files+=("$file")
done
# The tests share the program, so it is there before the first test.
program=${KEYWRAP:-$PWD/$(scripts/program.sh)} || exit
version=$("$program" --version) || exit
echo "testing $program: ${version//$'\n'/, }"
export KEYWRAP=$program
mkdir -p out && : >out/skipped || exit
# The first Python that has pytest: Debian's need not be the first on the PATH.
for python in "${PYTHON:-python3}" /usr/bin/python3; do
    "$python" -c 'import pytest' 2>/dev/null || continue
    parallel=() && ! "$python" -c 'import xdist' 2>/dev/null || parallel=(-n "$(nproc)")
    exec "$python" -m pytest "${parallel[@]}" --skipped=out/skipped --passed=out/passed "${files[@]}" </dev/null
done
bash tests/lib/tools.sh 'import pytest' 'import xdist' >out/skipped
printf '%s\n' "the tests need pytest: $(<out/skipped)" '0 passed, 0 failed, 1 skipped'
exit 1
