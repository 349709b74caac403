# shellcheck shell=bash disable=SC2034,SC2154
# Counts the rows of the scripts of tests/. Each row prints a line if it fails or
# cannot run here. `finish` is the last call of a script.

passed=0 failed=0 skipped=0

# verdict NAME PROBLEM: counts a row, and prints the start of the problem, if there is one.
verdict() {
    local problem=${2//$'\n'/ }
    [ -n "$2" ] || {
        passed=$((passed + 1))
        return
    }
    failed=$((failed + 1))
    echo "FAILED: $1: ${problem:0:600}"
    return 1
}

# row NAME COMMAND..: the command must succeed. If it fails, the start of its output is shown.
row() {
    if "${@:2}" >"$workdir/row.log" 2>&1; then passed=$((passed + 1)) && return; fi
    failed=$((failed + 1))
    echo "FAILED: $1"
    head -n 20 "$workdir/row.log"
    return 1
}

# needs PART TOOL..: whether these tools of tests/packages.txt are here. If not, the part is skipped.
needs() {
    local missing
    missing=$(lacks "${@:2}") || {
        verdict "$1" "$missing"
        return 1
    }
    [ -z "$missing" ] || { skipped=$((skipped + 1)) && echo "SKIPPED: $missing" && false; }
}

# finish: prints the counts, and is the status of the script.
finish() {
    echo "$passed passed, $failed failed, $skipped skipped"
    [ "$failed" = 0 ]
}

# same NAME LINES LINES: both have the same lines, in any order.
same() {
    verdict "$1" "$(diff <(echo "$2" | sort -u) <(echo "$3" | sort -u) |
        sed -n 's/^</only the first has/p; s/^>/only the second has/p')"
}

# until_true COMMAND..: waits until the command is true, for at most 300 seconds.
until_true() {
    local tries
    for ((tries = 0; tries < 6000; tries++)); do ! "$@" || return 0 && sleep 0.05; done
    return 1
}
