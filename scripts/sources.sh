#!/bin/sh
# Writes the checksums of the sources in these directories of crates, or in all after a line for the kit on the PATH.
# `make build` records them beside the program.
#
# usage: scripts/sources.sh [crates/NAME..]
#        scripts/sources.sh --is-built            succeeds if `make build` or `make proofs` built the program of these
#                                                 sources, by the kit on the PATH if there is one
#        scripts/sources.sh --of-translation      prints the checksum that dist/command/program.c names, without Python

unset CDPATH
cd -- "${0%/*}/.." || exit
# b2sum --check ignores this line.
kit() {
    what=$(dirname -- "$(dirname -- "$(readlink -f -- "$(command -v rt)")")")/WHAT
    [ ! -f "$what" ] || b2sum <"$what" | sed 's/^/# kit /'
}

# is_built: by the content of the sources, since files from an archive keep their old times. If rt has built the program
# since, it is newer than the record. A new file only matters once a recorded file refers to it, and then that file has
# changed. A program that another kit built does not count: a kit is replaced if its prover was wrong.
is_built() {
    program=crates/keywrap/out/keywrap
    record=crates/keywrap/out/built_from
    # shellcheck disable=SC3013
    [ -x "$program" ] && [ ! "$program" -nt "$record" ] || return
    kit=$(kit)
    [ -z "$kit" ] || grep -qxF -e "$kit" "$record" || return
    b2sum --check --status "$record" 2>/dev/null
}

# below CRATE: the crate and all crates below it that have a directory here.
below() {
    awk -v left="$1" '
        /^[a-z]/ { name = $1; sub(/:$/, "", name); sub(/^[^:]*:/, ""); needs[name] = $0 }
        END {
            while (split(left, names) > 0) {
                left = ""
                for (number in names) {
                    if (!(names[number] in needs) || names[number] in found) continue
                    found[names[number]]
                    left = left " " needs[names[number]]
                }
            }
            for (name in found) print name
        }' crates.txt
}

# of_translation: the checksum over the path and the SHA-256 of each source of program.c, as generate/command.py orders
# them: by the parts of the path, so / comes before every other character.
of_translation() {
    {
        find generate -name __pycache__ -prune -o -name 'command*' -type f -print
        for crate in $(below keywrap); do
            find "crates/$crate/src" -name tests -prune -o -name '*.rt' ! -name '*tests*' -print
        done
    } | tr / '\001' | LC_ALL=C sort | tr '\001' / | xargs sha256sum |
        sed 's/^\([0-9a-f]*\)  \(.*\)$/\2 \1/' | sha256sum | cut -d ' ' -f 1
}

case ${1-} in
--is-built)
    is_built
    exit
    ;;
--of-translation)
    of_translation
    exit
    ;;
'') kit && set -- crates/* ;;
esac
exec find crates.txt "$@" -name out -prune -o -name must-fail -prune -o -type f -exec b2sum {} +
