#!/bin/sh
# Prints the path of the program that ./keywrap runs and `make test` tests, from the top of the repository: the program
# that `make build` proved and built of these sources, or else the program in C, dist/keywrap, which is compiled first
# if that was not done yet. If dist/command was not made of these crates there is no program, and the exit status is 70:
# so nobody runs or tests an old one unawares.

unset CDPATH
cd -- "${0%/*}/.." || exit 70

stop() {
    echo "keywrap: $1" >&2
    exit 70
}

# is_current: dist/command was made of these crates. A copy of dist/ without crates is compared with nothing.
is_current() {
    [ ! -f crates.txt ] || grep -qxF " * Of the sources $(scripts/sources.sh --of-translation)." dist/command/program.c
}

# is_compiled: dist/keywrap was compiled from what is in dist/, by its content: files from an archive keep their old
# times. dist/Makefile makes the record before it compiles.
is_compiled() (
    cd dist && [ -x keywrap ] && cksum Makefile command/* | cmp -s - keywrap.built_from
) 2>/dev/null

# take_turn: waits until no other launcher compiles. They lock descriptor 9.
take_turn() {
    command -v flock >/dev/null || return 0
    flock -n 9 || { echo 'keywrap: waiting for another build' >&2 && flock 9; }
}

compile() {
    compiler=${CC:-cc}
    for tool in make "${compiler%% *}"; do
        command -v "$tool" >/dev/null || stop "not built yet, and $tool, which builds it, is not on the PATH"
    done
    echo 'keywrap: building the translation in C (dist/command), 20 seconds the first time' >&2
    jobs=$(nproc 2>/dev/null) || jobs=2
    # The options of a calling make are not for this make.
    output=$(unset MAKEFLAGS GNUMAKEFLAGS MAKEFILES && exec make -B -j "$jobs" -C dist keywrap 2>&1 </dev/null) || {
        printf '%s\n' "$output" >&2
        stop 'the build failed: dist/'
    }
}

if scripts/sources.sh --is-built; then
    echo crates/keywrap/out/keywrap
    exit
fi
is_current || stop 'dist/command is not the translation of these crates: `make build` proves and builds them, and
  `make dist-command-sources` also writes dist/command again; both need the kit'
is_compiled || { { take_turn && is_compiled; } || compile; } 9<dist
echo dist/keywrap
