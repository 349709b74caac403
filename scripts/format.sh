#!/usr/bin/env bash
# Lays out all Python, C and bash of the repository by black, clang-format and shfmt. `rt fmt` does so for Rattle.
#
# usage: scripts/format.sh [--check]        with --check it changes nothing, and fails if a file would change

set -eu
cd "$(dirname "${BASH_SOURCE[0]}")/.."
git rev-parse --is-inside-work-tree >/dev/null

black=(black --quiet)
clang_format=(clang-format -i)
shfmt=(shfmt -i 4 -w)
if [ "${1-}" = --check ]; then
    black=(black --check)
    clang_format=(clang-format --dry-run --Werror)
    shfmt=(shfmt -i 4 -d)
fi

# Prints the tracked files whose first line names one of the given interpreters.
scripts_of() {
    git ls-files -z | xargs -0 awk -v interpreter="$1" \
        'FNR == 1 { if ($0 ~ "^#!.*" interpreter) print FILENAME; nextfile }' 2>/dev/null
}

mapfile -t python < <({ git ls-files '*.py' && scripts_of python3; } | sort -u)
mapfile -t shell < <({ git ls-files '*.sh' && scripts_of bash && scripts_of /sh; } | sort -u)
# Left out: generated files, the header of a released version, and the two public headers, where clang-format takes
# the macros before a prototype for its type.
mapfile -t c < <(git ls-files '*.c' '*.h' | grep -vxE \
    'dist/keywrap\.[ch]|dist/keywrap_steps\.h|dist/command/(aes\.c|program\.[ch])|tests/library/released/.*')

status=0
"${black[@]}" "${python[@]}" || status=1
"${clang_format[@]}" "${c[@]}" || status=1
"${shfmt[@]}" "${shell[@]}" || status=1
exit "$status"
