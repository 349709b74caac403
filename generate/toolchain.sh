#!/usr/bin/env bash
# Makes a directory of tools for rattle, whose clang calls C in the place of the leaves of aes_leaves: substitute.py.
# The other tools are the kit's. rattle gives clang an empty environment.
#
# usage: generate/toolchain.sh DIRECTORY

set -eu
rt=$(command -v rt) || { echo 'toolchain.sh: no rt on the PATH: it needs the Rattle kit' >&2 && exit 1; }
kit=$(readlink -f -- "$rt")
kit=${kit%/bin/rt}
tools=$kit/toolchain/bin
mkdir -p -- "${1:?}/bin"
directory=$(readlink -f -- "$1")
here=$(cd -- "$(dirname -- "$0")" && pwd)

ln -sfn "$kit/toolchain/lib" "$directory/lib"
for tool in "$tools"/*; do ln -sf "$tool" "$directory/bin"; done
rm "$directory/bin/clang"
{
    echo '#!/bin/bash -e'
    printf '%s=%q\n' clang "$tools/clang" python "$(command -v python3)" substitute "$here/substitute.py" \
        directory "$directory"
    cat <<'END_OF_CLANG'
module= target=
for word; do
    case $word in
    *.bc) module=$word ;;
    --target=*) target=$word ;;
    esac
done
if [ -n "$module" ]; then
    workdir=$(/usr/bin/mktemp -d "$directory/module.XXXXXX")
    trap '/bin/rm -r "$workdir"' EXIT
    "$clang" "$target" -x ir -S -emit-llvm -Xclang -disable-llvm-passes "$module" -o "$workdir/before.ll"
    "$python" "$substitute" "$workdir/before.ll" "$workdir/after.ll"
    "$clang" "$target" -x ir -c -emit-llvm -Xclang -disable-llvm-passes "$workdir/after.ll" -o "$module"
fi
"$clang" "$@"
END_OF_CLANG
} >"$directory/bin/clang"
chmod +x "$directory/bin/clang"
