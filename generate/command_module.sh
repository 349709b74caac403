#!/usr/bin/env bash
# Builds the program as a WebAssembly module with 64-bit memory, which imports the functions of the system that the
# program calls, and the leaves of AES that it uses. `make dist-sources` calls it.
#
# The kit makes modules only of static libraries, and only gives `main` what opens files. So rattle proves the program
# and builds it for x86-64 as always, but with a directory of tools whose clang keeps the module of LLVM and compiles
# nothing. That module has no instruction of x86-64, and it states each offset in bytes: command_module.py checks both
# and changes the target.
#
# usage: generate/command_module.sh FILE

set -eu
rt=$(command -v rt) || { echo 'command_module.sh: no rt on the PATH: it needs the Rattle kit' >&2 && exit 1; }
mkdir -p -- "$(dirname -- "${1:?}")"
file=$(readlink -f -- "$1")
cd -- "$(dirname -- "$0")/.."
kit=$(readlink -f -- "$rt")
kit=${kit%/bin/rt}
tools=$kit/toolchain/bin

workdir=$(mktemp -d)
trap 'rm -rf "$workdir"' EXIT
trap 'exit 1' HUP INT TERM
mkdir -p "$workdir/toolchain/bin"
ln -s "$kit/toolchain/lib" "$workdir/toolchain/lib"
for tool in "$tools"/*; do ln -s "$tool" "$workdir/toolchain/bin"; done
rm "$workdir/toolchain/bin/clang"
# rattle gives it an empty environment.
cat >"$workdir/toolchain/bin/clang" <<CLANG
#!/bin/sh
before=
for word; do
    case \$word in *.bc) cp "\$word" '$workdir/module.bc' || exit ;; esac
    [ "\$before" != -o ] || : >"\$word"
    before=\$word
done
CLANG
chmod +x "$workdir/toolchain/bin/clang"

# The crates below the program, as the launcher proves and keeps them.
./keywrap --version >/dev/null
kept=../keywrap/out/kept
externs=(--extern "std=$kit/rlibs/std.rlib")
for crate in $(sed -n 's/^keywrap: *//p' crates.txt); do externs+=(--extern "$crate=$kept/$crate.rlib"); done
(cd crates/keywrap && "$kit/bin/rattle" build --crate-name keywrap "${externs[@]}" -L dependency="$kit/rlibs" \
    -L dependency="$kept" --antt-project "$kit/rattle/logic/antt-project.json" --logic-built "$kit/logic_built" \
    --links keywrap= --backend llvm --cpu=x86-64 --toolchain "$workdir/toolchain" -o "$workdir/none" src/main.rt)

target=wasm64-unknown-unknown
"$tools/clang" -x ir -S -emit-llvm -Xclang -disable-llvm-passes "$workdir/module.bc" -o "$workdir/native.ll"
echo 'long one;' | "$tools/clang" --target=$target -x c -S -emit-llvm - -o "$workdir/target.ll"
python3 generate/command_module.py "$workdir/native.ll" "$workdir/target.ll" "$workdir/module.ll"
"$tools/clang" --target=$target -mcpu=lime1 --no-default-config -no-canonical-prefixes -Werror \
    -ffunction-sections -fdata-sections -x ir -Os -Xclang -fmerge-functions \
    -c "$workdir/module.ll" -o "$workdir/module.o"
ln -s "$tools/ld.lld" "$workdir/wasm-ld"
"$workdir/wasm-ld" -mwasm64 --no-entry --allow-undefined --export=main --gc-sections -z stack-size=1048576 \
    --stack-first -O2 "$workdir/module.o" -o "$file"
