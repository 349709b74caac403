#!/usr/bin/env bash
# Runs the Makefile and its scripts with a fake rt and fake tests. Checks what is built, when it is built again, and
# that a failure never ends with status 0.
#
# usage: tests/make.sh

# shellcheck disable=SC2016,SC2086
set -u
# shellcheck source=tests/lib/stand_in.sh
. "${BASH_SOURCE[0]%/*}/lib/stand_in.sh"
# The paths of the archives are in one word of the environment, so this path has no space.
mkdir "$workdir/temporary"
export TMPDIR=$workdir/temporary

# The tests are those of a fake pytest, which records its arguments.
touch tests/test_{command,shell}.py tests/make.sh
install -m 755 /dev/stdin bin/tester <<'END_OF_TESTER'
#!/bin/bash
[ "$1" != -c ] || { [ "$2" != "import ${lacks:-}" ]; exit; }
echo "${*:2}${TESTS:+, the programs of $TESTS}${KEYWRAP_ALL:+, all rows}" >>"$tree/notes"
echo "${counts:-42 passed, 0 failed, 1 skipped}"
exit "${test_status:-0}"
END_OF_TESTER
export PYTHON=$PWD/bin/tester
# ends STATUS LAST COMMAND..: the command ends so, and its output with this line (any, if LAST is empty).
ends() {
    local status wanted=$1 last=$2
    "${@:3}" >wrote 2>err
    status=$?
    [ "$status" = "$wanted" ] || echo "status $status, not $wanted: $(tail -n 3 err)"
    [ -z "$last" ] || [ "$(tail -n 1 wrote)" = "$last" ] || echo "the last line is $(tail -n 1 wrote)"
}
# does NAME STATUS LAST COMMAND.. -- NOTE..: it ends so, and these are the notes, in any order.
does() {
    local name=$1 command=()
    shift
    while [ "$1" != -- ]; do command+=("$1") && shift; done
    : >notes
    verdict "$name" "$(ends "${command[@]}")"
    verdict "$name: what is done" "$(diff <(sort notes) <([ $# = 1 ] || printf '%s\n' "${@:2}" | sort))"
}

### make test

tests='pytest -n 4 --skipped=out/skipped --passed=out/passed'
of_all="$tests tests/test_command.py tests/test_shell.py"
fresh
does 'make test, the first use' 0 '42 passed, 0 failed, 1 skipped' make test -- compiled "$of_all"
row 'it names the program' grep -qxF "testing $tree/dist/keywrap: in C, 1 words: --version" wrote
does 'one file' 0 '42 passed, 0 failed, 1 skipped' scripts/tests.sh command -- "$tests tests/test_command.py"
does 'one script' 0 '42 passed, 0 failed, 1 skipped' scripts/tests.sh tests/make.sh -- \
    "$tests tests/test_shell.py::test_rows[make]"
lacks=xdist does 'without pytest-xdist' 0 '42 passed, 0 failed, 1 skipped' scripts/tests.sh command -- \
    'pytest --skipped=out/skipped --passed=out/passed tests/test_command.py'
counts='41 passed, 1 failed, 0 skipped' test_status=1 does 'a row that fails' 2 '41 passed, 1 failed, 0 skipped' \
    make test -- "$of_all"
fresh
append crates/aes_block/src/lib.rt
does 'make test, where dist/command is of other sources' 2 '' make test --
does 'the tests, where dist/command is of other sources' 70 '' scripts/tests.sh --
make -s build 2>row.log
does 'make test after make build' 0 '42 passed, 0 failed, 1 skipped' make test -- "$of_all"
row 'it names the program of the kit' grep -q "^testing $tree/$program: child of" wrote

### make gate, and what CI runs

# The fake rt builds the program as rt ci does.
ci='cd crates/keywrap'
in_gate=('a tree: ci' 'ends a tree' "$of_all, the programs of crates, all rows")
fresh
at='a tree' event=$ci does 'make gate' 0 '42 passed, 0 failed, 1 skipped' make gate -- "${in_gate[@]}"
same 'the gate comes first' 'a tree: ci' "$(head -n 1 notes)"
does 'the program after the gate' 5 '' ./keywrap --
verdict 'the program is by the compiler of make build' "$(tail -n 1 $program | grep -v 'by the other compiler$')"
counts='41 passed, 1 failed, 0 skipped' test_status=1 at='a tree' event=$ci does 'a gate whose tests fail' 2 \
    '41 passed, 1 failed, 0 skipped' make gate -- "${in_gate[@]}"
fresh
built="($ci && install -D ../../bin/nproc out/keywrap)"
at='a tree' event="$built; exit 1" does 'a gate that fails' 2 '' make gate -- 'a tree: ci'
verdict 'a gate that fails records nothing' "$(find crates -name 'built_from*')"

unset PYTHON

### What is made, and when again

# The fake compiler records its arguments, and copies the archive as the shared object. It records nothing of
# libkeywrap_hw, whose archive is a copy, too. The fake for Python makes a wheel of the right name, and the fake of
# binaryen makes its file.
install -m 755 /dev/stdin bin/linker <<'END_OF_LINKER'
#!/bin/sh
words="$* "
while [ "$1" != -o ]; do shift; done
case $words in *' -c '* | *_hw.so* | *' -static '*) echo >"$2" && exit ;; esac
echo linked >>"$tree/notes"
echo "$words" >"$tree/linked"
cp "${2%/*}/libkeywrap.a" "$2"
END_OF_LINKER
cp bin/linker bin/musl-gcc
for tools in '' aarch64-linux-gnu-; do
    printf '#!/bin/sh\n[ $# != 3 ] || cp "$2" "$3"\n' | install -m 755 /dev/stdin "bin/${tools}objcopy"
    printf '#!/bin/sh\nto=$3\nwhile [ $# != 1 ]; do shift; done\ncp "$1" "$to"\n' |
        install -m 755 /dev/stdin "bin/${tools}ld"
    printf '#!/bin/sh\ncp "$3" "$2"\n' | install -m 755 /dev/stdin "bin/${tools}ar"
done
install -m 755 /dev/stdin bin/python <<'END_OF_PYTHON'
#!/bin/sh
[ "$1" = -m ] || exit 0
[ -z "${no_wheel:-}" ] || { echo "no wheel here" && exit 1; }
mkdir -p "$6"
name=keywrap-1.2.3.dev0
[ "$3" != --sdist ] || { mkdir "$6/$name" && tar -C "$6" -czf "$6/$name.tar.gz" $name; exit; }
[ "${7##*/}" != rotation ] || { echo wheel >"$6/keywrap_rotate-1.2.3.dev0-py3-none-any.whl" && exit; }
echo wheel >"$6/keywrap-1.2.3.dev0-cp39-abi3-$(sed -n 's/^plat_name = //p' "$7/setup.cfg").whl"
END_OF_PYTHON
printf '#!/bin/sh\nwhile [ "$1" != -o ]; do shift; done\necho wasm >"$2"\n' | install -m 755 /dev/stdin bin/wasm-opt
cp bin/wasm-opt bin/wasm-dis
export PYTHON=bin/python CC=linker
# libkeywrap_hw is made of an archive that is there: the fake rt has no compiler for the leaves.
echo 'the exports, which call keywrap_aes_available' >hw.a
make='make -s LIBRARY=library DIST=packed DESTDIR=stage/ PREFIX=usr HW_ARCHIVE=hw.a'
linked=('keywrap_c: lib' 'ends keywrap_c' linked)
rm -r crates/*/out
rebuilds "$make wheel && cmp library/python/libkeywrap_hw.a hw.a" "${linked[@]}" <<<true
rebuilds "$make install && cmp stage/usr/bin/keywrap $program && cmp stage/usr/lib/libkeywrap.so $archive" \
    "${steps[@]}" "${linked[@]}" <<<'append crates/aes_block/src/lib.rt'
same 'make install keeps to DESTDIR and PREFIX' $'bin\ninclude\nlib\nshare' "$(ls stage/usr)"
verdict 'make uninstall leaves nothing' "$(
    $make uninstall
    find stage ! -type d
)"
rebuilds "$make dist-command dist-library wheel && cat packed/*.tar.gz | tar -xzif - &&
    cmp keywrap-1.2.3-dev-*/bin/keywrap $program && cmp keywrap-library-1.2.3-dev-*/lib/libkeywrap.so $archive &&
    cmp library/python/libkeywrap_hw.a hw.a" "${steps[@]:2}" "${linked[@]}" <<<'append crates/aes_block/src/lib.rt'
rebuilds "$make library" "${linked[@]}" <<END_OF_CHANGES
append crates.txt
append crates/keywrap_c/proofs/part/Answers.antt
append c/include/keywrap.map
rm -r crates/block_pair/specs
rm library/libkeywrap.a
append crates/block_pair/src/lib.rt; at=keywrap_c event='echo other >>src/lib.rt' $make library
append crates/block_pair/src/lib.rt; at=keywrap_c event='exit 1' $make library
END_OF_CHANGES
rebuilds "$make library ARCHIVE=another.a" linked <<<'rm -r library; append another.a'

# The flags, and the flags of a library that was built with others.
flags="CPPFLAGS=-DX CFLAGS=-O1 LDFLAGS=-Wl,-x"
rebuilds "$make library $flags && grep -q -- '-O1 -Wl,-x ' linked" "${linked[@]}" <<<"$make library"
for goal in provider examples; do
    row "the flags of make $goal" \
        eval "$make $goal PROVIDER=provider EXAMPLES=built $flags; grep -- '-DX -O1 -Wl,-x ' linked"
done
$make library

rm -r library && $make wheel >row.log 2>&1
echo 'gone from the sources' >library/python/gone.py
$make wheel >row.log 2>&1
verdict 'the wheel has only the sources' "$(diff -r -x README.md -x ROTATION.md -x build -x '*.egg-info' -x '*.so' \
    library/python python |
    grep -vE '^Only in library/python: (VERSION|command|keywrap(_steps)?.h|libkeywrap_hw.a|setup.cfg)$')"
# What Python and `pip install` leave in the sources.
mkdir -p python/{build/lib,src/keywrap.egg-info,src/keywrap/__pycache__}
touch python/build/lib/gone.py python/src/keywrap.egg-info/SOURCES.txt
touch python/src/keywrap/{_ffi.abi3.so,__pycache__/gone}
$make wheel >row.log 2>&1
same 'the wheel has nothing that pip left' '' \
    "$(find library/python -name build -o -name '*.egg-info' -o -name '*.so' -o -name __pycache__)"
rm -r python/build python/src/keywrap.egg-info python/src/keywrap/{_ffi.abi3.so,__pycache__}
for prefix in '/opt/R&D' '/opt/a|b' '/opt/a\1b' '/opt/a/b'; do
    $make install-library PREFIX="$prefix"
    same "PREFIX='$prefix'" "prefix=$prefix" "$(head -n 1 "stage/$prefix/lib/pkgconfig/keywrap.pc")"
done

mkdir plain && ln -s /usr/bin/* plain && rm -f plain/python3
PATH=$tree/plain does 'make install-command without python3' 2 '' $make install-command DESTDIR=nothing/ --
row 'it says what to install' grep -q 'no python3: apt-get install python3' err
row 'it installs nothing' [ ! -e nothing ]
rm -r plain

### For another machine

arm=TARGET=aarch64-unknown-linux-gnu
for_arm="$make $arm CC=\"\$CC\""
linked_for_arm=("keywrap_c: lib --target ${arm#*=}" 'ends keywrap_c' linked)
rebuilds "$for_arm library && cmp $archive kept && ! cmp -s $archive library/libkeywrap.a" \
    "${linked_for_arm[@]}" <<<"rm -r library; echo kept | tee kept >$archive"
rebuilds "$for_arm library && [ ! -e $archive ]" "${linked_for_arm[@]}" <<<"rm -r library $archive"
rebuilds "$make library && cmp $archive library/libkeywrap.a" "${linked[@]}" <<<"$for_arm library"

# refused LINE WORD..: make says so on one line, and begins nothing.
refused() {
    : >notes
    ! $make "${@:2}" >output 2>&1 && [ "$(wc -l <output)" = 1 ] && grep -qF -e "$1" output && [ ! -s notes ]
}
for words in 'library TARGET=aarch64' 'dist TARGET=' "wheel TARGET=%"; do
    # shellcheck disable=SC2086
    row "make $words" refused "is none of x86_64-unknown-linux-gnu and ${arm#*=}" $words
done
for goal in build test gate install install-command dist-command bench; do
    row "make $goal $arm" refused "make $goal: the program is only for x86-64" dist $goal $arm
done
row 'a directory of its own' grep -q " out/library-${arm#*=}/libkeywrap.a" <(make -s help $arm 2>/dev/null)
row 'make wheel, without its Python' grep -q "packaging/sysroot.sh 'none' " \
    <(eval "$for_arm wheel SYSROOT=none" 2>&1)

### All that is handed out

# The files that make dist packs are in tests/handed_out.txt.
x86=TARGET=x86_64-unknown-linux-gnu
wasm=('keywrap_wasm: lib --target wasm64-unknown-unknown --backend llvm' 'ends keywrap_wasm')
mkdir -p sysroot/usr/include/{,aarch64-linux-gnu/}python3.11
all='make -s DIST=packed CC=linker SYSROOT=sysroot HW_ARCHIVE=hw.a'
rm -r packed
fresh
does 'make dist' 0 packed/SHA256SUMS $all dist -- "${steps[@]}" "${linked[@]}" "${linked_for_arm[@]}"
does 'make dist, again' 0 packed/SHA256SUMS $all dist --
rm -r packed
does 'make dist for one machine' 0 packed/SHA256SUMS $all dist $arm --
# keeps_sums COMMAND..: fails, and the old checksums stay, whole.
keeps_sums() {
    cp packed/SHA256SUMS old.sums
    "$@"
    [ $? = 2 ] && cmp old.sums packed/SHA256SUMS
}
mkdir packed/list.new
row 'make dist, if the lists cannot be written' keeps_sums $all dist $arm
rmdir packed/list.new
no_wheel=1 row 'make dist, if a file is not packed' keeps_sums $all dist $arm
verdict 'make dist leaves nothing in the directory of temporary files' "$(ls "$TMPDIR")"
# A missing tool is named before anything is built.
fresh
while IFS=: read -r lacks says; do
    does "make dist $lacks" 2 '' $all dist $lacks --
    row "make dist $lacks: what to install" grep -q "$says" err
done <<'END_OF_LACKS'
CC=none:no none: apt-get install
SYSROOT=none:packaging/sysroot.sh 'none'
PYTHON=false:apt-get install python3
END_OF_LACKS
does 'make dist-sources, without wasm-opt' 2 '' $make dist-sources WASM_OPT=none --
row 'make dist-sources, without wasm-opt: what to install' grep -q 'no none: apt-get install binaryen' err
does 'make js' 0 "$PWD/out/js" $make js --
mkdir -p "${archive%/*}" && echo kept | tee kept.a >$archive
# The modules of the program and of keywrap.c need the kit's LLVM: tests/test_command.py and tests/test_portable.py
# compare them with what is kept.
echo ':' | tee generate/command_module.sh >generate/portable_module.sh
does 'make dist-sources' 0 '' $make dist-sources -- "${steps[@]}" "${wasm[@]}"
verdict 'make dist-sources leaves the archive of the C library' "$(cmp $archive kept.a 2>&1)"
rm $archive kept.a

### What fails

rm -r stage packed
{
    ./keywrap --version
    $make library
} >/dev/null 2>&1
does 'no wheel' 2 '' $make wheel PYTHON=false --
no_wheel=1 does 'a wheel that cannot be built' 2 '' $make wheel --
verdict 'it is not named, and what the build wrote is shown' \
    "$(
        grep whl wrote
        grep -qx 'no wheel here' err || cat err
    )"
no_wheel=1 does 'nor is one packed' 2 '' $make dist $x86 --
verdict 'no checksums of it' "$(ls packed/SHA256SUMS 2>/dev/null)"
rm -r packed
CC=false does 'no linker' 2 '' $make library LIBRARY=other -- 'keywrap_c: lib' 'ends keywrap_c'
verdict 'no linker: what is recorded' "$(ls other/built_from 2>/dev/null)"
does 'no program to pack' 2 '' $make -o build dist-command PROGRAM=missing --
does 'no library to pack' 2 '' $make -o library -o wheel dist-library LIBRARY=missing --
verdict 'nothing is packed' "$(find packed -type f 2>/dev/null)"
echo 'the exports over the proved leaves' >other.a
does 'libkeywrap_hw of an archive without C' 2 '' $make library-hardware HW_ARCHIVE=other.a LIBRARY=other --
row 'it is named' grep -q '^other.a: no call of the AES in C' err
verdict 'libkeywrap_hw of an archive without C: what is built' \
    "$(ls other/libkeywrap_hw.a other/hw_built_from 2>/dev/null)"
for target in build install install-command "dist $x86" dist-command bench; do
    append crates/aes_block/src/lib.rt
    at=aes_block event='exit 1' does "make $target, where a crate is not proved" 2 '' $make $target -- "${steps[2]}"
done
for target in library wheel install-library dist-library dist-wheel; do
    append crates/aes_block/src/lib.rt
    at=keywrap_c event='exit 1' does "make $target, where the exports are not proved" 2 '' $make $target -- \
        "${linked[0]}"
done
verdict 'nothing is installed or packed' "$(find packed stage -type f 2>/dev/null)"

mkdir -p out/library && make -s clean
verdict 'make clean' "$(
    ls -d out crates/*/out 2>/dev/null
    for crate in crates/*/; do [ -f "$crate/src/lib.rt" ] ||
        echo "$crate"; done
)"

finish
