# shellcheck shell=bash disable=SC2034,SC2154
# A small tree of this repository, which is also a fake kit: its rt and rattle prove nothing and record their calls.
# Sourced, it goes to the tree, whose path holds a space, and whose rt is the first on the PATH. Its cc, the fake
# compiler of the program in C, records its calls, too.
#
# SH=PATH has another shell than /bin/sh run the launcher.

# shellcheck source=tests/lib/workdir.sh
. "${BASH_SOURCE[0]%/*}/workdir.sh"

mkdir -p 'a tree'/{bin,tmp,tests/library,crates} && cd 'a tree' || exit
cp -R "$root"/{.ci,keywrap,Makefile,c,command,packaging,generate,scripts,python,rotation,docs,java} .
cp -R "$root"/{js,dist,theory} "$root"/{SECURITY,CHANGELOG}.md .
rm -f dist/keywrap dist/keywrap.built_from
cp "$root/tests/library/build.sh" tests/library
# The completions are made of its tables.
cp -R "$root/crates/keywrap_args" crates
sed -i "1s|.*|#!${SH:-/bin/sh}|" keywrap scripts/program.sh scripts/sources.sh
# crates LINE..: writes crates.txt, and makes a directory for each crate that has none yet.
crates() {
    local crate
    printf '%s\n' "$@" >crates.txt
    for crate in "${@%%[: ]*}"; do
        [ -d "crates/$crate" ] && continue
        mkdir -p "crates/$crate"/{src,specs,proofs/part,must-fail}
        echo first | tee "crates/$crate"/{src/lib.rt,specs/Lib.antt,proofs/part/Answers.antt,must-fail/edit} >/dev/null
    done
}
crates block_pair: 'aes_block: block_pair byteorder' 'keywrap_c staticlib: block_pair aes_block' \
    'keywrap_wasm staticlib: block_pair aes_block' \
    'keywrap: block_pair aes_block clap'
# translate: dist/command is the translation of these crates.
translate() {
    printf '/*\n * Of the sources %s.\n */\n' "$(python3 generate/command.py --sources)" >dist/command/program.c
}
translate
echo 1.2.3-dev >VERSION
program=crates/keywrap/out/keywrap archive=crates/keywrap_c/out/libkeywrap_c.a
export tree=$PWD helpers=$root/tests/lib/expect.sh PATH=$PWD/bin:$PATH TMPDIR=$PWD/tmp TERM=xterm processors=4
unset MAKEFLAGS MAKELEVEL TESTS KEYWRAP KEYWRAP_ARCHIVES KEYWRAP_BUILT KEYWRAP_ALL
exec 9<&-

# The fake rt and rattle: in the crates that the pattern $at names they run $event, with $launcher as the process above
# their make. Each program and archive that they build is another. The program prints its caller and its arguments, and
# the path of descriptor 9 if it is open. The notes have two of rattle's words, and the file words.CRATE has all.
install -m 755 /dev/stdin bin/rt <<'END_OF_RT'
#!/bin/bash
. "$helpers"
crate=${PWD##*/} words=$* output=out/keywrap
[[ " $words " != *' --help '* ]] ||
    { echo "${takes:---statements --links --antt-project --logic-built --backend}" && exit; }
if [ "${0##*/}" = rattle ]; then
    printf '%s\n' "$@" >"$tree/words.$crate"
    [[ $words =~ (--jobs [0-9]+).* ]] && words="$1 ${BASH_REMATCH[1]}"
    output=$(grep -oP -- ' -o \K\S+' <<<"$*")
fi
launcher=$(sed -n 's/^PPid:\t//p' /proc/$PPID/status)
# begun N: N crates began.
begun() {
    local line count=0
    while read -r line; do [[ $line != *': '* ]] || count=$((count + 1)); done <"$tree/notes"
    [ $count -ge "$1" ]
}
trap 'echo "ended $crate" >>"$tree/notes"; exit 143' INT TERM
echo "$crate: $words" >>"$tree/notes"
echo "the first line of $crate"
echo 'the second line' >&2
[[ ! $crate =~ ^(${at:-})$ ]] || eval "$event"
install -D -m 755 /dev/stdin "$output" <<END_OF_PROGRAM
#!/bin/sh
echo "child of \$PPID, \$# words: \$*"; readlink /proc/\$\$/fd/9
[ "\$1" = --version ] || exit 5
# $(date +%N)
END_OF_PROGRAM
[ "${0##*/}" != rt ] || cp out/keywrap "out/lib$crate.a"
[ "$1" != ci ] || sed '$ s/$/ by the other compiler/' out/keywrap | install -m 755 /dev/stdin out/keywrap.by-rattle
echo "ends $crate" >>"$tree/notes"
END_OF_RT
cp bin/rt bin/rattle && echo 'archive 0123' >WHAT && echo 'rattle-kit-one logic two' >KIT-ID
install -m 755 /dev/stdin bin/rattle-link <<'END_OF_LINK'
#!/bin/sh
printf '%s\n' "$@" >"$tree/words.link"
while [ "$1" != -o ]; do shift; done
install -m 755 "$3" "$2"
END_OF_LINK
# It fails if there is a file `broken`.
install -m 755 /dev/stdin bin/cc <<'END_OF_CC'
#!/bin/sh
[ ! -e "$tree/broken" ] || { echo 'error: of the compiler' >&2 && exit 1; }
while [ "$1" != -o ]; do shift; done
[ "$2" != keywrap ] || echo compiled >>"$tree/notes"
printf '#!/bin/sh\necho "in C, $# words: $*"; readlink /proc/$$/fd/9\n[ "$1" = --version ] || exit 5\n' >"$2"
chmod +x "$2"
END_OF_CC
install -m 755 /dev/stdin bin/nproc <<'END_OF_NPROC'
#!/bin/sh
echo "$processors"
END_OF_NPROC

fresh() { rm -rf crates/*/out && : >notes; }
# append FILE: changes it.
append() { echo other >>"$1"; }
# noted NAME NOTE..: these are the notes, in this order.
noted() { verdict "$1: what is built" "$(diff notes <([ $# = 1 ] || printf '%s\n' "${@:2}"))"; }
# rebuilds COMMAND NOTE..: after each change that a line of its input makes, the command has this done, and
# not a second time. The sources are old, as what comes out of an archive is.
rebuilds() {
    local change
    while read -r change; do
        eval "$change" >/dev/null 2>&1
        find crates.txt c/include crates/*/{src,specs,proofs} -exec touch -d 2020-01-01 {} + 2>/dev/null
        : >notes
        row "$1, twice after $change" eval "$1 && echo again >>notes && $1"
        noted "$1, twice after $change" "${@:2}" again
    done
}

steps=('block_pair: build --jobs 1' 'ends block_pair' 'aes_block: build --jobs 1' 'ends aes_block'
    'keywrap: build --jobs 4' 'ends keywrap')
