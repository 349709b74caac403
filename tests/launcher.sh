#!/usr/bin/env bash
# Runs the launcher keywrap and `make build` with a fake compiler and a fake kit, which prove nothing and record their
# calls. Checks which program is run, what is built, in which order, and when it is built again; the messages and their
# streams; and the files that are left.
#
# usage: tests/launcher.sh
# SH=PATH tests/launcher.sh has another shell than /bin/sh run the launcher.

# shellcheck disable=SC2016
set -u
# shellcheck source=tests/lib/stand_in.sh
. "${BASH_SOURCE[0]%/*}/lib/stand_in.sh"
needs 'the launcher' pgrep /proc || {
    finish
    exit
}
# No script is run after the gate.
printf '#!/bin/sh\n' >scripts/tests.sh

# launch ARGUMENT..: runs the launcher. build: proves and builds the program, as `make build` does. A signal that this
# script ignores would be ignored by them, too.
launch() {
    /usr/bin/env --default-signal "$tree/keywrap" "$@" >out 2>err
    status=$?
}
build() {
    /usr/bin/env --default-signal scripts/prove.sh keywrap >out 2>err
    status=$?
}
# left: what a run left: temporary files, a rattle, a make over this tree. A process that the fake rattle had just
# started when it was ended, such as a grep, ends by itself.
left() {
    local make tries
    ls tmp
    for ((tries = 0; tries < 20; tries++)); do
        pgrep -f "$tree/bin/rattle" >/dev/null || break
        sleep 1
    done
    pgrep -af "$tree/bin/rattle"
    for make in $(pgrep -f scripts/prove.mk); do
        [ "$(readlink "/proc/$make/cwd")" != "$tree" ] || echo "make $make"
    done
    find crates -name 'built_from.*'
}
# ended NAME STATUS ANSWER LINES NOTE..: the run ended like this, and left no process and no file.
order=(:)
ended() {
    LC_ALL=C "${order[@]}"
    verdict "$1" "$(
        [ "$status" = "$2" ] || echo "status $status, not $2"
        diff out <(printf %s "$3")
        diff err <(printf %s "${4:+$4$'\n'}")
    )"
    noted "$1" "${@:5}"
    verdict "$1: what is left" "$(left)"
}

### The program in C

compiles='keywrap: building the translation in C (dist/command), 20 seconds the first time'
stale='keywrap: dist/command is not the translation of these crates: `make build` proves and builds them, and
  `make dist-command-sources` also writes dist/command again; both need the kit'
mkdir plain && ln -s /usr/bin/* plain && rm -f plain/cc plain/rt plain/make
fresh
PATH=$tree/plain launch
ended 'no make' 70 '' 'keywrap: not built yet, and make, which builds it, is not on the PATH'
ln -s "$(command -v make)" plain
PATH=$tree/plain launch
ended 'no cc' 70 '' 'keywrap: not built yet, and cc, which builds it, is not on the PATH'
ln -s ../bin/cc plain/cc
PATH=$tree/plain launch a 'b c'
ended 'without the kit' 5 'in C, 2 words: a b c'$'\n' "$compiles" compiled
PATH=$tree/plain launch a
ended 'without the kit, again' 5 'in C, 1 words: a'$'\n' '' compiled
: >notes
append dist/command/host.c
launch a
ended 'with a kit, and after a change' 5 'in C, 1 words: a'$'\n' "$compiles" compiled
: >notes
append dist/command/host.c
make -s -C dist keywrap
launch a
ended 'after make in dist' 5 'in C, 1 words: a'$'\n' '' compiled
: >notes
append dist/command/host.c
touch broken
launch
verdict 'the compiler fails' "$(
    [ "$status" = 70 ] || echo "status $status"
    grep -q '^error: of the compiler' err || cat err
    tail -n 1 err | grep -vx 'keywrap: the build failed: dist/'
)"
rm broken
MAKEFLAGS=n GNUMAKEFLAGS=n launch a
ended 'after the compiler failed, below another make' 5 'in C, 1 words: a'$'\n' "$compiles" compiled
append crates/aes_block/specs/Lib.antt
launch a
ended 'another definition' 5 'in C, 1 words: a'$'\n' '' compiled
append crates/aes_block/src/lib.rt
launch a
ended 'another source' 70 '' "$stale" compiled
translate
launch --version
ended 'the translation of this source' 0 'in C, 1 words: --version'$'\n' "$compiles" compiled compiled
mv crates.txt away
append crates/aes_block/src/lib.rt
launch a
ended 'without a list of crates' 5 'in C, 1 words: a'$'\n' '' compiled compiled
mv away crates.txt
translate

# Another launcher begins while this one is at work: it waits, and then runs the same program.
: >notes
rm dist/keywrap
cat >two.mk <<'END_OF_TWO'
cc:
	cd '$(tree)' && { ./keywrap --version >second 2>&1 9<&- & } && \
	    for try in $$(seq 600); do ! grep -qs waiting second || break; sleep 0.1; done
END_OF_TWO
mkdir two && printf '#!/bin/sh\n[ -e second ] || make -s -f two.mk\nexec bin/cc "$@"\n' | sed "s|bin/cc|'$tree/&'|
    s|-e second|-e '$tree/second'|; s|-f two.mk|-f '$tree/two.mk'|" | install -m 755 /dev/stdin two/cc
PATH=$tree/two:$PATH launch a
ended 'two at once' 5 'in C, 1 words: a'$'\n' "$compiles" compiled
until_true grep -q words second
verdict 'two at once: the second' "$(diff second <(printf '%s\n' 'keywrap: waiting for another build' \
    'in C, 1 words: --version'))"

### From where it is called

mkdir -p 'far/a tree' && ln -s ../keywrap far/link && ln -s ../../bin/rt 'far/a tree/rt'
for way in far/link "PATH='$tree':\$PATH && cd / && keywrap" "cd .. && CDPATH='$tree/far' 'a tree/keywrap'"; do
    verdict "$way" "$(eval "$way --version" 2>&1 | grep -vx 'in C, 1 words: --version')"
done
for shell in sh bash; do
    : >notes
    cp keywrap far/keywrap && $shell keywrap --version >out 2>err
    status=$?
    ended "$shell keywrap" 70 '' \
        "keywrap: run it as ./keywrap: 'sh keywrap' would run a program of the current directory"
    rm far/keywrap
done

### The program of the kit

starts='prove.sh: proving and building the program, 5 to 10 minutes the first time'
# failed_proof CRATE: the lines that show a failed proof.
failed_proof() { printf '%s\n' "prove.sh: failed: $1" "the first line of $1" 'the second line'; }
fresh
TMPDIR=$tree/missing build
row 'no directory for the logs' [ "$status" = 1 ]
noted 'no directory for the logs'
mkdir none && ln -s /usr/bin/* none && rm -f none/rt
verdict 'make build without the kit' "$(PATH=$tree/none make build 2>&1 | grep -v 'make build needs the Rattle kit')"
build
ended 'make build' 0 '' "$starts" "${steps[@]}"
for made in aes_block keywrap link; do
    verdict "the words for $made" "$(diff <(paste -sd ' ' words.$made) \
        <(sed -n "s|^$made: ||p" "$root/tests/launcher.txt" | sed "s|TREE|$tree|g"))"
done
launch a 'b c'
ended 'after make build' 5 "child of $$, 2 words: a b c"$'\n' '' "${steps[@]}"
build
ended 'make build, again' 0 '' '' "${steps[@]}"
PATH=/usr/bin:/bin launch a
ended 'no kit on the PATH' 5 "child of $$, 1 words: a"$'\n' '' "${steps[@]}"
append WHAT
launch a
ended 'another kit' 5 'in C, 1 words: a'$'\n' '' "${steps[@]}"
append crates/aes_block/src/lib.rt
launch a
ended 'another source than that of either program' 70 '' "$stale" "${steps[@]}"
: >notes
append crates.txt
at='a tree' event='cd crates/keywrap' make gate >row.log 2>&1
launch a
ended 'after the gate' 5 "child of $$, 1 words: a"$'\n' '' 'a tree: ci' 'ends a tree'
fresh
echo '$(error this file is read)' >far/stops.mk
verdict 'make build below another make' "$(MAKEFLAGS=n MAKEFILES=far/stops.mk GNUMAKEFLAGS=n JOBS=7 \
    scripts/prove.sh keywrap 2>&1 | grep -vxF "$starts")"
noted 'make build below another make' "${steps[@]}"
rebuilds 'make build' "${steps[@]}" <<END_OF_CHANGES
echo first >crates/block_pair/src/added.rt; append crates.txt
append crates/block_pair/src/added.rt
append WHAT
append WHAT; append crates/keywrap/src/lib.rt
fresh; at=block_pair event='echo other >>src/lib.rt' build
fresh; at='a tree' event='cd crates/keywrap; echo other >>src/lib.rt' make gate
END_OF_CHANGES
# A crate is proved again only if it or a crate below it changed, or if its last proof did not end well.
main=crates/keywrap/src/lib.rt
rebuilds 'make build' "${steps[@]:2}" <<END_OF_CHANGES
append crates/aes_block/specs/Lib.antt
append crates/aes_block/src/lib.rt; at=aes_block event='echo first >src/lib.rt; exit 1' build; append $main
append crates/aes_block/src/lib.rt; at=aes_block event='exit 1' build
rm -r crates/keywrap/out/kept/aes_block.rlib; append $main
END_OF_CHANGES
rebuilds 'make build' "${steps[@]:4}" <<END_OF_CHANGES
rm -r crates/keywrap/proofs
chmod -x $program
touch -d tomorrow $program
append crates/aes_block/src/lib.rt; at=keywrap event='kill -s KILL \$\$' build
END_OF_CHANGES
rebuilds 'make build' <<END_OF_CHANGES
fresh; at='a tree' event='cd crates/keywrap' make gate
append crates/aes_block/must-fail/edit
END_OF_CHANGES
# A kit that refuses an option of rattle.
fresh
takes='--statements --antt-project --logic-built --backend' build
ended 'another kind of kit' 0 '' "$starts" 'keywrap: lib --backend rattle' 'ends keywrap'

# rt takes this lock while it works.
fresh
{
    flock 8
    scripts/prove.sh keywrap >second 2>&1 8<&- &
    until_true grep -qs waiting second
} 8<crates/keywrap
row 'an rt at work' [ $? = 0 ]
wait $!
noted 'an rt at work' "${steps[@]}"

# Another build begins while this one is at work: it waits, and then has nothing to do.
fresh
at=keywrap event='at= scripts= "$tree/scripts/prove.sh" keywrap >"$tree/second" 2>&1 8<&- &
    until_true grep -q waiting "$tree/second"' build
ended 'two builds at once' 0 '' "$starts" "${steps[@]}"
until_true eval '! pgrep -f "$tree/scripts/prove.sh" >row.log'
verdict 'two builds at once: the second' "$(diff second <(echo 'prove.sh: waiting for another build'))"

### What ends a build

rm -r crates/aes_block/specs && : >notes
at=aes_block event='exit 1' build
ended 'a crate is not proved' 1 '' "$starts"$'\n'"$(failed_proof aes_block)" "${steps[2]}"
rm -r crates/keywrap/specs && : >notes
at=keywrap event='exit 5' build
ended 'the program is not proved' 1 '' "$starts"$'\n'"$(failed_proof keywrap)" "${steps[@]:2:3}"
mv scripts/prove.mk kept.mk && fresh
build
verdict 'make itself fails' "$(
    left
    [ "$status" = 1 ] || echo "status $status"
    grep -c '^make: .*prove.mk' err | grep -vx '[1-9]'
)"
mv kept.mk scripts/prove.mk

### Side by side

# Four crates that use none of the others, and a fifth that uses the second.
crates first_four: second_four: third_four: fourth_four: 'above_second: second_four' 'keywrap_c staticlib:' \
    'keywrap: first_four second_four third_four fourth_four above_second'
begins=('first_four: build --jobs 1' 'fourth_four: build --jobs 1' 'second_four: build --jobs 1'
    'third_four: build --jobs 1')
all_ended=('ended first_four' 'ended fourth_four' 'ended second_four' 'ended third_four')
# The notes of crates that are built side by side may come in any order.
order=(sort -o notes notes)
# Four crates are built at once, with one job each. The program comes last, with more.
fresh
processors=9 at='.*_four' event='until_true begun 4; sleep 0.2' build
verdict 'side by side' "$(
    [ "$status" = 0 ] || cat err
    sed -n 's/.*_.*: build --jobs //p' notes | grep -vx 1
    LC_ALL=C sort notes | sed -n 's/: build .*//p' | paste -sd ' ' |
        diff - <(echo above_second first_four fourth_four keywrap second_four third_four)
    tail -n 2 notes | diff - <(printf '%s\n' "keywrap: build --jobs 4" 'ends keywrap')
)"

fresh
at='(first|third|fourth)_four' event='until_true grep -q "^ends above" "$tree/notes"' build
verdict 'a crate begins where those below it are proved' "$(
    [ "$status" = 0 ] || cat err
    grep -e '^ends second' -e above notes |
        diff - <(printf '%s\n' 'ends second_four' 'above_second: build --jobs 1' 'ends above_second')
    grep -A 9 '^ends above' notes | grep -c '^ends .*_four' | grep -vx 3
)"

# If a proof fails, the proofs that run with it are ended, and no other begins. The second ends once make, which waits
# for its children, has seen that the first failed.
fresh
at='(first|second)_four' event='until_true begun 4
    [ $crate = second_four ] || { echo $$ >../../failed; exit 1; }
    until_true [ -s ../../failed ]; until_true eval "[ ! -e /proc/$(<../../failed) ]"' build
ended 'a proof fails beside others' 1 '' "$starts"$'\n'"$(failed_proof first_four)" \
    'ends fourth_four' 'ends second_four' 'ends third_four' "${begins[@]}"

for signal in INT TERM; do
    fresh
    at='.*_four' event="until_true begun 4; [ \$crate != second_four ] || kill -s $signal \$launcher
        until_true false" build 2>/dev/null
    ended "$signal" 1 '' "$starts" "${all_ended[@]}" "${begins[@]}"
done

### Archives, with C in the place of the leaves and without

crates block_pair: aes_block: 'keywrap_c staticlib: block_pair' 'keywrap_hw staticlib: block_pair'
mkdir -p toolchain/bin archives && touch toolchain/bin/clang
# archives: builds both. made ARCHIVE..: these are compiled, and no other.
archives() { scripts/prove.sh archives llvm.a hw.a >out 2>err; }
made() {
    : >notes
    archives || cat err
    grep -oP 'out/kept/\K\S+(?= src/lib.rt$)' notes | grep '\.a$' | sort | diff - <(printf '%s\n' "$@" | grep .)
}
fresh
verdict 'both archives' "$(made hw.a llvm.a)"
verdict 'both archives, again' "$(made)"
for script in substitute.py toolchain.sh; do
    echo '# other' >>generate/$script
    verdict "an archive over the leaves, after a change of $script" "$(made hw.a)"
done
append crates/block_pair/src/lib.rt
verdict 'both archives, after a change of a crate' "$(made hw.a llvm.a)"
fresh
rm archives/*
export takes='--statements --antt-project --logic-built --backend'
archives
verdict 'a kit that refuses an option builds no archive without C' "$(
    ls archives
    ls crates/keywrap/out/kept/hw.a crates/keywrap_hw/out 2>/dev/null
    grep -x 'hw.a: this kit refuses --links, without which no C takes the place of the leaves' err >/dev/null || cat err
)"
verdict 'another archive by such a kit' "$(scripts/prove.sh archives llvm.a 2>&1)"

finish
