#!/usr/bin/env bash
# Compares the completions of three shells with the program's help, and tries make install and make uninstall with the
# built program. A part without its tool is skipped.
#
# usage: tests/shells.sh        (KEYWRAP=PATH tries another program)

set -u
# shellcheck source=tests/lib/workdir.sh
. "${BASH_SOURCE[0]%/*}/lib/workdir.sh"
[[ ${KEYWRAP:-/} = /* ]] || KEYWRAP=$OLDPWD/$KEYWRAP
program=${KEYWRAP:-$root/$("$root/scripts/program.sh")}
"$program" --version >/dev/null || {
    failed=1
    finish
    exit
}

### The options in the help

# options_of WORD..: the options that the help of a command names; of no words, those without a command.
options_of() {
    "$program" "$@" --help 2>/dev/null | sed -nE 's/^ +((-[A-Za-z], )?--[a-z0-9-]+)( <[A-Z]+>)?$/\1/p' | sed 's/, /\n/'
}
commands=$("$program" --help | sed -n '/^Commands:/,/^$/s/^  \([a-z]*\) .*/\1/p')
options=$(
    options_of
    for command in $commands; do options_of "$command"; done
)
options=$(echo "$options" | sort -u)

### The completions

completions=$workdir/completions
"$root/generate/completions.py" "$completions"/{keywrap.bash,_keywrap,keywrap.fish}
# words FILE: the options in a completion file. This needs no shell.
words() { grep -v '^ *#' "$1" | grep -oE -e '--[a-z0-9-]+'; }
same 'help and bash: the options of the file' "$(grep -e -- <<<"$options")" "$(words "$completions/keywrap.bash")"
same 'help and zsh: the options of the file' "$(grep -e -- <<<"$options")" "$(words "$completions/_keywrap")"
same 'help and fish: the options of the file' "$(grep -e -- <<<"$options")" \
    "$(grep '^complete' "$completions/keywrap.fish" | grep -oE -e ' -l [a-z0-9-]+' | sed 's/ -l /--/')"

# offers_SHELL LINE: what the shell offers after a line, in the directory `files`.
offers_bash() (
    cd files || exit
    # shellcheck source=/dev/null
    . "$completions/keywrap.bash"
    complete -p keywrap >/dev/null || exit
    # shellcheck disable=SC2034
    read -ra COMP_WORDS <<<"$1"
    [[ $1 = *' ' ]] && COMP_WORDS+=('')
    COMP_CWORD=$((${#COMP_WORDS[@]} - 1)) COMPREPLY=()
    compopt() { echo "$*" >>../compopt; }
    _keywrap keywrap "${COMP_WORDS[COMP_CWORD]}" "${COMP_WORDS[COMP_CWORD - 1]}"
    printf '%s\n' "${COMPREPLY[@]}"
)

offers_fish() (
    cd files || exit
    # shellcheck disable=SC2016
    HOME=$workdir fish --no-config -c 'source $argv[1]; complete -C $argv[2]' "$completions/keywrap.fish" "$1" |
        cut -f 1
)

offers_zsh() (
    cd files || exit
    HOME=$workdir TERM=dumb completions=$completions timeout 600 zsh -f "$root/tests/lib/offers.zsh" "$1" |
        tr -d '\r' | sed -n 's/^offered: //p'
)

# offered SHELL LINE: what it offers, with names of files as they are in the directory.
offered() { "offers_$1" "$2" | sed 's/\\//g; s|/$||'; }

# completes SHELL: the shell offers what the help names, and names of files if one is expected.
completes() {
    local shell=$1 command line
    same "$shell: the commands" "$commands" "$(offered "$shell" 'keywrap ')"
    same "$shell: the options without a command" "$(options_of)" "$(offered "$shell" 'keywrap -')"
    for command in $commands; do
        same "$shell: the options of $command" "$(options_of "$command")" "$(offered "$shell" "keywrap $command -")"
    done
    same "$shell: the commands of help" "$commands" "$(offered "$shell" 'keywrap help ')"
    same "$shell: a part of a word" $'--raw\n--raw-kek' "$(offered "$shell" 'keywrap unwrap --kek b.hex --r')"
    for line in 'wrap --raw --kek' 'rewrap --kek b.hex --new-kek' 'wrap -i' 'wrap --output' 'unwrap --input' \
        'unwrap -o' 'rewrap --raw -i' 'rewrap --output' 'check --kek b.hex --input' 'check -i b.hex -o'; do
        same "$shell: files after $line" "$(ls files)" "$(offered "$shell" "keywrap $line ")"
    done
    same "$shell: a part of a file's name" b.hex "$(offered "$shell" 'keywrap check --kek b')"
    same "$shell: a part of the output's name" b.hex "$(offered "$shell" 'keywrap wrap --kek b.hex --output b')"
    same "$shell: what begins with --in" --input "$(offered "$shell" 'keywrap check --kek b.hex --in')"
    same "$shell: nothing after --iv" '' "$(offered "$shell" 'keywrap wrap --iv ')"
    for line in beside/*; do
        line=${line#beside/}
        same "$shell: what goes with $line" "$(cat "beside/$line")" \
            "$(offered "$shell" "keywrap $line --" | grep -xf flags | grep -vx -e "$(cut -d ' ' -f 2 <<<"$line")")"
    done
    for line in drill 'drill 00' vectors; do
        same "$shell: nothing after $line" '' "$(offered "$shell" "keywrap $line " | grep -v '^-')"
    done
}

iv=0123456789abcdef
# goes WORD..: whether the program accepts these arguments, which name a KEK file that does not exist.
goes() {
    # Two flags need a third.
    [[ " $* " = *' --lines '* || ! " $* " =~ ' --keep-going '|' --quiet ' ]] || set -- "$@" --lines
    "$program" "$@" >/dev/null 2>&1
    [ $? = 6 ]
}

# All flags, and for each flag of a command the flags that the program accepts with it.
printf '%s\n' --padded --new-padded --any-form --keep-form --pass-new --iv --new-iv --raw --raw-kek --base64 \
    --base64url --base64-kek --lines --keep-going --quiet --verbose >flags
mkdir beside
for command in wrap unwrap rewrap check; do
    words=("$command" --kek missing)
    [ $command != rewrap ] || words+=(--new-kek missing)
    for flag in $(options_of $command | grep -xf flags); do
        for other in $(options_of $command | grep -xf flags | grep -vx -e "$flag"); do
            # shellcheck disable=SC2086
            ! goes "${words[@]}" ${flag/%-iv/-iv $iv} ${other/%-iv/-iv $iv} || echo $other
        done >"beside/$command ${flag/%-iv/-iv $iv}"
    done
done

mkdir files files/directory
touch 'files/a key' files/b.hex
completes bash
# Bash quotes file names, and adds a slash to directories, if it knows that they are file names.
: >compopt
offered bash 'keywrap wrap --kek ' >/dev/null
same 'bash: files are offered as files' '-o filenames' "$(<compopt)"
: >compopt
offered bash 'keywrap wrap --' >/dev/null
same 'bash: options are not' '' "$(<compopt)"
same 'bash: no option twice' '--raw-kek' "$(offered bash 'keywrap check --raw --kek=b.hex --r')"
same 'bash: files after --kek=' "$(ls files)" "$(offered bash 'keywrap wrap --kek = ')"
same 'bash: files after --output=' "$(ls files)" "$(offered bash 'keywrap wrap --output = ')"
same 'bash: neither -o nor --output twice' $'-i\n--input' \
    "$(offered bash 'keywrap check --kek b.hex -o c.hex -' | grep -x -e -i -e --input -e -o -e --output)"
same 'bash: neither -i nor --input twice' $'-o\n--output' \
    "$(offered bash 'keywrap check --kek b.hex --input c.hex -' | grep -x -e -i -e --input -e -o -e --output)"
if needs 'the completion for zsh' zsh pseudo-terminals; then
    row 'zsh -n' zsh -n "$completions/_keywrap"
    completes zsh
fi
if needs 'the completion for fish' fish; then
    row 'fish --no-execute' fish --no-execute "$completions/keywrap.fish"
    completes fish
fi

### make install, make uninstall

# The files that are installed are in tests/handed_out.txt. A file of another package is in a directory that exists.
made() { make -s --no-print-directory -o build -C "$root" "$@" PROGRAM="$program" DESTDIR="$workdir/to" PREFIX=/opt; }
modes() { find to ! -type d -printf '%m\n' | sort -u; }
mkdir -p to/opt/share/man/man1
echo other >to/opt/share/man/man1/other.1
row 'make install-command, with a umask' eval 'umask 077; made install-command; umask 022'
same 'the modes of what it installs' $'644\n755' "$(modes)"
row 'the installed program is the program' cmp "$program" to/opt/bin/keywrap
row 'make uninstall-command' made uninstall-command
same 'it leaves the files of others' to/opt/share/man/man1/other.1 "$(find to ! -type d)"
row 'a header of the library' install -D /dev/null to/opt/include/keywrap.h
row 'make install-command, beside the library' made install-command
row 'make uninstall-command' made uninstall-command
same 'it leaves the documents, which the library has, too' $'CHANGELOG.md\nRECIPES.md\nSECURITY.md' \
    "$(ls to/opt/share/doc/keywrap)"

finish
