#!/bin/sh
# Records what a terminal shows in the middle of a rotation of a million keys, and after it. generate/plots.py draws it.
#
# usage: bench/terminal.sh PROGRAM >docs/pictures/rotation.txt

set -eu
program=$(readlink -f -- "$1")
workdir=$(mktemp -d)
trap 'rm -rf "$workdir"' EXIT
cd "$workdir"
ln -s "$program" keywrap
export PATH="$workdir:$PATH" TERM=xterm
# The vector of RFC 3394, section 4.1, with its KEK.
echo 000102030405060708090A0B0C0D0E0F >kek.hex
head -c 32 /dev/urandom | od -An -v -tx1 | tr -d ' \n' >new-kek.hex
yes 1FA68B0A8112B447AEF34BD8FB5A7B829D3E862371D2CFE5 | head -n 1000000 >wrapped.hex
echo 'key: 16'
rotate='keywrap rewrap --lines --keep-form --kek kek.hex --new-kek new-kek.hex --input wrapped.hex'
for line in "$rotate --output rewrapped.hex" \
    'keywrap check --lines --kek new-kek.hex --input rewrapped.hex > /dev/null'; do
    echo "$ $line"
    script -qec "$line" /dev/null | tr '\r' '\n' | sed 's/\x1b\[[?0-9;]*[A-Za-z]//g; /^ *$/d' >shown
    grep % shown | sed -n "$(($(grep -c % shown) / 2 + 1))s/^/during: /p"
    grep -v % shown | sed 's/^/after: /'
done
