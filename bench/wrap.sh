#!/bin/sh
# Times the library's wrap and unwrap beside OpenSSL, nettle (also without AES instructions), libgcrypt (apt-get install
# libssl-dev nettle-dev libgcrypt20-dev) and the same algorithm in C (by clang, if it is there), and with a kept KEK or
# schedule for 16-byte keys. Then a rewrap in the call for many keys, and the calls of EVP, by OpenSSL's own provider
# and by ours.
#
# usage: bench/wrap.sh LIBRARY MODULE [SECONDS]     (LIBRARY: libkeywrap.a, beside libkeywrap_hw.a; MODULE: keywrap.so;
#                                                   if no SECONDS: 20)

set -eu
library=$(readlink -f -- "$1") module=$(readlink -f -- "$2") seconds=${3:-20}
workdir=$(mktemp -d)
trap 'rm -rf "$workdir"' EXIT
cd "$(dirname "$(readlink -f -- "$0")")/.."
cc="${CC:-cc} -std=c99 -O2 -Wall -Ic/include -Itests/reference"

# renamed FILE NAME: an archive or object becomes NAME.o, whose calls begin with NAME, and no others are seen.
renamed() {
    # shellcheck disable=SC2046
    objcopy $(for call in wrap unwrap rewrap rewrap_many; do
        echo "--redefine-sym keywrap_$call=$2_$call --keep-global-symbol=$2_$call"
    done) "$1" "$workdir/$2.o"
}
renamed "${library%/*}/libkeywrap_hw.a" hw
# A jump over a boundary of 32 bytes is slow on some Intel processors. Without -Wa the linker's layout changes the time.
portable="$cc -Wa,-mbranches-within-32B-boundaries -c dist/keywrap.c -o $workdir/made"
$portable -DKEYWRAP_NO_AES_INSTRUCTIONS
renamed "$workdir/made" portable
$portable
renamed "$workdir/made" portable_hw
$(command -v clang || echo "${CC:-cc}") -std=c99 -O2 -c tests/reference/one_table.c -o "$workdir/one_table.o"
$cc bench/wrap.c "$workdir"/*.o "$library" -lcrypto -lnettle -lgcrypt -o "$workdir/wrap"
$cc bench/provider.c -lcrypto -o "$workdir/provider"

"$workdir/wrap" "$seconds" >"$workdir/csv"
NETTLE_FAT_OVERRIDE=none "$workdir/wrap" "$seconds" | sed -n 's/^nettle,[^,]*,/nettle,software,/p' >>"$workdir/csv"
bench/record.sh wrap 'libssl-dev nettle-dev libgcrypt20-dev' cat "$workdir/csv"
bench/record.sh many nettle-dev "$workdir/wrap"
unset OPENSSL_CONF OPENSSL_MODULES
bench/record.sh provider libssl-dev "$workdir/provider" "${module%/*}"
