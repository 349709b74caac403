#!/bin/sh
# Unpacks Debian's packages for arm64 that are needed to build the wheel for aarch64 and to test it under qemu: Python
# with the modules of the tests, OpenSSL, valgrind, and Rust's standard library. With ARCHITECTURE=i386 or s390x it
# unpacks that library only, to test the Rust crate. Any user may call it, since apt-get uses a directory of its own.
# DIRECTORY is made completely or not at all. An existing DIRECTORY is not changed.
#
# usage: packaging/sysroot.sh [DIRECTORY]        (by default SYSROOT of the Makefile)

set -eu
architecture=${ARCHITECTURE:-arm64}
case $architecture in
arm64)
    target=aarch64-unknown-linux-gnu
    packages='python3 libpython3-dev python3-cffi-backend python3-pytest python3-cryptography
        python3-cryptography-vectors libssl-dev valgrind'
    ;;
i386)
    target=i686-unknown-linux-gnu
    packages=
    ;;
s390x)
    target=s390x-unknown-linux-gnu
    packages=
    ;;
*)
    echo "sysroot.sh: unknown ARCHITECTURE: $architecture" >&2
    exit 2
    ;;
esac
[ $# -gt 0 ] || set -- "${XDG_CACHE_HOME:-${HOME:-}/.cache}/keywrap/sysroot-$target"
[ ! -d "$1" ] || exit 0
mkdir -p -- "$(dirname -- "$1")"
workdir=$(mktemp -d -- "$1.XXXXXX")
trap 'rm -rf -- "$workdir"' EXIT
trap 'exit 1' HUP INT TERM
workdir=$(cd -- "$workdir" && pwd)

# If root calls apt-get, it downloads as another user, who must be able to enter the directory.
chmod 755 "$workdir"
mkdir -p "$workdir/state/lists/partial" "$workdir/cache/archives/partial" "$workdir/root"
: >"$workdir/status"
cat >"$workdir/conf" <<CONF
#clear APT::Update::Pre-Invoke;
#clear APT::Update::Post-Invoke;
#clear APT::Update::Post-Invoke-Success;
#clear DPkg::Post-Invoke;
#clear APT::Architectures;
APT::Architecture "$architecture";
APT::Architectures "$architecture";
APT::Install-Recommends "false";
Dir::State "$workdir/state";
Dir::State::lists "$workdir/state/lists";
Dir::State::status "$workdir/status";
Dir::Cache "$workdir/cache";
Dir::Cache::archives "$workdir/cache/archives";
CONF
# A list without packages for the architecture is not Debian's.
apt-get -qq -c "$workdir/conf" update || echo 'sysroot.sh: some lists of packages are not there' >&2
# shellcheck disable=SC2086
apt-get -qq -c "$workdir/conf" install -y --download-only $packages >&2
# Without the compiler on which it depends.
(cd "$workdir/cache/archives" && apt-get -qq -c "$workdir/conf" download libstd-rust-dev >&2)
for package in "$workdir"/cache/archives/*.deb; do dpkg-deb -x "$package" "$workdir/root"; done
mv -T -- "$workdir/root" "$1"
