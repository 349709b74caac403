#!/usr/bin/env bash
# Installs what the tests use and this machine lacks: the Debian packages of tests/packages.txt, and for aarch64,
# i686 and s390x what packaging/sysroot.sh unpacks. If a package cannot be installed, the others still are. The last
# lines name what is still missing. Then the exit status is 1.
#
# usage: scripts/packages.sh [TOOL..]        only the packages of these tools, if one is named

set -u
cd "$(dirname "${BASH_SOURCE[0]}")/.." || exit

# A package of Debian has its modules for Debian's Python.
[ ! -x /usr/bin/python3 ] || export python=/usr/bin/python3
# missing TOOL..: the packages of the tools that are not here.
missing() { bash tests/lib/tools.sh "$@" | sed -n 's/.*(apt-get install \(.*\))$/\1/p'; }
install() { timeout 900 apt-get install -y --no-install-recommends --no-upgrade "$@" </dev/null; }

read -ra packages < <(missing "$@")
if [ ${#packages[@]} -gt 0 ]; then
    if [ "$(id -u)" != 0 ] || ! command -v apt-get >/dev/null; then
        echo "packages.sh: as root: apt-get install ${packages[*]}" >&2 && exit 1
    fi
    export DEBIAN_FRONTEND=noninteractive
    timeout 300 apt-get update
    install "${packages[@]}" || for package in "${packages[@]}"; do install "$package"; done
fi
[ $# -gt 0 ] || for architecture in arm64 i386 s390x; do
    ARCHITECTURE=$architecture timeout 600 packaging/sysroot.sh ||
        echo "packages.sh: packaging/sysroot.sh failed for $architecture" >&2
done
missing=$(bash tests/lib/tools.sh "$@")
echo "${missing:-no tool is missing}"
[ -z "$missing" ]
