#!/usr/bin/env bash
# Runs README's two commands as a newcomer does, without the kit and then with it: in a root directory with a minimal
# Debian and the packages that README names, as a user who is not root, without a variable of this machine. Then runs
# the lines of each page of without_kit.txt in such a directory without the kit. Whatever this machine cannot do is a
# failure.
#
# usage: KEYWRAP_FRESH=1 tests/fresh.sh [PAGE..]        only these pages, if one is named. Without KEYWRAP_FRESH
#        nothing is run. KEYWRAP_FRESH=DIRECTORY keeps the minimal Debian, the packages, what was proved there for the
#        libraries, and the names of the rows that passed, and begins with what was kept

set -u
# shellcheck source=tests/lib/workdir.sh
. "${BASH_SOURCE[0]%/*}/lib/workdir.sh"
[ -n "${KEYWRAP_FRESH:-}" ] || {
    finish
    exit
}
verdict 'what a root directory needs' "$(lacks root debootstrap git rt 'overlay of the root directory')" ||
    {
        finish
        exit
    }
[[ $KEYWRAP_FRESH = /* ]] && fresh=$KEYWRAP_FRESH || fresh=$workdir/fresh
kit=$(dirname "$(dirname "$(readlink -f "$(command -v rt)")")")
mkdir -p "$fresh/packages" "$fresh/built" machine over

# enter DIRECTORY COMMAND..: runs it in this root directory, with the processes, terminals and downloaded packages that
# it needs, without a variable. Only for a shell that inside() starts.
enter() {
    mount -t proc proc "$1/proc"
    mount -t devpts -o newinstance,ptmxmode=666,mode=620,gid=5 devpts "$1/dev/pts"
    mount --bind "$1/dev/pts/ptmx" "$1/dev/ptmx"
    mount -t tmpfs -o mode=1777 tmpfs "$1/dev/shm"
    mkdir -p "$1/var/cache/apt/archives" && mount --bind "$fresh/packages" "$1/var/cache/apt/archives"
    env -i PATH=/usr/sbin:/usr/bin:/sbin:/bin DEBIAN_FRONTEND=noninteractive chroot "$@"
}
# inside LINES WORD..: runs lines of bash in namespaces of their own: no mount is seen outside. Bash stays the first
# process there, which waits for every process that has lost its parent.
inside() { unshare -mpf bash -ec "$(declare -f enter); $(declare -p fresh kit); $1"$'\n:' - "${@:2}"; }
# as_root DIRECTORY LINES and as_user DIRECTORY LINES: in this root directory. Only the user has the kit.
as_root() { inside 'enter "$1" bash -ec "$2"' "$@"; }
as_user() {
    inside 'mkdir -p "$1$kit" && mount --bind "$kit" "$1$kit" && mount -o remount,bind,ro "$1$kit"
        enter "$1" su -l user -c "$2"' "$@"
}
# lines PAGE HEADING: the commands of a section, of which the first installs packages.
lines() { python3 "$root/tests/lib/page_lines.py" "$root/$1" "$2"; }
# prepare DIRECTORY: a user, and a clone in the user's directory.
prepare() {
    as_root "$1" 'useradd -m -s /bin/bash user' && git clone -q "$root" "$1/home/user/keywrap" &&
        as_root "$1" 'chown -R user: /home/user'
}
# problem STATUS: why the lines failed that wrote `output`.
problem() { [ "$1" = 0 ] || { echo "status $1:" && tail -n 5 output; }; }

### The minimal Debian

if [ ! -e "$fresh/minimal/etc/apt/apt.conf.d/machine" ]; then
    rm -rf "$fresh/minimal"
    debootstrap --variant=minbase "$(. /etc/os-release && echo "$VERSION_CODENAME")" "$fresh/minimal" >output 2>&1
    verdict 'debootstrap, with a Debian mirror' "$(problem $?)" || {
        finish
        exit
    }
    # This machine's way to the mirror. README's line asks, and here nobody answers.
    apt-config dump | grep -E '^Acquire::(http|https|Check-|Retries)' >machine.conf
    echo 'APT::Get::Assume-Yes "yes";' >>machine.conf
    cp /etc/resolv.conf "$fresh/minimal/etc"
    as_root "$fresh/minimal" "cat >/etc/apt/apt.conf.d/machine && apt-get update" <machine.conf >output 2>&1
    verdict 'its mirror' "$(problem $?)" || {
        finish
        exit
    }
fi

### README

# beside_the_sources: what a run leaves in the clone, except what is built and Python's caches of the tests.
beside_the_sources() {
    as_user "$workdir/machine" 'git -C keywrap status --porcelain --ignored' |
        grep -vE '^!! (crates/[a-z0-9_]+/out|out|(generate|tests)(/.*)?/__pycache__|tests/.pytest_cache)/$' |
        grep -vxE '!! dist/keywrap(\.built_from)?'
}
# typed COMMAND: runs it in the clone, and writes its output to `output`. The processor's seconds go to `spent`.
typed() {
    as_user "$workdir/machine" "TIMEFORMAT='%0R s, and %0U + %0S s of processor'; cd keywrap; time $1" >output 2>&1
    verdict "README: $1" "$(problem $?)"
    tail -n 30 output
    spent=$(grep -oP 's, and \K\d+ \+ \d+(?= s of processor$)' output)
    sed -i '/ s of processor$/d' output
}
# make_test LEAST: no row fails, and at least as many run as README says.
make_test() {
    local last
    typed 'make test'
    last=$(tail -n 1 output)
    verdict 'README: no row fails' "$([[ $last =~ ^[0-9]+\ passed,\ 0\ failed, ]] || echo "the last line is: $last")"
    verdict "README: at least $1 tests run" "$([ "${last%% *}" -ge "$1" ] 2>&1 || echo "$last")"
    verdict 'README: what is left out is said in one line' "$(tail -n 2 output | grep -E '^.{121}|^SKIPPED')"
    verdict 'README: nothing is written beside the sources' "$(beside_the_sources)"
}
readme() {
    local screen drill answer least
    screen=$(sed '/^## /,$d' "$root/README.md")
    drill=$(sed -n 's/^    \$ \(\.\/keywrap drill [0-9a-f]*\) .*/\1/p' <<<"$screen")
    answer=$(grep -A 1 -F "$drill" <<<"$screen" | sed -n '2s/^    //p')
    # Of the two lines of `make test` the first is without the kit.
    mapfile -t least < <(grep -oP '^ +(\$ )?make test .*at least \K[0-9,]+(?= tests)' "$root/README.md" | tr -d ,)
    row 'README: its lines' test -n "$answer" -a "${#least[@]}" = 2
    row 'README: a clone' eval 'cp -a "$fresh/minimal/." machine && prepare "$workdir/machine"' || return
    as_root "$workdir/machine" "$(lines README.md 'keywrap: AES Key Wrap, proved' | sed -n 1p)" >output 2>&1
    verdict 'README: the packages' "$(problem $?)" || return

    # On a quiet machine the time is less than that of the processor, since two compile side by side.
    typed "$drill"
    verdict 'README: the answer' "$(grep -qxF "$answer" output || echo "it is not $answer")"
    verdict 'README: 20 seconds of a processor' "$([ $((${spent:-99})) -le 20 ] || echo "${spent:-no time}")"
    make_test "${least[0]}"

    row 'README: with the kit' eval 'as_root "$workdir/machine" "apt-get install libssl-dev" &&
        cp -a "$fresh/built/." machine/home/user/keywrap/crates && ln -s "$kit/bin/rt" machine/usr/local/bin' || return
    make_test "${least[1]}"
    [ "$fresh" = "$workdir/fresh" ] ||
        (
            cd machine/home/user/keywrap && cp out/passed "$fresh"
            cd crates && cp -a --parents -- */out "$fresh/built"
        )
}
[ $# -gt 0 ] || readme

### Each page, without the kit

# page PAGE HEADING [SCRIPT]: the lines in an overlay of the minimal Debian, and then a script of the tests. The network
# is off once the packages are there.
page() {
    lines "$1" "$2" >commands
    [ -z "$3" ] || echo "cd ~/keywrap; bash $3" >>commands
    inside 'mount -t tmpfs none over && mkdir over/upper over/work over/at && mount -t overlay overlay \
            -o lowerdir="$fresh/minimal",upperdir=over/upper,workdir=over/work over/at
        git clone -q "$1" over/at/home/keywrap && cp commands over/at/home && enter over/at bash -ec "
            useradd -m -s /bin/bash user && mv /home/keywrap ~user && chown -R user: ~user
            . <(head -n 1 /home/commands)
            unshare -n su -l user -c \"set -ex; cd keywrap; . <(tail -n +2 /home/commands)\""' "$root" >output 2>&1
    verdict "$1: $2" "$(problem $?)"
}
while IFS='|' read -r name heading script <&3; do
    [ $# = 0 ] || [[ " $* " = *" $name "* ]] || continue
    began=$SECONDS
    page "$name" "$heading" "$script"
    echo "$name: $((SECONDS - began)) s"
done 3< <(sed -n 's/ *| */|/g; /^[^#]/p' "$root/tests/without_kit.txt")
finish
