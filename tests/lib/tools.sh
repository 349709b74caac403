# shellcheck shell=bash
# Looks for the tools of tests/packages.txt. Run as a program, it prints what `lacks` does.
#
# usage: tests/lib/tools.sh [TOOL..]        all tools, if none is named

# The packages of each tool, and the command that finds it.
declare -A packages_of=() found_by=()
while IFS='|' read -r tool packages command; do
    packages_of[$tool]=$packages found_by[$tool]=$command
done < <(sed -n 's/ *| */|/; s/ *| */|/; /^[^#]/p' "${BASH_SOURCE[0]%/*}/../packages.txt")
unset tool packages command

# compiles COMPILER HEADER: the compiler finds the header.
compiles() {
    local language=c
    [[ $1 != *++ ]] || language=c++
    echo "#include <$2>" | "$1" -x $language -fsyntax-only -
}

# sanitizes COMPILER [SANITIZERS]: a program with these runs here.
sanitizes() {
    local program status
    program=$(mktemp) || return
    echo 'int main(void) { return 0; }' | "$1" -fsanitize="${2:-address,undefined}" -x c - -o "$program" && "$program"
    status=$?
    rm "$program"
    return $status
}

# has_crates NAME..: Debian has these crates.
has_crates() {
    local name
    for name in "$@"; do compgen -G "/usr/share/cargo/registry/$name.*" || return; done
}

# maven_has PLUGIN..: Debian has these plugins of Maven.
maven_has() {
    local name
    for name in "$@"; do [ -d "/usr/share/maven-repo/org/apache/maven/plugins/maven-$name-plugin" ] || return; done
}

# overlays: an overlay of the root directory can be mounted.
overlays() {
    unshare -m sh -ec 'mount -t tmpfs none /tmp && cd /tmp && mkdir upper work merged
        mount -t overlay overlay -o lowerdir=/,upperdir=upper,workdir=work merged'
}

# is_here TOOL: a module is for $python, or else for the first Python or Debian's.
is_here() (
    case $1 in
    '<'*) set -- "${1#<}" && compiles cc "${1%>}" ;;
    'import '*) "${python:-${PYTHON:-python3}}" -c "$1" || { [ -z "${python:-}" ] && /usr/bin/python3 -c "$1"; } ;;
    *) eval "${found_by[$1]:-command -v "'$1'"}" ;;
    esac
) >/dev/null 2>&1 </dev/null

# lacks TOOL..: prints the tools that are not here, with the packages to install; nothing if all are here. Fails if
# tests/packages.txt does not have a tool.
lacks() {
    local tool missing='' packages=''
    for tool in "$@"; do
        [ -n "${packages_of[$tool]+known}" ] || {
            echo "tests/packages.txt does not have $tool"
            return 1
        }
        is_here "$tool" && continue
        missing+="${missing:+, }no $tool" packages+=" ${packages_of[$tool]}"
    done
    packages=$(tr ' ' '\n' <<<"$packages" | sed '/^$/d' | sort -u | paste -sd ' ')
    [ -z "$missing" ] || echo "$missing${packages:+ (apt-get install $packages)}"
}

if [ "$0" = "${BASH_SOURCE[0]}" ]; then
    [ $# -gt 0 ] || set -- "${!packages_of[@]}"
    lacks "$@"
fi
