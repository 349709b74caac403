# shellcheck shell=bash disable=SC2034
# How a script of tests/ begins. Sourced, it goes to an empty directory, $workdir, that is removed at the
# end, and standard input is empty. $root is the repository. expect.sh counts rows, tools.sh looks for tools.

root=$(cd "$(dirname "${BASH_SOURCE[0]}")/../.." && pwd)
# shellcheck source=tests/lib/expect.sh
. "$root/tests/lib/expect.sh"
# shellcheck source=tests/lib/tools.sh
. "$root/tests/lib/tools.sh"
workdir=$(mktemp -d) || exit 1
trap 'rm -rf "$workdir"' EXIT
cd "$workdir" || exit 1
exec </dev/null
