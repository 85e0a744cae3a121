# What the checks that run a program share: the program, proved and built, and an empty folder of their own, in which they continue. Each
# begins with `. "$(dirname "$0")/common.sh"`, after `program=gclgrep` if it runs that and not gclq. The program's path is in the variable
# of its name. GCLQ and GCLGREP name programs to run instead of those of this checkout.
set -eu
here=$(cd "$(dirname "${BASH_SOURCE[0]}")/.." && pwd)
program=${program:-gclq}
given=${program^^}
built_by=()
[ "$program" = gclq ] || built_by=(--version)
[ -n "${!given:-}" ] || "$here/$program" "${built_by[@]}" < /dev/null > /dev/null
printf -v "$program" %s "${!given:-$here/crates/$program/out/$program}"
work=$(mktemp -d)
trap 'rm -rf "$work"' EXIT
cd "$work"
