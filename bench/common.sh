# What the scripts here share: the programs, a folder to work in, and clocks. Each begins with `. "$(dirname "$0")/common.sh"`. GCLQ and
# MEASURE name programs to run instead of those of this checkout.
set -eu
here=$(cd "$(dirname "${BASH_SOURCE[0]}")/.." && pwd)
# what asking.py has can be imported, and leaves nothing behind
export PYTHONPATH=$here/bench PYTHONDONTWRITEBYTECODE=1
work=$(mktemp -d)
trap 'rm -rf "$work"' EXIT

# Builds gclq if it has to, and sets `program` to its path.
need_gclq() {
  program=${GCLQ:-$here/crates/gclq/out/gclq}
  [ -n "${GCLQ:-}" ] || "$here/gclq" < /dev/null
}

# Builds the program that measures lists, shards and slots, and sets `counter` to its path.
need_measure() {
  counter=${MEASURE:-$here/crates/measure/out/measure}
  [ -n "${MEASURE:-}" ] || (cd "$here/crates/measure" && "$here/launch" measure tokens data/a) > "$work/log" 2>&1 || { cat "$work/log" >&2; exit 1; }
}

# Prints the seconds of the quickest of three runs of a command over an input, and the most kilobytes that a command took so far: measure INPUT COMMAND..
measure() { python3 -c '
import resource, subprocess, sys, time
best = 1e9
for _ in range(3):
    begin = time.time()
    run = subprocess.run(sys.argv[2:], stdin=open(sys.argv[1]), stdout=subprocess.DEVNULL)
    best = min(best, time.time() - begin)
    if run.returncode > 1:
        sys.exit(f"status {run.returncode}: {sys.argv[2:]}")
print(best, resource.getrusage(resource.RUSAGE_CHILDREN).ru_maxrss)' "$@"; }

# Prints the kilobytes of one run of a command. What a process takes is counted from its parent's on, so a small shell waits for it, and becomes
# what prints the number.
memory() { sh -c '"$@" > /dev/null || [ $? -eq 1 ] || exit 1
exec python3 -c "import resource; print(resource.getrusage(resource.RUSAGE_CHILDREN).ru_maxrss)"' sh "$@"; }
