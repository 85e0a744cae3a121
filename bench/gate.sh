#!/usr/bin/env bash
# gate.sh [COMMIT [CRATE..]]: runs the proofs, tests and must-fail edits of a commit (HEAD, if none is named) in a clone, from scratch, and
# prints the processor seconds that the provers took, by what they did and by crate. If crates are named, it runs only theirs and those of
# the crates below. It takes an hour or two, and other work on the machine increases the seconds: so compare two commits on one machine,
# when nothing else runs.
. "$(dirname "$0")/common.sh"
git clone -q "$here" "$work/clone"
git -C "$work/clone" checkout -q "${1:-HEAD}"
cd "$work/clone"
shift $(($# > 0))
rt ci --anew "$@" > "$work/log" 2>&1 &
python3 - $! << 'P'
import collections, os, sys, time

[gate] = sys.argv[1:]
tick = os.sysconf("SC_CLK_TCK")

def stat(process):
    """A process's name, its parent, when it began, and the seconds that it and those of its children that ended took."""
    with open(f"/proc/{process}/stat") as file:
        name, _, rest = file.read().partition("(")[2].rpartition(")")
    fields = rest.split()
    return name, fields[1], fields[19], sum(map(int, fields[11:15])) / tick

def is_below(process):
    """Whether the gate began a process, itself or by others."""
    while process not in (gate, "0", "1"):
        process = stat(process)[1]
    return process == gate

def kind_of(process, words):
    """What a run of the prover is for: an edit is tried in a folder of its own, over what a proof of the crate kept in a folder `seed`."""
    if "/rt-edit-" in os.readlink(f"/proc/{process}/cwd"):
        return "proofs that edits begin with" if any(word.endswith("/seed") for word in words) else "edits"
    return "tests" if "--test" in words else "compiling" if "--crate-checked" in words else "proofs"

def runs(process):
    """Whether a process still runs: one that ended may be there until it is waited for."""
    try:
        with open(f"/proc/{process}/stat") as file:
            return file.read().rpartition(")")[2].split()[0] != "Z"
    except OSError:
        return False

took, kinds = {}, {}
while runs(gate):
    for process in filter(str.isdigit, os.listdir("/proc")):
        try:
            name, parent, began, seconds = stat(process)
            if name != "rattle" or stat(parent)[0] == "rattle":
                continue
            key = process, began
            if key not in kinds:
                with open(f"/proc/{process}/cmdline") as file:
                    words = file.read().split("\0")
                if "--crate-name" not in words or not is_below(process):
                    continue
                kinds[key] = words[words.index("--crate-name") + 1], kind_of(process, words)
            took[key] = seconds
        except (OSError, ValueError, IndexError):
            # it ended meanwhile
            pass
    time.sleep(0.5)

sums, crates = collections.Counter(), collections.defaultdict(collections.Counter)
for key, seconds in took.items():
    crate, kind = kinds[key]
    sums[kind] += seconds
    crates[crate][kind] += seconds
for crate, parts in sorted(crates.items(), key=lambda it: -sum(it[1].values())):
    print(f"{sum(parts.values()):8.0f} {crate}: " + ", ".join(f"{kind} {part:.0f}" for kind, part in parts.most_common()))
print(f"{sum(sums.values()) / 60:.1f} minutes of a processor: " + ", ".join(f"{kind} {part / 60:.1f}" for kind, part in sums.most_common()))
P
tail -n 3 "$work/log"
