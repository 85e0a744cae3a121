#!/usr/bin/env bash
# proofs.sh CRATE [ROWS]: proves a crate from scratch with one job, and prints the seconds that each function and each file of lemmas took,
# the slowest first, with the part of them that went into each kind of module. It uses the times at which the checker kept its files, so run
# it when little else runs. `Lts` proves that a function borrows correctly, `Proof` its goals, among them those that a tactic has to find.
set -eu
cd "$(dirname "$0")/../crates/${1:?proofs.sh CRATE [ROWS]}"
rm -rf out/incremental
rt check --jobs 1 > /dev/null
python3 - "${2:-30}" <<'P'
import collections, os, re, sys

files = [os.path.join(folder, name) for folder, _, names in os.walk("out/incremental") for name in names if name.endswith(".oantt")]
kept = sorted((os.stat(path).st_mtime, os.path.basename(path)[: -len(".oantt")]) for path in files)
took, parts = collections.Counter(), collections.defaultdict(collections.Counter)
for (before, _), (after, name) in zip(kept, kept[1:]):
    # Rattle-CRATE-proofs.MODULE.FUNCTION.KIND.decls: what comes before the first word of a kind is what was proved
    path = re.sub(r"^Rattle-\w+?(-proofs|-specs|\.\w+)?\.", "", name)
    subject, _, kind = re.sub(r"\.decls$", "", path).rpartition(".")
    if not re.match(r"(Lts|Proof|Tie|Reads|Answers|Invariants|Goals|Given|Kinds|Code|Mir)\b", kind):
        subject, kind = path, "lemmas"
    took[subject] += after - before
    parts[subject][kind.split("-")[0]] += after - before
print(f"{sum(took.values()):8.1f} s in all")
for subject, seconds in took.most_common(int(sys.argv[1])):
    kinds = ", ".join(f"{kind} {part:.1f}" for kind, part in parts[subject].most_common(3) if part > 0.1)
    print(f"{seconds:8.1f} {subject}: {kinds}")
P
