#!/usr/bin/env bash
# Opens an image of many small files with `gclq`, and prints the seconds of deleting each of them, in rising, falling and shuffled order
# (target: 4 for 100,000 files), of pairs of a deletion and a count, of a deletion and a merge, and of an add and a merge. Each is less the
# seconds of opening. It also prints the peak kilobytes of a run. The argument is the number of files.
. "$(dirname "$0")/common.sh"
need_gclq
files=${1:-100000}
cd "$work"
printf 'a b' > a
python3 - "$files" <<'P'
import random, sys
files = int(sys.argv[1])
random.seed(17)
ids = list(range(files))
shuffled = random.sample(ids, files)
pairs = range(min(2000, files))
scripts = {
    "made": ["add a"] * files + ["save image"],
    "opened": [],
    "rising": [f"del {i}" for i in ids],
    "falling": [f"del {i}" for i in reversed(ids)],
    "shuffled": [f"del {i}" for i in shuffled],
    "del_count": [line for i in pairs for line in (f"del {shuffled[i]}", 'count "b"')],
    "del_merge": [line for i in pairs for line in (f"del {shuffled[i]}", "merge")],
    "add_merge": ["add a", "merge"] * len(pairs),
}
for name, lines in scripts.items():
    with open(name, "w") as out:
        out.write("\n".join((["open image"] if name != "made" else []) + lines) + "\n")
P
"$program" < made > /dev/null
read -r opened _ <<< "$(measure opened "$program")"
printf 'opened: %.3f s\n' "$opened"
for name in rising falling shuffled del_count del_merge add_merge; do
  read -r took _ <<< "$(measure $name "$program")"
  awk -v n="$name" -v t="$took" -v o="$opened" -v l="$(wc -l < $name)" -v m="$(memory "$program" < $name)" \
    'BEGIN { printf "%-10s %7.3f s, %.1f us a line, %d kB\n", n, t - o, 1e6 * (t - o) / (l - 1), m }'
done
