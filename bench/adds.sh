#!/usr/bin/env bash
# Adds the files of a folder with `gclq`, in one thread, and prints ratios of one run: seconds to those of `wc -w` over the same files and,
# where LIMIT names a program, to its reading and indexing of them (target 2.5). `LIMIT build FOLDER` prints JSON with the seconds `read_s`
# and `index_s`. FOLDER has a file LIST.txt, with a name for each file. Without a folder it makes 20 MB of text as 10 files and as 1,000,
# and also prints the ratio of the many to the few (target 1.6).
. "$(dirname "$0")/common.sh"
need_gclq

# Prints the seconds of adding the files of a folder, beside those of others: added FOLDER NAME
added() {
  sed 's/^/add /' "$1/LIST.txt" > "$work/script"
  cd "$1"
  xargs cat < LIST.txt > "$work/whole"
  read -r seconds _ <<< "$(measure "$work/script" "$program")"
  read -r counted _ <<< "$(measure /dev/null wc -w "$work/whole")"
  printf '%s: added in %.3f s, wc -w %.3f s: ratio %.1f\n' "$2" "$seconds" "$counted" "$(awk -v a="$seconds" -v b="$counted" 'BEGIN { print a / b }')"
  if [ -n "${LIMIT:-}" ]; then
    for _ in 1 2 3; do "$LIMIT" build "$1"; done | python3 -c '
import json, sys
least = min(run["read_s"] + run["index_s"] for run in map(json.loads, sys.stdin))
print(f"  limit {least:.3f} s: ratio {float(sys.argv[1]) / least:.2f} (target 2.5)")' "$seconds"
  fi
}

if [ $# -gt 0 ]; then
  added "$(cd "$1" && pwd)" "$(basename "$1")"
  exit
fi
python3 - "$work" <<'P'
import os, random, sys
random.seed(7)
words = ["the", "of", "and", "to", "be"] * 20 + ["w%d" % n for n in range(5000)]
text = "".join(" ".join(random.choices(words, k=2000)) + "\n" for _ in range(3000)).encode()[:20_000_000]
for name, count in (("few", 10), ("many", 1000)):
    folder = f"{sys.argv[1]}/{name}"
    os.mkdir(folder)
    names = [f"f{i}" for i in range(count)]
    for i, file in enumerate(names):
        with open(f"{folder}/{file}", "wb") as out:
            out.write(text[i * len(text) // count:(i + 1) * len(text) // count])
    with open(f"{folder}/LIST.txt", "w") as out:
        out.write("".join(f"{file}\n" for file in names))
P
added "$work/few" "20 MB as 10 files"
few=$seconds
added "$work/many" "20 MB as 1,000 files"
awk -v f="$few" -v m="$seconds" 'BEGIN { printf "many files to few: ratio %.2f (target 1.6)\n", m / f }'
