#!/usr/bin/env bash
# Adds a plain text of 20 MB and one of 40 MB, with three finds each, and prints ratios of one run: seconds to `wc -w` on the same text,
# bytes of memory to bytes of text, and the longer text to the shorter. It makes its texts and builds only the program. Targets: 5, 8 and
# 2.3.
. "$(dirname "$0")/common.sh"
need_gclq
python3 - "$work" <<'P'
import random, sys
random.seed(7)
words = ["the", "of", "and", "to", "be"] * 20 + ["w%d" % n for n in range(5000)]
for name, size in (("one", 20_000_000), ("two", 40_000_000)):
    with open(f"{sys.argv[1]}/{name}", "w") as out:
        written = 0
        while written < size:
            line = " ".join(random.choices(words, k=2000)) + "\n"
            out.write(line)
            written += len(line)
P
cd "$work"
for name in one two; do
  printf 'add %s\nfind "w17"\nfind "w4711"\nfind "absent"\n' "$name" > "$name.gclq"
done
read -r counted _ <<< "$(measure /dev/null wc -w one)"
read -r one memory <<< "$(measure one.gclq "$program")"
read -r two _ <<< "$(measure two.gclq "$program")"
size=$(stat -c %s one)
awk -v c="$counted" -v o="$one" -v t="$two" -v m="$memory" -v s="$size" 'BEGIN {
  printf "wc -w %.3f s, gclq %.3f s: ratio %.2f (target 5)\n", c, o, o / c
  printf "memory %.0f MB over a text of %.0f MB: ratio %.2f (target 8)\n", m / 1000, s / 1000000, m * 1024 / s
  printf "twice the text %.3f s: ratio %.2f (target 2.3)\n", t, t / o
}'
