#!/usr/bin/env bash
# Makes a posting list of a million addresses and prints ratios of one run: a look-up at a random place to binary search over the plain
# numbers (target 2.5), and a walk over all of them to their sum (target 4, or 150 million a second). Then, over a text of 10 MB with 5,000
# different words that it makes, or over each file that is named, the bytes that a posting takes in the lists of 64 or more, and their ratio
# to the packed differences alone (target 1.35).
. "$(dirname "$0")/common.sh"
need_measure
"$counter" lists | awk '
  /look-ups/ { printf "look-up %.0f ns, by partition_point %.0f ns: ratio %.2f (target 2.5)\n", $3 / 1e6, $7 / 1e6, $3 / $7 }
  /walk/ { printf "walk %.2f ns a posting, sum %.2f ns: ratio %.2f (target 4), %.0f million a second (target 150)\n", $4 / 1e6, $7 / 1e6, $4 / $7, 1e9 / $4 }'
if [ $# -eq 0 ]; then
  python3 - "$work/made" <<'P'
import random, sys
random.seed(7)
words = ["the", "of", "and", "to", "be"] * 200 + ["w%d" % n for n in range(5000)]
with open(sys.argv[1], "w") as out:
    written = 0
    while written < 10_000_000:
        line = " ".join(random.choices(words, k=2000)) + "\n"
        out.write(line)
        written += len(line)
P
  set -- "$work/made"
fi
for text in "$@"; do
  one=$(memory "$counter" packed "$text" 1)
  five=$(memory "$counter" packed "$text" 5)
  "$counter" packed "$text" 1 | awk -v n="$(basename "$text")" -v o="$one" -v f="$five" '{
    kept = (f - o) * 1024 / 4
    printf "%s: %d lists of 64 or more, %.3f bytes a posting, differences %.3f: ratio %.2f (target 1.35)\n", n, $4, kept / $1, $6 / $1, kept / $6
  }'
done
