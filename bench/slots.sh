#!/usr/bin/env bash
# Counts queries over a text of 1 MB that is 1, 4 and 16 times in a version, each time in a slot of its own: the intervals, the look-ups,
# and the nanoseconds of a look-up compared with those in one slot, by bytes and by fingers. It makes its text.
. "$(dirname "$0")/common.sh"
need_measure
python3 - "$work" <<'P'
import random, sys
random.seed(11)
words = ["the", "of", "and", "to", "be"] * 400 + ["w%d" % n for n in range(5000)]
with open(f"{sys.argv[1]}/text", "w") as out:
    written = 0
    while written < 1_000_000:
        line = "<l>" + " ".join(random.choices(words, k=20)) + "</l>\n"
        out.write(line)
        written += len(line)
P
for query in '"the" ^ "w17"' '"of the"' '"the" < ("<l>".."</l>")'; do
  one=
  for times in 1 4 16; do
    read -r look_ups took fingered fewer <<< "$("$counter" slots "$work/text" "$times" "$query" | awk '{ print $5, $8, $12, $14 }')"
    one=${one:-$(awk -v l="$look_ups" -v t="$took" 'BEGIN { print t / l }')}
    awk -v q="$query" -v n="$times" -v l="$look_ups" -v t="$took" -v o="$one" -v f="$fingered" -v g="$fewer" 'BEGIN { printf "%-28s %2d slots: %d look-ups, %.0f ns each, ratio to one slot %.2f, by fingers %d, %.0f ns each\n", q, n, l, t / l, t / l / o, g, f / g }'
  done
done
