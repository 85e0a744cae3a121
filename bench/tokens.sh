#!/usr/bin/env bash
# Adds 20 MB of text with many tags, and 1,000 and 10,000 small files, and prints ratios of one run:
# seconds to `wc -w` on the same text (target 6), and the growth of time over the growth of the number of files (1.15).
. "$(dirname "$0")/common.sh"
need_gclq
python3 - "$work" <<'P'
import random, sys
random.seed(7)
words = ["to", "be", "or", "not"] * 20 + ["w%d" % n for n in range(5000)]
with open(f"{sys.argv[1]}/page", "w") as out:
    written = 0
    while written < 20_000_000:
        line = '<p class="c">%s <b>%s</b><br/></p>\n' % (" ".join(random.choices(words, k=4)), random.choice(words))
        out.write(line)
        written += len(line)
for count in (1_000, 10_000):
    with open(f"{sys.argv[1]}/{count}.gclq", "w") as script:
        for n in range(count):
            script.write(f"add f{n}\n")
for n in range(10_000):
    with open(f"{sys.argv[1]}/f{n}", "w") as out:
        out.write(" ".join(random.choices(words, k=60)))
P
cd "$work"
printf 'add page\n' > page.gclq
read -r counted _ <<< "$(measure /dev/null wc -w page)"
read -r page _ <<< "$(measure page.gclq "$program")"
read -r few _ <<< "$(measure 1000.gclq "$program")"
read -r many _ <<< "$(measure 10000.gclq "$program")"
awk -v c="$counted" -v p="$page" -v f="$few" -v m="$many" 'BEGIN {
  printf "wc -w %.3f s, gclq %.3f s: ratio %.2f (target 6)\n", c, p, p / c
  printf "1,000 files %.3f s, 10,000 files %.3f s: grows %.2f times as fast as their number (target 1.15)\n", f, m, m / f / 10
}'
