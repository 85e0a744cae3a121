#!/usr/bin/env bash
# Shards of a text of 20 MB with 5,000 different words, and of one of 5 MB in which most words occur once. Prints ratios of one run: seconds
# of building to seconds of cutting (target 6), and the bytes that an additional shard keeps to those of the packed differences and the
# different terms (target 2). It makes its texts, or takes the files that are named.
. "$(dirname "$0")/common.sh"
need_measure
if [ $# -eq 0 ]; then
  python3 - "$work" <<'P'
import random, sys
random.seed(7)
common = ["the", "of", "and", "to", "be"] * 20
few = common + ["w%d" % n for n in range(5000)]
for name, size, words in (("few", 20_000_000, few), ("many", 5_000_000, None)):
    with open(f"{sys.argv[1]}/{name}", "w") as out:
        written = 0
        while written < size:
            line = " ".join(random.choices(words, k=2000) if words else
                            [random.choice(common) if random.random() < 0.5 else "w%d" % random.getrandbits(40) for _ in range(2000)]) + "\n"
            out.write(line)
            written += len(line)
P
  set -- "$work/few" "$work/many"
fi
# prints the bytes of the packed differences and of the different terms, for texts of words alone
packed() { python3 -c '
import re, sys
last, size, at = {}, 0, 0
for word in re.findall(rb"[0-9A-Za-z\x80-\xff]+", open(sys.argv[1], "rb").read()):
    word, at = word.lower(), at + 1
    difference = at - last.get(word, 0)
    size += max(1, (difference.bit_length() + 6) // 7)
    last[word] = at
print(size + sum(map(len, last)))' "$1"; }
for text in "$@"; do
  cut=$("$counter" tokens "$text" | awk '{ print $(NF - 1) }')
  built=$("$counter" shards "$text" 1 | awk '{ print $(NF - 1) }')
  one=$(memory "$counter" shards "$text" 1)
  five=$(memory "$counter" shards "$text" 5)
  awk -v n="$(basename "$text")" -v c="$cut" -v b="$built" -v o="$one" -v f="$five" -v p="$(packed "$text")" 'BEGIN {
    printf "%s: cut in %.3f s, shard built in %.3f s: ratio %.2f (target 6)\n", n, c / 1e9, b / 1e9, b / c
    printf "%s: %.2f MB a shard, differences and terms %.2f MB: ratio %.2f (target 2)\n", n, (f - o) * 1024 / 4e6, p / 1e6, (f - o) * 256 / p
  }'
done
