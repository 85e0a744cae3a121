#!/usr/bin/env bash
# Adds texts with `gclq`, and prints ratios of one run: seconds of adding 20 MB in one file to those of `wc -w` (target 7), seconds of
# adding 153 MB as 5,000 files to those of the same bytes as 50 (target 1.6), and the memory of a run that adds a text of 20 MB with many
# tags to the bytes of the text (target 0.6, not counting the text itself). It makes its texts.
. "$(dirname "$0")/common.sh"
need_gclq
python3 - "$work" <<'P'
import random, sys
random.seed(7)
words = ["the", "of", "and", "to", "be"] * 20 + ["w%d" % n for n in range(5000)]
def made(size, line_of):
    lines, written = [], 0
    while written < size:
        lines.append(line_of())
        written += len(lines[-1])
    return "".join(lines).encode()[:size]
def kept(name, text):
    with open(f"{sys.argv[1]}/{name}", "wb") as out:
        out.write(text)
def script(name, files):
    kept(name, "".join(f"add {file}\n" for file in files).encode())
def plain():
    return " ".join(random.choices(words, k=2000)) + "\n"
def tagged():
    a, b, c = random.choices(words, k=3)
    return f"<line><speaker>{a}</speaker>{b} {c}</line>\n"
kept("text", made(20_000_000, plain))
script("one", ["text"])
long = made(153_000_000, plain)
for name, count in (("few", 50), ("many", 5000)):
    files = [f"{name}{i}" for i in range(count)]
    for i, file in enumerate(files):
        kept(file, long[i * len(long) // count:(i + 1) * len(long) // count])
    script(name, files)
kept("tags", made(20_000_000, tagged))
script("tagged", ["tags"])
P
cd "$work"
read -r counted _ <<< "$(measure text wc -w)"
read -r one _ <<< "$(measure one "$program")"
read -r few _ <<< "$(measure few "$program")"
read -r many _ <<< "$(measure many "$program")"
read -r _ held <<< "$(measure tagged "$program")"
awk -v w="$counted" -v o="$one" -v f="$few" -v m="$many" -v h="$held" -v s="$(stat -c %s tags)" 'BEGIN {
  printf "one file of 20 MB added in %.3f s, wc -w %.3f s: ratio %.2f (target 7)\n", o, w, o / w
  printf "153 MB as 5,000 files %.3f s, as 50 files %.3f s: ratio %.2f (target 1.6)\n", m, f, m / f
  printf "memory beside the bytes %.0f MB, bytes %.0f MB: ratio %.2f (target 0.6)\n", (h * 1024 - s) / 1e6, s / 1e6, (h * 1024 - s) / s
}'
