#!/usr/bin/env bash
# Saves and opens images with `gclq`, and prints ratios: seconds of opening to those of adding the files (target 0.2), seconds of saving to
# those of adding (target 0.5), the memory of a run that opens, less that of one that does nothing, to the bytes of the image (target 3),
# and the bytes of the image to those that version 1 of the format would have (target below 1). The files are made: 100 texts of 200,000
# bytes. A text named as the argument is measured instead, cut into 100 files.
. "$(dirname "$0")/common.sh"
need_gclq
python3 - "$work" "${1:-}" <<'P'
import random, sys
random.seed(13)
words = ["the", "of", "and", "to", "be"] * 400 + ["w%d" % n for n in range(5000)]
def made(size):
    lines, written = [], 0
    while written < size:
        lines.append("<l>" + " ".join(random.choices(words, k=20)) + "</l>\n")
        written += len(lines[-1])
    return "".join(lines).encode()
text = open(sys.argv[2], "rb").read() if sys.argv[2] else made(20_000_000)
for i in range(100):
    with open(f"{sys.argv[1]}/f{i}", "wb") as out:
        out.write(text[i * len(text) // 100:(i + 1) * len(text) // 100])
P
cd "$work"
for i in $(seq 0 99); do printf 'add f%s\n' "$i"; done > add
{ cat add; echo 'save image'; } > save
echo 'open image' > open
: > none
read -r added _ <<< "$(measure add "$program")"
read -r saved _ <<< "$(measure save "$program")"
read -r _ idle <<< "$(measure none "$program")"
read -r opened held <<< "$(measure open "$program")"
# the bytes that version 1 would have for the collection of an image in version 2: see docs/FORMAT.md
first=$(python3 - image <<'P'
import sys
bytes_ = open(sys.argv[1], "rb").read()
at = 8
def fixed():
    global at
    at += 8
    return int.from_bytes(bytes_[at - 8:at], "little")
def packed():
    global at
    value, shift = 0, 0
    while True:
        byte = bytes_[at]
        at += 1
        value |= (byte & 127) << shift
        shift += 7
        if byte < 128:
            return value
for _ in range(3):
    fixed()
size = 48
for _ in range(fixed()):
    packed(), packed(), packed()
    name = packed()
    at += name
    size += 28 + name
for _ in range(fixed()):
    term = packed()
    at += term
    count = packed() + 1
    begin = at
    for _ in range(count):
        while bytes_[at] > 127:
            at += 1
        at += 1
    size += 12 + term + at - begin
print(size)
P
)
awk -v a="$added" -v s="$saved" -v o="$opened" -v h="$held" -v i="$idle" -v b="$(stat -c %s image)" -v f="$first" 'BEGIN {
  printf "added in %.3f s, opened in %.3f s: ratio %.2f (target 0.2)\n", a, o, o / a
  printf "saved in %.3f s more: ratio %.2f (target 0.5)\n", s - a, (s - a) / a
  printf "image of %.1f MB, opened in %.1f MB: ratio %.2f (target 3)\n", b / 1e6, (h - i) * 1024 / 1e6, (h - i) * 1024 / b
  printf "bytes of the image to those of version 1: %.3f (target below 1)\n", b / f
}'
