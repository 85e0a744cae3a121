#!/usr/bin/env bash
# What a run keeps of its script and of its answers. A script of 50 MB with a `find` in each line, compared with one of ten such lines:
# memory (target 4 MB more). An answer of 10,000,000 intervals, compared with only their number: memory (4 MB more), and the seconds of
# printing it, which are those of the `find` less those of the `count`, to those in which `seq` writes as many bytes (target 3). The
# intervals are those of a file that has one word ten million times. It is opened from an image, since adding it takes memory of its own, in
# which an answer that is kept could hide.
. "$(dirname "$0")/common.sh"
need_gclq
cd "$work"
printf 'to be or not to be' > a
find='find ("to" ^ "not") + ("be" .. "or") + "be or not to be"'
for _ in $(seq 10); do printf '%s\n' "$find"; done > ten
python3 - "$find" <<'P'
import sys
line = sys.argv[1] + "\n"
with open("many", "w") as out:
    out.write(line * (50_000_000 // len(line)))
P
yes 'x ' | tr -d '\n' | head -c 20000000 > x
printf 'add x\nsave image\n' | "$program" > saved
for lines in ten many; do { echo 'add a'; cat $lines; } > $lines.gclq; done
for command in find count; do printf 'open image\n%s "x"\n' $command > $command.gclq; done
ten=$(memory "$program" < ten.gclq)
many=$(memory "$program" < many.gclq)
found=$(memory "$program" < find.gclq)
counted=$(memory "$program" < count.gclq)
bytes=$("$program" < find.gclq | wc -c)
[ "$bytes" -gt 100000000 ]
read -r printing _ <<< "$(measure find.gclq "$program")"
read -r counting _ <<< "$(measure count.gclq "$program")"
# eight digits and a newline in each line
read -r writing _ <<< "$(measure /dev/null seq 10000000 $((10000000 + bytes / 9 - 1)))"
awk -v t="$ten" -v m="$many" -v f="$found" -v c="$counted" -v p="$printing" -v n="$counting" -v w="$writing" -v b="$bytes" 'BEGIN {
  printf "a script of 50 MB %.1f MB, of ten lines %.1f MB: %.1f MB more (target 4)\n", m / 1024, t / 1024, (m - t) / 1024
  printf "ten million intervals %.1f MB, their number %.1f MB: %.1f MB more (target 4)\n", f / 1024, c / 1024, (f - c) / 1024
  printf "printed in %.2f s, %.0f MB by seq in %.2f s: ratio %.2f (target 3)\n", p - n, b / 1e6, w, (p - n) / w
}'
