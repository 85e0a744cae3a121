#!/usr/bin/env bash
# Runs `--made 7 --count 1000` with one reader, four and sixteen: prints the five lines, which must be the same, and the ratio of the
# seconds with four to those with one (target 1.2 on four processors: its batches are too small to be shared). Then it prints the memory of
# that run to the memory of one that adds the same files (target 2): it makes these as the definition of the corpus says.
. "$(dirname "$0")/common.sh"
need_gclq
cd "$work"
python3 - <<'P'
def drawing(state):
    def draw(most):
        nonlocal state
        state = (6364136223846793005 * state + 1442695040888963407) % 2**64
        return (state >> 33) % most
    return draw

def item(draw):
    kind = draw(100)
    if kind < 20:
        return "<s>" if kind < 10 else "</s>"
    left = draw(50)
    return "w%d" % (left * draw(20))

for i in range(1000):
    draw = drawing(7 + i)
    with open(f"m{i}", "w") as out:
        out.write(" ".join(item(draw) for _ in range(20 + draw(200))))
with open("adds", "w") as out:
    out.writelines(f"add m{i}\n" for i in range(1000))
P
made=(--made 7 --count 1000)
for readers in 1 4 16; do
  "$program" "${made[@]}" --readers $readers < /dev/null > "lines$readers" || [ $? -eq 1 ]
  cmp lines1 "lines$readers"
done
cat lines1
# in turn, and the medians: what the machine does beside them falls on all alike, and one run alone may have a core that four share. Four runs with one
# reader at the same time tell how many processors the machine lends in fact: where other work takes some, the ratio says little of the program
read -r one four quickest_one quickest_four at_once <<< "$(python3 - "$program" "${made[@]}" <<'P'
import statistics, subprocess, sys, time

def start(readers):
    return subprocess.Popen([*sys.argv[1:], "--readers", str(readers)], stdin=subprocess.DEVNULL, stdout=subprocess.DEVNULL)

def seconds(*readers):
    begin = time.time()
    for run in [start(n) for n in readers]:
        run.wait()
    return time.time() - begin

took = [(seconds(1), seconds(4), seconds(1, 1, 1, 1)) for _ in range(15)]
one, four, at_once = zip(*took)
print(*map(statistics.median, (one, four)), min(one), min(four), statistics.median(at_once))
P
)"
awk -v a="$four" -v b="$one" -v c="$quickest_four" -v d="$quickest_one" -v e="$at_once" -v p="$(nproc)" 'BEGIN {
  printf "four readers %.3f s, one %.3f s on %s processors, the medians of 15 runs: ratio %.2f (target 1.2 on four); the quickest %.3f s and %.3f s\n", a, b, p, a / b, c, d
  printf "four runs with one reader at the same time %.3f s: the machine lent %.1f processors\n", e, 4 * b / e }'
adding=$(memory "$program" < adds)
memory=$(memory "$program" "${made[@]}" --readers 4 < /dev/null)
awk -v a="$memory" -v b="$adding" 'BEGIN { printf "memory %.1f MB, of adding the same files %.1f MB: ratio %.2f (target 2)\n", a / 1024, b / 1024, a / b }'
