#!/usr/bin/env bash
# Opens an image of made text (5 MB, and 50), adds 1,000 small files of 2 KB to it, and deletes 200 of them: without watches, with 4 and
# with 16 of the usual kinds. Prints the seconds of the adds and of the deletions, the least of five runs, their ratio to those without
# watches (targets 1.6 with 4 watches and 3 with 16), and the ratio of 50 MB to 5 (target 1.3). The last line is a watch for which whole
# lists have to be gone through.
. "$(dirname "$0")/common.sh"
need_gclq
cd "$work"
python3 - "$program" <<'P'
import itertools, random, subprocess, sys
from asking import do

[program] = sys.argv[1:]
random.seed(11)
words = [f"w{n}" for n in range(20000)]
sums = list(itertools.accumulate(1 / (n + 10) for n in range(20000)))

def text(size):
    lines, length = [], 0
    while length < size:
        line = "<l>" + " ".join(random.choices(words, cum_weights=sums, k=12)) + "</l>"
        lines.append(line)
        length += len(line) + 1
    return "\n".join(lines)

for megabytes in (5, 50):
    for file in range(10):
        with open(f"base{megabytes}.{file}", "w") as out:
            out.write(text(megabytes * 100_000))
    with open(f"make{megabytes}", "w") as out:
        out.write("".join(f"add base{megabytes}.{file}\n" for file in range(10)) + f"save image{megabytes}\n")
for file in range(50):
    with open(f"small{file}", "w") as out:
        out.write(text(2000))

line = '("<l>".."</l>")'
def kinds(n):
    return [f'"w{n} w{n + 1}"', f'"w{n}" < ({line} > "w{n + 2}")', f'{line} > "w{n + 40}"', f'("w{n}" ^ "w{n + 3}") < [5]',
            f'({line} > "w{n}") /> "w{n + 5}"']
watched = [query for n in (0, 5, 25, 300) for query in kinds(n)][:16]
adds = [f"add small{file % 50}" for file in range(1000)]
dels = [f"del {10 + file}" for file in range(0, 1000, 5)]
sets = {"no": [], "4": watched[:4], "16": watched, "the far": ['"w0" /< ("w1".."never")']}

def run_once(megabytes, queries):
    """The seconds of the adds, and of the deletions."""
    run = subprocess.Popen([program], stdin=subprocess.PIPE, stdout=subprocess.PIPE)
    do(run, [f"open image{megabytes}"] + [f"watch {query}" for query in queries])
    took = do(run, adds), do(run, dels)
    run.stdin.close()
    run.wait()
    return took

took = {}
for megabytes in (5, 50):
    subprocess.run([program], stdin=open(f"make{megabytes}"), stdout=subprocess.DEVNULL, check=True)
    for name, queries in sets.items():
        runs = [run_once(megabytes, queries) for _ in range(5 if name != "the far" else 1)]
        took[megabytes, name] = tuple(map(min, zip(*runs)))
        words = f"{megabytes:>2} MB, {name} watches:"
        for kind, part, plain, small in zip(("1,000 adds", "200 deletions"), took[megabytes, name], took[megabytes, "no"], took[5, name]):
            words += f"  {kind} {1e3 * part:.1f} ms, {part / plain:.2f} times"
            words += f", {part / small:.2f} of 5 MB" if megabytes == 50 else ""
        print(words, flush=True)
P
