#!/usr/bin/env bash
# Queries over your own texts: bench/corpus.sh FOLDER [QUERIES]. Adds each file of the folder (those that LIST.txt names there, if it has
# one), and asks each line of the file QUERIES (by default bench/kjv.queries) thirty times through a pipe. Prints seconds and megabytes of
# adding, and for each query how many intervals it has, and the minimum and median microseconds from its line to the end of its answer.
. "$(dirname "$0")/common.sh"
need_gclq
[ $# -ge 1 ] || { echo "usage: bench/corpus.sh FOLDER [QUERIES]" >&2; exit 2; }
python3 - "$program" "$1" "${2:-$here/bench/kjv.queries}" <<'P'
import os, statistics, subprocess, sys, time
from asking import ask, kept
program, folder, queries = sys.argv[1:]
chosen = os.path.join(folder, "LIST.txt")
names = open(chosen).read().split() if os.path.exists(chosen) else sorted(os.listdir(folder))
run = subprocess.Popen([program], cwd=folder, stdin=subprocess.PIPE, stdout=subprocess.PIPE)
begin = time.perf_counter()
for name in names:
    ask(run, f"add {name}")
seconds = time.perf_counter() - begin
size = sum(os.path.getsize(os.path.join(folder, name)) for name in names)
print(f"{len(names)} files, {size / 1e6:.1f} MB: added in {seconds:.3f} s, {kept(run) / 1e3:.0f} MB of memory at most")
# what a line and an answer take that ask nothing of the index
empty = min(ask(run, 'count "zzxqq"')[1] for _ in range(100))
print(f"a word that nothing holds: {empty * 1e6:.0f} us")
for line in open(queries):
    line = line.strip()
    if line and not line.startswith("#"):
        times = [ask(run, line) for _ in range(30)]
        took = sorted(seconds for _, seconds in times)
        print(f"{took[0] * 1e6:10.0f} {statistics.median(took) * 1e6:10.0f} us  {times[0][0]:>10}  {line}")
run.stdin.close()
run.wait()
P
