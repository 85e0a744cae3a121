#!/usr/bin/env bash
# Batches of queries over a text of 50 MB, as ratios of one run: 1,000 queries of about a millisecond each with four readers to those with
# one (target 0.4 on four processors, 0.65 on two), 10,000 cheap ones likewise (1.3), and a batch during a merge of the 50 MB to the same
# batch alone (1.5). It makes its texts. Four programs hold the text, so that lines are timed without adding it: they are asked in turn, and
# the fastest of several times counts. Asked at the same time, they show how many processors the machine provides: if other work takes some,
# the first ratio says little about the program.
. "$(dirname "$0")/common.sh"
need_gclq
python3 - "$work" <<'P'
import random, sys
random.seed(11)
words = ["the", "of"] * 400 + ["great", "small"] * 12 + ["w%d" % n for n in range(5000)]
for name, size in (("most", 42), ("rest", 8)):
    with open(f"{sys.argv[1]}/{name}", "w") as out:
        written = 0
        while written < size * 1_000_000:
            line = " ".join(random.choices(words, k=20)) + "\n"
            # a word that comes once in a hundred thousand bytes
            if written // 100_000 != (written + len(line)) // 100_000:
                line = "rare " + line
            out.write(line)
            written += len(line)
P
cd "$work"
python3 - "$program" <<'P'
import os, subprocess, sys, time
from asking import ask

def start(readers):
    run = subprocess.Popen([sys.argv[1], "--readers", str(readers)], stdin=subprocess.PIPE, stdout=subprocess.PIPE)
    ask(run, "add most")
    ask(run, "add rest")
    return run

def send(run, query, times, before=""):
    run.stdin.write((before + f"{query}\n" * times).encode())
    run.stdin.flush()

def wait(run, times):
    """Reads so many answers of counts."""
    while times > 0:
        times -= os.read(run.stdout.fileno(), 1 << 20).count(b"=")

def seconds(query, times, *runs, before=""):
    begin = time.perf_counter()
    for run in runs:
        send(run, query, times, before)
    for run in runs:
        wait(run, times)
    return time.perf_counter() - begin

def compare(what, a, b, target):
    print(f"{what}: {a:.3f} s to {b:.3f} s: ratio {a / b:.2f} (target {target})")

four, *ones = start(4), start(1), start(1), start(1), start(1)
one = ones[0]
middling, cheap, longer = 'count "great" .. "small"', 'count "rare"', 'count "of the"'
took = [(seconds(middling, 1000, four), seconds(middling, 1000, one), seconds(middling, 1000, *ones)) for _ in range(5)]
of_four, of_one, at_once = map(min, zip(*took))
print(f"{os.cpu_count()} processors, of which the machine lent {4 * of_one / at_once:.1f}; a query takes {of_one:.2f} ms")
compare("1,000 queries, four readers to one", of_four, of_one, "0.4, on two processors 0.65")
took = [(seconds(cheap, 10000, four), seconds(cheap, 10000, one)) for _ in range(40)]
compare("10,000 rare words, four readers to one", *map(min, zip(*took)), 1.3)
alone = min(seconds(longer, 64, four) for _ in range(5))
# a version that was merged has one slot, so each merge wants a program of its own
beside = []
for run in four, start(4), start(4):
    beside.append(seconds(longer, 64, run, before="merge\n"))
    run.kill()
for run in ones:
    run.kill()
compare("a batch beside a merge to the batch alone", min(beside), alone, 1.5)
P
