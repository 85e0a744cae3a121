#!/usr/bin/env bash
# Queries over texts of 5 and 50 MB with a common word, a rare one and small elements: the intervals, the look-ups and the milliseconds of
# each compared with those of adding the text (target: a hundredth), and how much faster than the number of look-ups its time grows from one
# text to the other (target 1.5); and the memory of a run that counts compared with that of one that only adds (target 1.05). It makes its
# texts.
. "$(dirname "$0")/common.sh"
need_gclq
need_measure
python3 - "$work" <<'P'
import random, sys
random.seed(11)
words = ["the", "of", "and", "to", "be"] * 400 + ["w%d" % n for n in range(5000)]
for size in (5, 50):
    with open(f"{sys.argv[1]}/t{size}", "w") as out:
        written = 0
        while written < size * 1_000_000:
            line = "<l>" + " ".join(random.choices(words, k=20)) + "</l>\n"
            # a word that comes once in a hundred thousand bytes
            if written // 100_000 != (written + len(line)) // 100_000:
                line = "<l>rare " + line[3:]
            out.write(line)
            written += len(line)
P
cd "$work"
# one run for each size: the text is added, and each query asked 20 times through the pipes, so that its seconds are its own
python3 - "$program" "$counter" <<'P'
import subprocess, sys, time
from asking import ask, kept
program, counter = sys.argv[1:]
queries = ['"the" ^ "rare"', '("<l>".."</l>") > "of the"', '"the"', '("the" ^ "rare") < [5]']
took = {}
for size in (5, 50):
    adds = []
    for _ in range(3):
        run = subprocess.Popen([program], stdin=subprocess.PIPE, stdout=subprocess.PIPE)
        adds.append(ask(run, f"add t{size}")[1])
        if len(adds) < 3:
            run.stdin.close()
            run.wait()
    added, before = min(adds), kept(run)
    print(f"{size} MB, added in {added:.3f} s")
    for query in queries:
        counted = subprocess.run([counter, "count", f"t{size}", query], capture_output=True, text=True).stdout.strip()
        listed = min(ask(run, f"find {query}")[1] for _ in range(20))
        number = min(ask(run, f"count {query}")[1] for _ in range(20))
        look_ups = int(counted.split()[-2])
        print(f"    {query:<28} {counted:<40} find {listed * 1e3:.2f} ms, count {number * 1e3:.2f} ms: {number / added:.4f} of adding (target 0.01)")
        if size == 5:
            took[query] = number, look_ups
        else:
            less, fewer = took[query]
            print(f"    {'':<28} time grew {number / less:.1f} times, look-ups {look_ups / fewer:.1f} times: ratio {number / less / (look_ups / fewer):.2f} (target 1.5)")
    # what a reader of the text itself takes: each element is a line
    for words in (["-c", "-w", "of the"], ["-o", "-w", "the"]):
        begin = time.time()
        # into a pipe: with nobody to read it, grep would end at the first line
        subprocess.run(["grep", *words, f"t{size}"], stdout=subprocess.PIPE)
        print(f"    grep {' '.join(words):<23} {(time.time() - begin) * 1e3:.0f} ms")
    print(f"    memory after the queries to that before: {kept(run) / before:.2f} (target 1.05)")
    run.stdin.close()
    run.wait()
P
