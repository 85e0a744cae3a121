#!/usr/bin/env bash
# A prefix of 1,500 words with 80,000 places in a text of 5 MB, compared with one word with as many places: the count (target 2 ms), the
# list, and the elements that hold it (targets 3 times those of the word). The same with four readers, and after a quarter of the files was
# deleted. It makes its text.
. "$(dirname "$0")/common.sh"
need_gclq
python3 - "$program" "$work" <<'P'
import os, random, subprocess, sys
from asking import ask
program, work = sys.argv[1:]
random.seed(5)
# of a million words each twelfth begins with s, and each other twelfth is `word`
words = ["s%d" % n for n in range(1500)]
others = ["w%d" % n for n in range(5000)]
files = 8
for file in range(files):
    with open(os.path.join(work, f"f{file}"), "w") as out:
        for _ in range(5_000):
            line = random.choices(others, k=20)
            line[random.randrange(10)] = random.choice(words)
            line[random.randrange(10)] = random.choice(words)
            line[10 + random.randrange(5)] = "word"
            line[15 + random.randrange(5)] = "word"
            out.write("<l>" + " ".join(line) + "</l>\n")

def best(run, line):
    """The answer, and the least milliseconds of some askings."""
    end, took = ask(run, line)
    for _ in range(20 if took < 0.2 else 3):
        took = min(took, ask(run, line)[1])
    return end, took * 1e3

line = '("<l>".."</l>")'
for state in ["whole", "after deletions"]:
    run = subprocess.Popen([program], cwd=work, stdin=subprocess.PIPE, stdout=subprocess.PIPE)
    for file in range(files):
        ask(run, f"add f{file}")
    if state != "whole":
        ask(run, "del f1")
        ask(run, "del f5")
    for form in ["count {}", "find {}", "count " + line + " > {}", "find " + line + " > {}", "count {} ^ \"w17\"", "top 10 {}"]:
        end, prefix = best(run, form.format('"s"*'))
        other, word = best(run, form.format('"word"'))
        print(f"{state}: {form.format('..'):<28} {end:>12} {prefix:9.3f} ms, of one word {other:>12} {word:9.3f} ms: {prefix / word:.2f} times (target 3)")
    run.stdin.close()
    run.wait()
P
