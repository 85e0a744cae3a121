#!/usr/bin/env bash
# Queries in which a containment asks an operand that holds another one: bench/nested.sh [FOLDER]. Over texts of one word, 500 to 4,000
# times, ("a" + ("a" /< [1])) /< [1] and the like to depth 8, by both "not" operators: milliseconds, how they grow from half the words
# (target 2.3), and those of depth 8 over 4,000 words (target 20); and seconds of a phrase of 1,000 equal words over 5 MB of them (target
# 1). Over the files of a folder, by default none, such as the King James Bible with the elements book, chapter and verse: milliseconds of
# queries that somebody may write, compared with a count of the verses, of verses without any of 254 words (target 200), and of 2,000 random
# queries.
. "$(dirname "$0")/common.sh"
need_gclq
python3 - "$program" "$work" "${1:-}" <<'P'
import collections, os, random, re, subprocess, sys
from asking import ask
program, work, folder = sys.argv[1:]

def best(run, line):
    """The answer, and the least milliseconds of some askings."""
    end, took = ask(run, line)
    if not end.startswith("="):
        sys.exit(f"{end}: {line}")
    for _ in range(20 if took < 0.2 else 2):
        took = min(took, ask(run, line)[1])
    return end, took * 1e3

def nested(operator, depth):
    query = f'"a" {operator} [1]'
    for _ in range(depth - 1):
        query = f'"a" + ({query}) {operator} [1]'
    return query

sizes = [500, 1000, 2000, 4000]
took = {}
for size in sizes:
    with open(os.path.join(work, f"t{size}"), "w") as out:
        out.write("a " * size)
    run = subprocess.Popen([program], cwd=work, stdin=subprocess.PIPE, stdout=subprocess.PIPE)
    ask(run, f"add t{size}")
    empty = best(run, 'count "zzxqq"')[1]
    for operator in ["/<", "/>"]:
        for depth in range(2, 9):
            took[operator, depth, size] = max(0.001, best(run, f"count {nested(operator, depth)}")[1] - empty)
    run.stdin.close()
    run.wait()
for operator in ["/<", "/>"]:
    for depth in range(2, 9):
        times = [took[operator, depth, size] for size in sizes]
        grown = ", ".join(f"{after / before:.2f}" for before, after in zip(times, times[1:]))
        print(f"{operator} depth {depth}: {times[0]:.2f} ms over {sizes[0]} words, and at twice as many each time {grown} times as long (target 2.3); {times[-1]:.2f} ms over {sizes[-1]}")
print(f"depth 8 over {sizes[-1]} words: {max(took[operator, 8, sizes[-1]] for operator in ['/<', '/>']):.2f} ms (target 20)")

with open(os.path.join(work, "equal"), "w") as out:
    out.write("a " * 2_500_000)
run = subprocess.Popen([program], cwd=work, stdin=subprocess.PIPE, stdout=subprocess.PIPE)
ask(run, "add equal")
phrase = 'count "' + " ".join(["a"] * 1000) + '"'
print(f"a phrase of 1,000 equal words over 5 MB of them: {best(run, phrase)[1] / 1e3:.2f} s (target 1)")
run.stdin.close()
run.wait()

if folder:
    verse = '("<verse>".."</verse>")'
    chosen = os.path.join(folder, "LIST.txt")
    names = open(chosen).read().split() if os.path.exists(chosen) else sorted(os.listdir(folder))
    run = subprocess.Popen([program], cwd=folder, stdin=subprocess.PIPE, stdout=subprocess.PIPE)
    for name in names:
        ask(run, f"add {name}")
    with open(os.path.join(folder, names[0])) as text:
        often = [word for word, _ in collections.Counter(re.findall(r"[a-z]+", text.read().lower())).most_common(354)]
    queries = [
        f'count {verse}',
        f'count {verse} > ("the" + ("and" /< {verse}))',
        f'count ("the" + ("and" /< {verse})) /< {verse}',
        f'count {verse} > (("the" + ("and" /< {verse})) /< {verse})',
        f'count ("lord" + ({verse} /> [1])) > "the"',
        f'count ("lord" + ("god" /< {verse})) /< {verse}',
        f'find (("the" + ("and" /< {verse})) < {verse}) > "moses"',
        f'count "the" /< ("and" /< {verse})',
        f'count "the" < ("and" < {verse})',
        f'count {verse} > (("moses" ^ ("the" < {verse})) < [20])',
        f'count "manna" ^ ("the" < {verse})',
        f'count {verse} > ("king" + "holy ghost" + "of of")',
        f'count {verse} > ("the" + "of of")',
        f'count ("the" + "of of") ^ "in"',
        f'count ("the" + ("and" /< {verse})) + "of"',
        f'count ("the" /> ("of of" > {verse})) + "of"',
        f"count {verse}" + "".join(f' /> "{word}"' for word in often[100:]),
    ]
    for query in queries:
        end, milliseconds = best(run, query)
        print(f"{milliseconds:10.2f} ms  {end:>10}  {query if len(query) < 200 else query[:100] + '..'}")

    words = [word for name in names for word in re.findall(r"[a-z]+", open(os.path.join(folder, name)).read().lower())]
    common = [word for word, _ in collections.Counter(words).most_common(500)]
    random.seed(41)

    def token():
        return random.choice([random.choice(common[:20]), random.choice(common), random.choice(words)])

    def made(depth):
        if depth == 0 or random.random() < 0.15:
            return random.choice([f'"{token()}"', f'"{token()}"', f'"{token()} {token()}"', verse, f"[{random.choice([1, 2, 5, 20])}]"])
        operator = random.choice(["+", "+", "^", "..", ">", "<", "/>", "/<"])
        return "(" + f" {operator} ".join(made(depth - 1) for _ in range(random.choice([2, 2, 3]) if operator in ["+", "^", ".."] else 2)) + ")"

    queries = [f"count {made(random.choice([2, 3, 3, 4]))}" for _ in range(2000)]
    slowest = sorted(((ask(run, query)[1] * 1e3, query) for query in queries), reverse=True)
    print(f"2,000 queries that chance made: half of them in {slowest[1000][0]:.2f} ms, all but 20 in {slowest[20][0]:.0f}, the slowest:")
    for milliseconds, query in slowest[:3]:
        print(f"{milliseconds:10.2f} ms  {query}")
    run.stdin.close()
    run.wait()
P
