#!/usr/bin/env bash
# What the watches report is what changed: scripts of edits and merges over three small files, each with eight watches (one whose negation
# reaches far back, one with a width, one with a prefix term, one of an element, a phrase, two words near each other, one for which whole
# lists are compared, since a containment has a chain with another one, and one with many words). After each line the eight queries are
# listed, and what the watches reported must be the difference between the lists before and after it. Before each script that opens, an
# image was saved. Then the answers to the lines that begin and end a watch, and their refusals.
. "$(dirname "$0")/common.sh"

printf 'to be or not to be' > speech
printf 'x' > end
printf '<p>nothing to be</p> noted' > page
printf 'add page\nadd speech\ndel 0\nsave image\n' | "$gclq" > saved
cat > compare.py << 'P'
import itertools, subprocess, sys
from concurrent.futures import ThreadPoolExecutor

QUERIES = ['"be" /< ("to".."x")', '[2] > "be"', '"no"*', '"<p>".."</p>"', '"to be"', '("not" ^ "be") < [3]',
           '"be" /< (("to" + ("or" < [2])) .. "x")',
           "(" + " + ".join(f'"{word}"' for word in "to be or not x nothing noted a b c d e f g h i j k".split()) + ') < ("to".."x")']
EDITS = ["add speech", "add end", "add page", "del 0", "del 1", "open image", "merge"]
STEPS = 5

def ranges(lines):
    """The intervals of a list that ends with its total, and the lines after it."""
    found = []
    for i, line in enumerate(lines):
        if line.startswith("= "):
            return found, lines[i + 1:]
        found.append(tuple(map(int, line.split())))
    sys.exit(f"a list has no total: {lines}")

def told(lines):
    """What the watches were told, and the lines after it."""
    count = next((i for i, line in enumerate(lines) if line[0] not in "+-"), len(lines))
    return [line.split() for line in lines[:count]], lines[count:]

def check(script):
    edits = [f"watch {query}" for query in QUERIES]
    lists = [f"find {query}" for query in QUERIES]
    text = "\n".join(edits + lists + [line for edit in script for line in [edit, *lists]]) + "\n"
    ran = subprocess.run([sys.argv[1]], input=text, capture_output=True, text=True)
    if ran.returncode not in (0, 1):
        return f"{script}: status {ran.returncode}"
    lines = ran.stdout.splitlines()[len(QUERIES):]
    before = []
    for _ in QUERIES:
        found, lines = ranges(lines)
        before.append(found)
    changes = 0
    for edit in script:
        got, lines = told(lines[1:])
        after = []
        for _ in QUERIES:
            found, lines = ranges(lines)
            after.append(found)
        wanted = []
        for number, (old, new) in enumerate(zip(before, after)):
            went = [(start, end, "-") for start, end in old if (start, end) not in new]
            came = [(start, end, "+") for start, end in new if (start, end) not in old]
            wanted += [[sign, str(number), str(start), str(end)] for start, end, sign in sorted(went + came)]
        if got != wanted:
            return f"{script}, at {edit}: {got}, and {wanted} changed"
        before, changes = after, changes + len(wanted)
    return changes

scripts = list(itertools.product(EDITS, repeat=STEPS))
with ThreadPoolExecutor(4) as pool:
    changes = 0
    for result in pool.map(check, scripts, chunksize=64):
        if isinstance(result, str):
            sys.exit(f"watches: {result}")
        changes += result
print(f"watches: {len(scripts)} scripts, {changes} changes told")
P
python3 compare.py "$gclq"

# Does a script have these answers and this status?
expect() {
  local got status=0
  got=$(printf '%s\n' "$3" | "$gclq") || status=$?
  [ "$got" = "$2" ] && [ "$status" = "$1" ] || { echo "watches: $3: status $status, $got" >&2; exit 1; }
}
expect 1 $'watch 0\nfile 0 0 7\n+ 0 1 2\n+ 0 5 6\nwatch 1\ngone 0\n- 0 1 2\n- 0 5 6\n- 1 3 3\nunwatched 0\n! no watch 0' \
  $'watch "to".."be"\nadd speech\nwatch "or"\ndel 0\nunwatch 0\nunwatch 0'
expect 0 $'file 0 0 7\nwatch 0\nfile 1 8 10\n- 0 6 6' $'add speech\nwatch "be" /< ("to".."x")\nadd end'
expect 1 $'! query at 0: operand expected\n! query at 4: open quote\n! no watch 0\n! command\n! command' \
  $'watch\nwatch "a"+"\nunwatch 0\nunwatch\nunwatch x'
many=$(yes 'watch "or"' | head -17)
expect 1 "$(seq -f 'watch %.0f' 0 15)"$'\n! too many watches\nunwatched 3\nwatch 16\n! too many watches\n! no watch 3' \
  "$many"$'\nunwatch 3\nwatch "or"\nwatch "or"\nunwatch 3'
echo "watches: refusals and numbers"
