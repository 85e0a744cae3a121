#!/usr/bin/env bash
# Runs each example of the pages, and compares what is printed byte for byte with what the page says. An example is a fenced block:
#   ```gclq       lines with `> ` in front are lines of a script that is run in demo/, and the others are the answers; the blocks of a
#                 page go on from each other, and ```gclq new begins another run
#   ```console    lines with `$ ` in front are commands, run at the top, those with `> ` go on with one, and the others are all that is
#                 printed
#   ```picture    a query and a text of six words, and below a line for each interval of the query over demo/hamlet, which ends in `P Q`
# Pages may be named; without names these are all that have examples.
. "$(dirname "$0")/common.sh"
cp -r "$here/demo" demo
ln -s "$gclq" gclq
gclgrep=${GCLGREP:-$here/crates/gclgrep/out/gclgrep}
[ -n "${GCLGREP:-}" ] || "$here/gclgrep" --version > /dev/null
ln -s "$gclgrep" gclgrep
[ $# -gt 0 ] || set -- README.md docs/SCRIPT.md docs/QUERY.md docs/GALLERY.md docs/LIMITS.md docs/GREP.md
python3 - "$here" "$@" <<'P'
import difflib, re, subprocess, sys

def blocks(page):
    """The fenced blocks of a page: the line where each begins, what stands behind its fence, and its lines."""
    kind = None
    for number, line in enumerate(open(page, encoding="utf-8"), 1):
        if kind is None and line.startswith("```"):
            kind, start, held = line[3:].strip(), number, []
        elif line.startswith("```"):
            yield start, kind, held
            kind = None
        elif kind is not None:
            held.append(line)

def answers(script):
    ran = subprocess.run(["../gclq"], cwd="demo", input=script.encode(), stdout=subprocess.PIPE, stderr=subprocess.STDOUT)
    return ran.stdout.decode()

def printed(commands):
    ran = subprocess.run(["bash", "-c", commands], stdin=subprocess.DEVNULL, stdout=subprocess.PIPE, stderr=subprocess.STDOUT)
    return ran.stdout.decode()

def split(lines, *marks):
    """The lines with one of the marks in front, without it, and the others, each as one text."""
    asked = "".join(line[2:] for line in lines if line.startswith(marks))
    return asked, "".join(line for line in lines if not line.startswith(marks))

def runs(page):
    """What to do at each place of a page, and the text that it must give."""
    script = wanted = ""
    for start, kind, lines in blocks(page):
        if kind.startswith("gclq"):
            if kind == "gclq new" and script:
                yield first, lambda script=script: answers(script), wanted
                script = wanted = ""
            first = first if script else start
            asked, told = split(lines, "> ")
            script, wanted = script + asked, wanted + told
        elif kind == "console":
            commands, told = split(lines, "$ ", "> ")
            yield start, lambda commands=commands: printed(commands), told
        elif kind == "picture":
            query = re.split(r"  +", lines[0])[0]
            told = ["%s %s\n" % re.search(r"(\d+) (\d+)\n$", line).groups() for line in lines[1:]]
            asked = "add hamlet\nfind %s\n" % query
            yield start, lambda asked=asked: answers(asked), "file 0 0 7\n" + "".join(told) + "= %d\n" % len(told)
    if script:
        yield first, lambda: answers(script), wanted

top, pages = sys.argv[1], sys.argv[2:]
ran = wrong = 0
for page in pages:
    for start, do, wanted in runs(f"{top}/{page}"):
        given = do()
        ran += 1
        if given != wanted:
            wrong += 1
            print(f"{page}:{start}: the example prints something else")
            sys.stdout.writelines(difflib.unified_diff(wanted.splitlines(True), given.splitlines(True), "page", "program", n=1))
print(f"examples: {ran} runs of {len(pages)} pages, {wrong} of them print something else")
sys.exit(1 if wrong else 0)
P
