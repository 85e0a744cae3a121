#!/usr/bin/env bash
# Which definitions does the headline depend on, and how many lines are they? Follows the names in the clauses of `query_run::run` through
# the files of definitions and prints, for each file that has one of them, how many of its lines are reached and how many it has; then those
# that the headline does not need. Imports, comments and empty lines do not count. A variable that has the name of a definition counts as a
# use of it, so the numbers are never too small. It judges nothing: it fails only if it does not find the headline.
set -eu
cd "$(dirname "$0")/.."
python3 - "$@" <<'P'
import glob, os, re, sys

HEADLINE = "crates/query_run/src/top.rt"
USE = re.compile(r"^(?:ghost |pub )?use Rattle\.([\w.]+)\.\{(.*)\}", re.M)
WORD = re.compile(r"[^\s(){}\[\],;.]+")
NAMED = re.compile(r"^ *(?:abbrev )?pub (?:record |data )?([^\s(){:]+)")
MADE = re.compile(r"^ +([^\s(){:]+) :")  # a constructor of a `data`

def path_of(module):
    crate, _, rest = module.partition(".")
    return f"crates/{crate}/{rest.replace('.', '/')}.antt"

def imports(text):
    """Each imported name, with the file that defines it; `a as b` is known as b."""
    found = {}
    for module, names in USE.findall(text):
        for name in names.split(","):
            name, _, known = name.strip().partition(" as ")
            found[known or name] = (path_of(module), name)
    return found

def blocks(text):
    """The definitions of a file: the names that each defines, and its lines."""
    found, data = [], False
    for line in text.splitlines():
        if not line.strip() or line.lstrip().startswith("--") or re.match(r"(pub )?(use|mod) ", line):
            continue
        if re.match(r"(abbrev|pub|mutual|data|record)\b", line):
            found.append((set(), []))
        data = "data " in line if re.match(r" *(abbrev |mutual|pub (record|data) )", line) else data
        if found:
            record = found[-1][1] and found[-1][1][0].startswith("pub record")
            name = None if record else NAMED.match(line) or (data and MADE.match(line))
            if name:
                found[-1][0].add(name.group(1))
            found[-1][1].append(line)
    return found

files = {f: open(f, encoding="utf-8").read() for f in sorted(glob.glob("crates/*/specs/**/*.antt", recursive=True)) if not f.endswith("/Lib.antt")}
parts = {f: blocks(text) for f, text in files.items()}
known = {f: imports(text) for f, text in files.items()}
headline = open(HEADLINE, encoding="utf-8").read()
clauses = "\n".join(line for line in headline.splitlines() if not line.startswith("ghost use"))
if "fn run<" not in clauses or "ensures done" not in clauses:
    sys.exit(f"{HEADLINE} has no `run` with the headline's clauses")

reached, todo = set(), [known_as for name, known_as in imports(headline).items() if name in WORD.findall(clauses)]
while todo:
    file, name = todo.pop()
    for at, (names, lines) in enumerate(parts.get(file, [])):
        if name in names and (file, at) not in reached:
            reached.add((file, at))
            for word in WORD.findall("\n".join(lines)):
                todo.append(known[file].get(word, (file, word)))

lines_of = lambda f, only: sum(len(lines) for at, (_, lines) in enumerate(parts[f]) if not only or (f, at) in reached)
under = [(f, lines_of(f, True), lines_of(f, False)) for f in files]
if "--files" in sys.argv:
    for f, some, all_ in under:
        crate, _, rest = f[len("crates/"):].partition("/")
        print(f"{some:4} of {all_:3}  {crate}: {rest}")
print(f"under the headline: {sum(u[1] for u in under)} lines of definitions in {sum(u[1] > 0 for u in under)} files; "
      f"of all, {sum(u[2] for u in under)} in {len(under)}")
P
