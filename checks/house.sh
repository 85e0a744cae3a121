#!/usr/bin/env bash
# The rules of this repository that neither the prover nor the tests see. Prints each place that breaks one, and fails if there is any:
# - the pages name only files, functions, definitions and must-fail edits that exist;
# - README and CRATES name each crate, each library has a must-fail edit, and a crate's root file begins with what the crate is;
# - crates.txt gives a crate only libraries that its files name: it waits for each of them to be proved;
# - each page but README and GREP begins with the question that it answers;
# - a function has at most 7 arguments, 12 clauses and 40 lines of body, and a line of src/ at most 140 characters;
# - the pages keep to plain English: words that make a native reader stumble come no more often than they do;
# - no text has an open end (to do, fix me) or a path of one machine.
# What is over a bound has a line in checks/exceptions.txt, which says how one is added.
set -eu
cd "$(dirname "$0")/.."
python3 - <<'P'
import collections, glob, os, re, sys

found, notes = [], []
def report(place, what):
    found.append(f"{place}: {what}")

def lines_of(path):
    return open(path, encoding="utf-8", errors="replace").read().splitlines()

KIT = ["left_right", "crossbeam_utils", "atomic_table"]  # crates that are used and not of this repository
# pages that speak of others' functions and lemmas too
FREE = ["docs/DECISIONS.md", "docs/PROVING.md", "docs/SPEED.md", "bench/README.md"] + glob.glob("docs/notes/*.md")
pages = ["README.md", "CONTRIBUTING.md", "CHANGELOG.md", "bench/README.md"]
pages += sorted(glob.glob("docs/**/*.md", recursive=True)) + sorted(glob.glob("clients/*/README.md"))
uses = {}
for line in lines_of("crates.txt"):
    head, _, libraries = line.split("#")[0].partition(":")
    if head.strip():
        uses[head.split()[0]] = libraries.split()
crates = list(uses)
edits = {os.path.basename(path)[:-5] for path in glob.glob("crates/*/must-fail/*.edit")}
sources = [path for kind in ("rt", "antt") for path in glob.glob(f"crates/*/*/**/*.{kind}", recursive=True) if "/out/" not in path]
words = {word for path in sources for word in re.findall(r"\w+", open(path, encoding="utf-8").read())}

# `crate: specs/File.antt`, `crate: src/a.rt`, `crate`: `src/a.rt`, with more files of the same crate after it
NAMED = re.compile(r"`(?:crates/)?([a-z_]+)`?: `?((?:src|specs|proofs)/[\w/{},]+\.(?:rt|antt))")
NAME = re.compile(r"`([a-z][a-z0-9]*(?:_[a-z0-9]+)+)`")
LINK = re.compile(r"\]\(([^)#:]+)[)#]")
for page in pages:
    for number, line in enumerate(lines_of(page), 1):
        for crate, file in NAMED.findall(line):
            options = re.search(r"\{(.*)\}", file)
            for option in options.group(1).split(",") if options else [""]:
                path = f"crates/{crate}/" + re.sub(r"\{.*\}", option, file)
                if not os.path.isfile(path):
                    report(f"{page}:{number}", f"there is no {path}")
        for name in NAME.findall(line) if page not in FREE else []:
            if name not in words and name not in edits and name not in crates + KIT:
                report(f"{page}:{number}", f"nothing has the name {name}")
        for link in LINK.findall(line):
            if not os.path.exists(os.path.join(os.path.dirname(page), link)):
                report(f"{page}:{number}", f"there is no {link}")

for page in pages:
    if page not in ("README.md", "docs/GREP.md") and not lines_of(page)[0].endswith("?"):
        report(page, "begins without its question")

for crate in crates:
    root = next((path for path in (f"crates/{crate}/src/lib.rt", f"crates/{crate}/src/main.rt") if os.path.isfile(path)), None)
    if root is None:
        report("crates.txt", f"{crate} has no src/lib.rt or src/main.rt")
        continue
    if not lines_of(root)[0].startswith("//!"):
        report(root, "begins without what the crate is")
    for page in ("README.md", "docs/CRATES.md"):
        if f"`{crate}`" not in "\n".join(lines_of(page)):
            report(page, f"does not name the crate {crate}")
    files = [path for kind in ("rt", "antt", "edit") for path in glob.glob(f"crates/{crate}/*/**/*.{kind}", recursive=True) if "/out/" not in path]
    named = {word for path in files for word in re.findall(r"\w+", open(path, encoding="utf-8").read())}
    for library in uses[crate]:
        if library not in named:
            report("crates.txt", f"no file of {crate} names {library}")
    if root.endswith("lib.rt") and not glob.glob(f"crates/{crate}/must-fail/*.edit"):
        report(f"crates/{crate}", "has no must-fail edit")

# A line of exceptions is WHAT WHERE [FUNCTION] NUMBER, and the reason after a #.
allowed = {}
for line in lines_of("checks/exceptions.txt"):
    *key, most = line.split("#")[0].rsplit(None, 1) if line.split("#")[0].strip() else [None]
    if key:
        allowed[key[0]] = int(most)

def bounded(key, place, what, number, bound):
    """Reports what is over its bound and over its exception; notes an exception that could be lower."""
    most = allowed.pop(key, None)
    if number > (bound if most is None else most):
        most = bound if most is None else most
        report(place, f"{what}: {number}, at most {most}. Mend it, or put `{key} {number}  # why` into checks/exceptions.txt")
    elif most is not None and number < most and not key.startswith("words"):
        notes.append(f"checks/exceptions.txt: `{key} {most}` can be {number}, or go where that is at most {bound}")

HEAD = re.compile(r"( *)(?:pub(?:\([a-z]+\))? )?(?:const )?(?:unsafe )?fn (\w+)")
def arguments(head):
    """How many arguments the head of a function has; self counts."""
    text = re.sub(r"^.*?\bfn \w+", "", head.replace("->", "  "))
    depth = count = 0
    some = in_list = False
    for letter in text:
        if letter == "(" and depth == 0:
            in_list = True
        depth += (letter in "([<{") - (letter in ")]>}")
        if in_list and depth == 0:
            break
        if in_list and letter == "," and depth == 1:
            count, some = count + some, False
        elif in_list and not (letter.isspace() or letter in "()"):
            some = True
    return count + some

def functions(path):
    """Each function of a file: its name, and how many arguments, clauses and lines of body it has."""
    lines, at = lines_of(path), 0
    while at < len(lines):
        begins = HEAD.match(lines[at])
        if begins is None:
            at += 1
            continue
        indent, name = begins.groups()
        head, clauses, end, open_ = [], 0, at, None
        while end < len(lines):
            line = lines[end]
            clauses += bool(re.match(r" *(requires|ensures)\b", line))
            head += [] if clauses else [line]
            if line in (indent + "{", indent + "{}") or (not clauses and line.endswith(("{", "{}"))):
                open_ = end
                break
            text = "\n".join(lines[at:end + 1])
            if line.endswith(";") and all(text.count(a) == text.count(b) for a, b in ("()", "{}", "[]")):
                break
            end += 1
        size = 0
        if open_ is not None and not lines[open_].endswith("{}"):
            while end < len(lines) and lines[end] != indent + "}":
                end += 1
            size = end - open_ - 1
        yield name, arguments(" ".join(head)), clauses, size
        at = end + 1

wide = collections.Counter({crate: 0 for crate in crates})
over = collections.defaultdict(int)
for path in sorted(glob.glob("crates/*/src/**/*.rt", recursive=True)):
    crate = path.split("/")[1]
    wide[crate] += sum(len(line) > 140 for line in lines_of(path))
    for name, *numbers in functions(path):
        for what, number in zip(("arguments", "clauses", "body"), numbers):
            over[what, crate, name] = max(over[what, crate, name], number)
for (what, crate, name), number in over.items():
    bounded(f"{what} {crate} {name}", f"crates/{crate}: {name}", what, number, {"arguments": 7, "clauses": 12, "body": 40}[what])
for crate, number in wide.items():
    bounded(f"wide {crate}", f"crates/{crate}/src", "lines of more than 140 characters", number, 0)

# What a native reader of English stumbles over, with what he would write.
STUMBLES = {
    "so many": (r"\bso many\b", "the given number of"),
    "from X on": (r"\b[Ff]rom (?:\S+ ){1,4}on\b(?! (?:the|a|an|each|one|its|their|standard|real|which)\b)", "at or after X"),
    "at hand": (r"\bat hand\b", "current, cached, available"),
    "put off": (r"\bput off\b", "deferred"),
    "tells": (r"\b[Tt]ells?\b|\btold\b", "shows, gives, says, is known by"),
    "beside": (r"\b[Bb]esides?\b", "next to, compared with, while, apart from"),
    "want of": (r"\b(?:for|in) want of\b|\bmemory is wanted\b", "out of, for lack of"),
    "stands for": (r"\bstands? for\b", "is, represents"),
    "but for": (r"\bbut for\b", "except for"),
}
prose = pages + sorted(glob.glob("docs/*.1"))
texts = {page: re.sub(r"```.*?```|`[^`]*`", " ", open(page, encoding="utf-8").read(), flags=re.S) for page in prose}
for stumble, (pattern, better) in STUMBLES.items():
    number = sum(len(re.findall(pattern, " ".join(text.split()))) for text in texts.values())
    bounded(f"words {stumble}", "pages", f'"{stumble}" (better: {better})', number, 0)

for key in allowed:
    notes.append(f"checks/exceptions.txt: `{key}` speaks of nothing that is there")

OPEN_END = re.compile(r"\b(TO" r"DO|FIX" r"ME|XX" r"X)\b")
MACHINE = re.compile(r"(?<![\w.])/(home|root|tmp|opt|work|var)/")
texts = pages + glob.glob("crates/*/*/**/*.*", recursive=True) + glob.glob("bench/*") + glob.glob("checks/*") + glob.glob("clients/*/*")
for path in texts + glob.glob("demo/*.py") + ["crates.txt", "gclq", "gclgrep", "docs/gclq.1", "docs/gclgrep.1"]:
    if os.path.isfile(path) and "/out/" not in path:
        for number, line in enumerate(lines_of(path), 1):
            if OPEN_END.search(line):
                report(f"{path}:{number}", "an open end")
            if MACHINE.search(line) and path != "checks/house.sh":
                report(f"{path}:{number}", "a path of one machine")

print("\n".join(notes + found + [f"house rules: {len(found)} place(s) to mend" if found else "house rules: all hold"]))
sys.exit(1 if found else 0)
P
