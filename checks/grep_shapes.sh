#!/usr/bin/env bash
# Runs gclgrep over small files of every shape of lines and passages, in each mode, with and without -h, -N and -m. The table has each
# file's bytes, a query, and, worked out by hand, the first byte of each answer and the one after its last; what must be written of these is
# computed again in `text_of`, in a few lines that are independent of the program.
program=gclgrep
. "$(dirname "$0")/common.sh"
python3 - "$gclgrep" <<'P'
import itertools, subprocess, sys

gclgrep = sys.argv[1]
ROWS = [
    ("a newline first", b"\nto be\n", '"to".."be"', [(1, 6)]),
    ("no newline at all", b"to be", '"to".."be"', [(0, 5)]),
    ("no newline at the end", b"be\nto be", '"be"', [(0, 2), (6, 8)]),
    ("two newlines inside an answer", b"to\n\nbe\n", '"to".."be"', [(0, 6)]),
    ("two newlines behind", b"to be\n\n", '"be"', [(3, 5)]),
    ("newlines alone", b"\n\n\n", '"to"', []),
    ("nothing", b"", '"to"', []),
    ("it ends in front of a newline, and the next begins behind it", b"to\nbe\n", '"to"+"be"', [(0, 2), (3, 5)]),
    ("it begins behind a newline", b"or\nto be", '"to".."be"', [(3, 8)]),
    ("it goes from a line's last word to the next one's first", b"or to\nbe or\n", '"to be"', [(3, 8)]),
    ("five on one line", b"to a to a to a to a to\n", '"to"', [(0, 2), (5, 7), (10, 12), (15, 17), (20, 22)]),
    ("three that overlap, over three lines", b"a b\nc d\ne f\n", "[3]", [(0, 3), (0, 5), (2, 7), (4, 9), (6, 11), (8, 12)]),
    ("one line of two answers between lines of none", b"x\nto or to\nx\n", '"to"', [(2, 4), (8, 10)]),
    ("answers that share their middle line", b"to x\ny be to z\nbe\n", '"to".."be"', [(0, 9), (10, 17)]),
    ("a self-closing tag is two answers of the same bytes", b"a <br/> b\n", '"<br>"+"</br>"', [(2, 7), (2, 7)]),
    ("an element that a self-closing tag is", b"<p/>\n<p>x</p>\n", '"<p>".."</p>"', [(0, 4), (5, 13)]),
    ("a tag with a newline in it", b"<p\nclass='x'>to</p>\n", '"<p>".."</p>"', [(0, 19)]),
    ("a tag with attributes over two lines is one answer", b"a <p\nb> c\n", '"<p>"', [(2, 7)]),
    ("the innermost of nested elements", b"<d>a\n<d>b</d>\n</d>\n", '"<d>".."</d>"', [(5, 13)]),
    ("the first boundary", b"to\nbe\n", '"<file!>"', [(0, 0)]),
    ("the last boundary", b"to\nbe\n", '"</file!>"', [(6, 6)]),
    ("both boundaries", b"to\nbe\n", '"<file!>"+"</file!>"', [(0, 0), (6, 6)]),
    ("the last boundary behind no newline", b"to\nbe", '"</file!>"', [(5, 5)]),
    ("from the first boundary", b"\n\nto\nbe\n", '"<file!>".."to"', [(0, 4)]),
    ("up to the last boundary, with the last newline", b"to\nbe\n\n", '"be".."</file!>"', [(3, 7)]),
    ("from boundary to boundary", b"to\n\nbe\n", '"<file!>".."</file!>"', [(0, 7)]),
    ("from boundary to boundary of nothing", b"", '"<file!>".."</file!>"', [(0, 0)]),
    ("returns stay", b"to\r\nbe\r\n", '"to".."be"', [(0, 6)]),
    ("bytes that are no text", b"\xff to \xfe\nbe \x00\n", '"to".."be"', [(2, 9)]),
]

def numbered_lines(text):
    """Each line's number, its first byte and the one behind its newline."""
    at, number = 0, 1
    while at < len(text):
        end = text.find(b"\n", at)
        behind = len(text) if end < 0 else end + 1
        yield number, at, behind
        at, number = behind, number + 1

def head(named, numbered, number, mark):
    return (b"f" + mark if named else b"") + (b"%d" % number + mark if numbered else b"")

def text_of(mode, text, passages, named, numbered):
    """What must be written of these answers."""
    if mode == "-q":
        return b""
    if mode == "-l":
        return b"f\n" if passages else b""
    if mode == "-c":
        return head(named, False, 0, b":") + b"%d\n" % len(passages)
    if mode == "-o":
        out = b""
        for begin, end in passages:
            number = 1 + text[:begin].count(b"\n")
            part = text[begin:end]
            parts = (part[:-1] if part.endswith(b"\n") else part).split(b"\n")
            for i, line in enumerate(parts):
                out += head(named, numbered, number + i, b"-" if i else b":") + line + b"\n"
        return out
    out = b""
    for number, at, behind in numbered_lines(text):
        if any(max(begin, at) < min(end, behind) for begin, end in passages):
            out += head(named, numbered, number, b":") + text[at:behind].rstrip(b"\n") + b"\n"
    return out

runs = wrong = 0
for what, text, query, answers in ROWS:
    with open("f", "wb") as out:
        out.write(text)
    for mode, named, numbered, most in itertools.product(["", "-o", "-c", "-l", "-q"], [True, False], [True, False], [None, 0, 1, 2]):
        options = [mode] * bool(mode) + ["-h"] * (not named) + ["-N"] * (not numbered) + (["-m", str(most)] if most is not None else [])
        passages = answers if most is None else answers[:most]
        want = text_of(mode, text, passages, named, numbered)
        ran = subprocess.run([gclgrep, "-s", *options, query, "f"], stdin=subprocess.DEVNULL, capture_output=True)
        runs += 1
        if ran.stdout != want or ran.returncode != (0 if passages else 1) or ran.stderr:
            wrong += 1
            print(f"{what}: gclgrep {' '.join(options)} {query}: status {ran.returncode}, {ran.stdout!r} and not {want!r} {ran.stderr.decode()}")
print(f"gclgrep: {runs} runs over {len(ROWS)} shapes, {wrong} of them wrong")
sys.exit(1 if wrong else 0)
P
