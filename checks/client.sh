#!/usr/bin/env bash
# The client for Python: its examples print what its page says. Over files of random bytes it cuts tokens as the program does, so that the
# text of each hit is the word that was asked for. And nobody waits forever, neither for a program that is silent nor for a long answer.
. "$(dirname "$0")/common.sh"
cp "$here"/demo/* .
ln -s "$gclq" gclq
cat > silent <<'S'
#!/usr/bin/env bash
exec sleep 60
S
chmod +x silent
PATH=$work:$PATH PYTHONPATH=$here/clients/python PYTHONDONTWRITEBYTECODE=1 python3 - "$here/clients/python/README.md" <<'P'
import doctest, random, sys, gclq
from collections import defaultdict

for wrong, tried in (doctest.testmod(gclq), doctest.testfile(sys.argv[1], module_relative=False)):
    assert tried and not wrong, "an example prints something else"

draw, files = random.Random(7), 40
with gclq.Gclq() as g:
    for at in range(files):
        pieces = [b"<", b">", b"</", b"/>", b"a", b"B1", b"_", b".", b" ", b"\n", b"\r\n", b"\xc3\xa9", b'<a b="c">', b"<a/>", b"-", b"\x80", b"</A >"]
        with open(f"drawn{at}", "wb") as it:
            it.write(b"".join(draw.choice(pieces) for _ in range(draw.randrange(200))))
        g.add(f"drawn{at}")
    places = defaultdict(set)
    for hit in g.find("[1]"):  # the file is cut here, and its number of words and tags compared
        if hit.text and not hit.text.startswith("<") and "\ufffd" not in hit.text and hit.first not in (hit.file.first, hit.file.last):
            places["".join(c.lower() if c.isascii() else c for c in hit.text)].add(hit.first)
    assert len(places) > 5
    for word, wanted in places.items():
        assert {hit.first for hit in g.find(f'"{word}"')} == wanted, word

    assert list(g.top(1, '"nowhere"')) == [] and g.count("[1]") == g.files()[-1].last + 1
    for name in ("", " a", "a\nb"):
        try:
            g.add(name)
            raise AssertionError(name)
        except ValueError:
            pass

with gclq.Gclq("./silent", timeout=0.2) as g:
    try:
        g.add("hamlet")
        raise AssertionError("a silent program answered")
    except gclq.NoAnswer:
        pass
with open("long", "w") as it:
    it.write("to be " * 20000)
with gclq.Gclq() as g:
    g.add("long")
    hits = g.find("[1]")
    assert next(hits).last == 0 and g.count('"to be"') == 20000
print(f"client: its examples, the words of {files} drawn files, and three ends")
P
