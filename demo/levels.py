"""Numbers the tags of elements that nest: of <section> within <section> it makes <section2> within <section1>.

    python3 levels.py section div < page.html > numbered.html

Each name is counted by itself. Attributes stay, and so does everything else.
"""
import re
import sys

names = "|".join(map(re.escape, sys.argv[1:]))
depth = dict.fromkeys(map(str.lower, sys.argv[1:]), 0)


def numbered(tag):
    closing, name, rest = tag.groups()
    level = depth[name.lower()] + (not closing)
    if not rest.endswith("/"):
        depth[name.lower()] = max(0, level - bool(closing))
    return f"<{closing}{name}{max(1, level)}{rest}>"


text = sys.stdin.buffer.read().decode("utf-8", "surrogateescape")
text = re.sub(rf"<(/?)({names})((?:\s[^<>]*)?/?)>", numbered, text, flags=re.IGNORECASE)
sys.stdout.buffer.write(text.encode("utf-8", "surrogateescape"))
