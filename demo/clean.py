"""Cleans a text of what would belong to its words: curly quotes, no-break spaces, soft hyphens, entities, comments and a byte order mark.

    python3 clean.py < page.html > clean.html

Lines stay where they are.
"""
import html
import re
import sys

SIGNS = {"\u2018": "'", "\u2019": "'", "\u201c": '"', "\u201d": '"', "\u00a0": " ", "\u202f": " ", "\u00ad": None, "\ufeff": None}


def entity(found):
    meant = html.unescape(found[0])
    return " " if meant in "<>&" or meant == found[0] else meant


text = sys.stdin.buffer.read().decode("utf-8", "surrogateescape")
text = re.sub(r"<!--.*?-->", lambda found: " " + "\n" * found[0].count("\n"), text, flags=re.DOTALL)
text = re.sub(r"&#?[A-Za-z0-9]+;", entity, text).translate(str.maketrans(SIGNS))
sys.stdout.buffer.write(text.encode("utf-8", "surrogateescape"))
