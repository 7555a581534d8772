#!/usr/bin/env python3
"""Prints a script that loads one large document and asks one query of it.

    make_script.py SEED MEGABYTES [--same | --document | --load | --sessions S] [--implied PERCENT]

The document is random, and the same for the same words. It takes at most MEGABYTES million bytes,
and falls short of them by less than one subtree. The query asks for each `part` with each `item`
below it, or with each `part` below it where `--same` is given. With `--sessions` there are S sessions with
four loads each, all of MEGABYTES million bytes; behind each load its session asks the query of it, and at the
end, behind a mark of the session before it, of that session's last document. With `--document` the document's lines
are printed alone, and with `--load` the load alone. The document has elements alone; with `--implied` it has attributes and texts too, as
onsgmls prints them, and PERCENT of 100 attribute lines are of type IMPLIED.
"""

import argparse
import itertools
import random

DOCUMENT = b"parts"
ROOT = b"all"
FIRST = b"part"
SECOND = b"item"

# Of 256 elements below the root, how many have the name on the average. The two names of the query
# are frequent enough that there is about one answer for three or four elements.
SHARES = {
    b"part": 56,
    b"item": 50,
    b"name": 36,
    b"list": 28,
    b"text": 20,
    b"date": 16,
    b"note": 12,
    b"unit": 8,
    b"row": 8,
    b"ref": 6,
    b"key": 4,
    b"id": 4,
    b"no": 2,
    b"p": 4,
    b"b": 2,
}
NAMES = [name for name, share in SHARES.items() for _ in range(share)]

# How many kids an element has: one of these counts, each as likely. Most elements have none, as in
# documents that people write, and the rest have enough that many a subtree grows to full depth.
KIDS = [0, 0, 0, 0, 0, 0, 0, 0, 0, 1, 2, 2, 3, 4, 5, 6]

# Attributes that an element may have, and how many of them it has: one of these counts, each as likely.
ATTRIBUTES = [b"id", b"class", b"ref", b"lang", b"href", b"title"]
COUNTS = [0, 0, 1, 1, 2, 3, 4, 6]

# How many words values and texts have, and what words are made of. Each count is as likely.
VALUE_WORDS = [0, 1, 1, 1, 1, 2, 3, 8]
TEXT_WORDS = [1, 1, 2, 3, 5, 8, 13, 30]
SYLLABLES = [b"ta", b"ri", b"no", b"mel", b"sa", b"qu", b"le", b"er", b"stra", "é".encode(), "ü".encode()]
SEPARATORS = [b" "] * 24 + [b"\\n\\012"] * 4 + [b"\\\\", b"\\|[mdash]\\|", b"\\011", b"\\#8217;"]

# Elements inside each other, not counting the root.
MOST_LEVELS = 10

CHUNK = 1 << 20


def random_bytes(seed):
    """Endless random bytes; drawing many at once is far faster than one call a byte."""
    source = random.Random(seed)
    return itertools.chain.from_iterable(source.randbytes(CHUNK) for _ in itertools.count())


def push_subtree(draws, room, lines, content):
    """Appends the lines of one random element of at most `room` levels."""
    name = NAMES[next(draws)]
    kids = KIDS[next(draws) & 15]
    if room == 1:
        kids = 0
    if content:
        content.push_attributes(draws, lines)
    lines.append(b"(%b\n" % name)
    if content and not kids:
        content.push_text(draws, lines)
    for _ in range(kids):
        if content:
            lines.append(content.indent(room - 1))
        push_subtree(draws, room - 1, lines, content)
    if content and kids:
        lines.append(content.indent(room))
    lines.append(b")%b\n" % name)


def write_body(out, seed, most, content):
    """Writes a root full of random subtrees, at most so many bytes in all."""
    start, end = b"(%b\n" % ROOT, b")%b\n" % ROOT
    if content:
        start, end = b'?xml version="1.0"\n' + start, end + b"C\n"
    draws = random_bytes(seed)
    room = most - len(start) - len(end)
    out.write(start)
    while True:
        lines = []
        push_subtree(draws, MOST_LEVELS, lines, content)
        subtree = b"".join(lines)
        if len(subtree) > room:
            break
        out.write(subtree)
        room -= len(subtree)
    out.write(end)


class Content:
    """Attributes and texts, drawn from 256 of each that are made at the start."""

    def __init__(self, seed, percent):
        source = random.Random(seed)
        self.implied = [drawn < percent * 256 / 100 for drawn in range(256)]
        self.values = [random_text(source, source.choice(VALUE_WORDS)) for _ in range(256)]
        self.texts = [random_text(source, source.choice(TEXT_WORDS)) for _ in range(256)]

    def push_attributes(self, draws, lines):
        for name in ATTRIBUTES[: COUNTS[next(draws) & 7]]:
            if self.implied[next(draws)]:
                lines.append(b"A%b IMPLIED\n" % name)
            else:
                kind = b"TOKEN" if name == b"class" else b"CDATA"
                lines.append(b"A%b %b %b\n" % (name, kind, self.values[next(draws)]))

    def push_text(self, draws, lines):
        """Three of four elements without kids have a text."""
        if next(draws) & 3:
            lines.append(b"-%b\n" % self.texts[next(draws)])

    def indent(self, room):
        """The line end and the blanks before a tag, as data."""
        return b"-\\n\\012%b\n" % (b"  " * (MOST_LEVELS - room))


def random_text(source, words):
    """So many words, each with a blank, a line end or an escape behind it but the last."""
    text = bytearray()
    for at in range(words):
        text += b"".join(source.choice(SYLLABLES) for _ in range(source.randint(1, 4)))
        if at + 1 < words:
            text += source.choice(SEPARATORS)
    return bytes(text)


def write_sessions(out, seed, most, content, sessions):
    """Four loads a session, each asked of; and then the last document of the session before it."""
    ask = b'query\nMATCH document("d%d-%d") (//- %b (//- %b))\n.\n'
    for session in range(1, sessions + 1):
        out.write(b"session\n")
        for load in range(1, 5):
            out.write(b"load d%d-%d\n" % (session, load))
            write_body(out, seed * 1000 + session * 10 + load, most, content)
            out.write(b".\n" + ask % (session, load, FIRST, SECOND))
        before = sessions if session == 1 else session - 1
        out.write(b"tell m%d\nhear m%d\n" % (session, before))
        out.write(ask % (before, 4, FIRST, SECOND))


def main():
    words = argparse.ArgumentParser(description="Print a script of one load and one query.")
    words.add_argument("seed", type=int)
    words.add_argument("megabytes", type=float)
    form = words.add_mutually_exclusive_group()
    form.add_argument("--same", action="store_true", help="ask for one name twice")
    form.add_argument("--document", action="store_true", help="print the document alone")
    form.add_argument("--load", action="store_true", help="ask no query")
    form.add_argument("--sessions", type=int, metavar="S", help="sessions with four loads each")
    words.add_argument("--implied", type=int, metavar="PERCENT", help="with attributes and texts")
    given = words.parse_args()
    second = FIRST if given.same else SECOND
    most = int(given.megabytes * 1_000_000)
    content = None if given.implied is None else Content(given.seed, given.implied)
    with open(1, "wb", buffering=CHUNK) as out:
        if given.document:
            write_body(out, given.seed, most, content)
            return
        if given.sessions:
            write_sessions(out, given.seed, most, content, given.sessions)
            return
        out.write(b"session\nload %b\n" % DOCUMENT)
        write_body(out, given.seed, most, content)
        if given.load:
            out.write(b".\n")
            return
        query = b'MATCH document("%b") (//- %b (//- %b))' % (DOCUMENT, FIRST, second)
        out.write(b".\nquery\n%b\n.\n" % query)


if __name__ == "__main__":
    main()
