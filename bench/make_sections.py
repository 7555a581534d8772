#!/usr/bin/env python3
"""Prints the lines of a document of sections inside each other: make_sections.py NODES [LEVELS [SEED]].

Each section `sec` has a number as an attribute and a title, and paragraphs `p`, figures `fig` and sections at random,
up to that many levels, 60 where no words are given.
"""

import argparse
import random

CHUNK = 1 << 20


def section(number):
    return f"Aid CDATA s{number}\n(sec\n(title\n-Section {number}\n)title\n"


def leaf(source, number):
    """A paragraph, or a figure, of two nodes each."""
    if source.random() < 0.65:
        return f"(p\n-the text of paragraph {number}, which is a line long\n)p\n"
    return f"Aid CDATA f{number}\n(fig\n)fig\n"


def main():
    words = argparse.ArgumentParser(description="Print the lines of a document of sections.")
    words.add_argument("nodes", type=int)
    words.add_argument("levels", type=int, nargs="?", default=60)
    words.add_argument("seed", type=int, nargs="?", default=7)
    given = words.parse_args()
    source = random.Random(given.seed)
    nodes = 1
    number = open_sections = 0
    with open(1, "w", buffering=CHUNK) as out:
        out.write("(doc\n")
        while nodes < given.nodes:
            number += 1
            if open_sections == 0 or open_sections < given.levels and source.random() < 0.36:
                out.write(section(number))
                open_sections += 1
                nodes += 4
            elif source.random() < 0.47:
                out.write(")sec\n")
                open_sections -= 1
            else:
                out.write(leaf(source, number))
                nodes += 2
        out.write(")sec\n" * open_sections + ")doc\n")


if __name__ == "__main__":
    main()
