#!/usr/bin/env python3
"""Prints the lines of a deep document: make_deep.py NODES [LEVELS [SEED]].

Elements `a`, `b`, `c` and `d` at random, inside each other up to that many levels, 12 where no words are
given, below a root `r`.
"""

import argparse
import random

CHUNK = 1 << 20


def main():
    words = argparse.ArgumentParser(description="Print the lines of a deep document.")
    words.add_argument("nodes", type=int)
    words.add_argument("levels", type=int, nargs="?", default=12)
    words.add_argument("seed", type=int, nargs="?", default=7)
    given = words.parse_args()
    source = random.Random(given.seed)
    stack = []
    with open(1, "w", buffering=CHUNK) as out:
        out.write("(r\n")
        for _ in range(given.nodes - 1):
            while stack and (len(stack) >= given.levels - 1 or source.random() < 0.45):
                out.write(f"){stack.pop()}\n")
            stack.append(source.choice("abcd"))
            out.write(f"({stack[-1]}\n")
        while stack:
            out.write(f"){stack.pop()}\n")
        out.write(")r\n")


if __name__ == "__main__":
    main()
