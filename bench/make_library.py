#!/usr/bin/env python3
"""Prints a script that loads one library.

    make_library.py BOOKS [SEED]

Each book has its number as an attribute, and elements with a short text each: its year, its title, one to
three authors and its price.
"""

import argparse
import random

CHUNK = 1 << 20


def element(name, value):
    return f"({name}\n-{value}\n){name}\n"


def book(source, number):
    lines = [f"Aid CDATA {number}\n(book\n", element("year", source.randrange(1950, 2020))]
    lines.append(element("title", f"t{number}"))
    lines.extend(element("author", f"n{source.randrange(97)}") for _ in range(source.randint(1, 3)))
    lines.append(element("price", source.randrange(10, 100)) + ")book\n")
    return "".join(lines)


def main():
    words = argparse.ArgumentParser(description="Print a script that loads one library.")
    words.add_argument("books", type=int)
    words.add_argument("seed", type=int, nargs="?", default=7)
    given = words.parse_args()
    source = random.Random(given.seed)
    with open(1, "w", buffering=CHUNK) as out:
        out.write("session\nload library\n(lib\n")
        for number in range(1, given.books + 1):
            out.write(book(source, number))
        out.write(")lib\n.\n")


if __name__ == "__main__":
    main()
