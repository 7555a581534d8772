#!/usr/bin/env python3
"""Prints a script of sessions of 10,000 queries of clauses, each wrong at its last token.

Usage: make_queries.py COUNT
"""
import sys

CONDITIONS = " AND ".join(
    f"$b/part{n}/@year {sign} {n} AND count($a//item{n}) {sign} '{n}'"
    for n, sign in enumerate((["=", "!=", "<", "<=", ">", ">="] * 3)[:16])
)
TEXT = (
    "FOR $a IN document(\"d\")//a, $b ALLOWING EMPTY IN $a/b/c\n"
    "LET $c := $a//text()\n"
    f"WHERE {CONDITIONS}\n"
    "GROUP BY $g := $a/@year\n"
    "ORDER BY $b/name DESCENDING, $c ASCENDING\n"
    "RETURN <r x='1' y={$a/b}><s>{$b/c}</s>{count($c)}</r> $a"
)


def main():
    count = int(sys.argv[1])
    for number in range(count):
        if number % 10_000 == 0:
            print("session")
        print("query")
        print(TEXT)
        print(".")


main()
