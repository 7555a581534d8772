#!/usr/bin/env python3
"""Prints a script of sessions that wait for each other.

    make_waits.py [--up]

64 sessions pass on 5,000 times what they tell: each hears the mark of the one whose turn was before, and
tells its own, from the last session to the first and then from the last again. With `--up` it goes from
the first to the last. So each session has 10,000 commands, and the one that begins one less.
"""

import argparse

SESSIONS = 64
TURNS = 5_000


def main():
    words = argparse.ArgumentParser(description="Print a script of sessions that wait for each other.")
    words.add_argument("--up", action="store_true", help="from the first session to the last")
    up = words.parse_args().up
    with open(1, "wb") as out:
        for session in range(SESSIONS):
            place = session if up else SESSIONS - 1 - session
            out.write(b"session\n")
            for turn in range(place, SESSIONS * TURNS, SESSIONS):
                if turn > 0:
                    out.write(b"hear %x\n" % (turn - 1))
                out.write(b"tell %x\n" % turn)


if __name__ == "__main__":
    main()
