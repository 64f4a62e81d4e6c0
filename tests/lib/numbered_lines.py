#!/usr/bin/python3
"""Prints numbered lines to standard output and standard error:
what a command of `tests/chaos/chaos` does.

    numbered_lines.py SEED LINES SECONDS

The same words print the same lines, so that a log can be compared with them. Most are short; some
are empty, some longer than a worker says at once; some have bytes that aren't UTF-8. They are
written in pieces that end anywhere in a line, with pauses of some SECONDS in all, twice as many at
most.
"""

import os
import random
import sys
import time

# A worker says longer lines in pieces of so many bytes, and each piece is a line of the log.
LONGEST_TEXT = 16_384
OUTPUT, ERRORS = 1, 2
FILLER = "".join(f" {place}" for place in range(9_000)).encode()
ODD = 'tab\t, quotes "\\", return\r, nul\0, \u00fc \u20ac \U0001d11e '.encode() + b"\xff\xc3 " * 2


def printed(seed, lines):
    """The lines in their order, each with its pipe."""
    chance = random.Random(seed)
    for number in range(lines):
        pipe = OUTPUT if chance.random() < 0.7 else ERRORS
        yield pipe, line_of(chance, number)


def line_of(chance, number):
    kind = chance.random()
    if kind < 0.01:
        return b""
    longest = 60 if kind < 0.8 else 200 if kind < 0.98 else 2_000 if kind < 0.9985 else 40_000
    start, length = number % 997, chance.randrange(longest)
    odd = ODD if kind < 0.02 else ODD * 700 if kind > 0.9997 else b""
    return b"%d:" % number + odd + FILLER[start : start + length]


def shown(line):
    """The lines of a log that show it."""
    whole = line + b"\n"
    texts = [whole[at : at + LONGEST_TEXT] for at in range(0, len(whole), LONGEST_TEXT)]
    return [text.decode(errors="replace").removesuffix("\n") for text in texts]


def may_begin(start, line):
    """Whether a process that was killed within this line may have said so much of it. A character
    that was cut is shown as one U+FFFD."""
    return line.startswith(start) or start.endswith("\ufffd") and line.startswith(start[:-1])


def write(pipe, data):
    while data:
        data = data[os.write(pipe, data) :]


def write_in_pieces(chance, pipe, data):
    places = sorted(chance.randrange(len(data) + 1) for _ in range(chance.choice([0, 0, 1, 3])))
    for start, end in zip([0] + places, places + [len(data)]):
        write(pipe, data[start:end])
        if chance.random() < 0.1:
            time.sleep(0.002)


def print_all(seed, lines, seconds):
    chance = random.Random()
    waiting, left = {OUTPUT: b"", ERRORS: b""}, 1
    for number, (pipe, line) in enumerate(printed(seed, lines), 1):
        waiting[pipe] += line + b"\n"
        left -= 1
        if left == 0:
            for each in (OUTPUT, ERRORS):
                write_in_pieces(chance, each, waiting[each])
                waiting[each] = b""
            left = min(chance.choice([1, 5, 50, 200]), lines - number)
            time.sleep(2 * chance.random() * seconds * left / lines)
    for each in (OUTPUT, ERRORS):
        write(each, waiting[each])


if __name__ == "__main__":
    try:
        print_all(int(sys.argv[1]), int(sys.argv[2]), float(sys.argv[3]))
    except BrokenPipeError:
        os._exit(1)
