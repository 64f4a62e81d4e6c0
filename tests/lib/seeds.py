"""The seeds of a random script: those that are given, or one that is drawn. Each is told before
anything is tried by it, so that what failed can be run again."""

import random

from usage import refuse


def numbers(word):
    """The numbers that a word names, with a comma between."""
    if not all(map(str.isdecimal, word.split(","))):
        refuse()
    return [int(number) for number in word.split(",")]


def seeds_of(words):
    """The seeds that the first word names, with a comma between, or one that is drawn. They are told."""
    seeds = numbers(words[0]) if words else [random.SystemRandom().randrange(2**31)]
    print(f"seed {','.join(map(str, seeds))}", flush=True)
    return seeds


def seeded(words):
    """Begins the chance of a script that goes by one seed. The seed."""
    if len(words) > 1 or "," in "".join(words):
        refuse()
    (seed,) = seeds_of(words)
    random.seed(seed)
    return seed


def in_turn(words, total):
    """Begins the chance of each seed in turn. How many of so many tries in all each has."""
    seeds = seeds_of(words)
    for place, seed in enumerate(seeds):
        random.seed(seed)
        yield (total + place) // len(seeds)


def count_of(words, count):
    """How many tries are asked for behind the seeds; else so many."""
    if len(words) > 2:
        refuse()
    return numbers(words[1])[0] if len(words) > 1 else count
