#!/usr/bin/env python3
"""Writes so many bytes of lines, the same for the same kind and seed.

    bench/make_words.py KIND BYTES FILE SEED

    words    ten words a line, of 50,000 words of 1 to 12 letters with Zipf's frequencies
    distinct a key and a value a line: `k` and six digits, a million keys in turn
    sixteen  the same with sixteen keys, `k0` to `k15`
    twenty   the same with twenty lines a key
    long     keys of 20 to 40 bytes with common beginnings, four lines a key
    numbers  keys that are numbers, as many as lines, each line one of them by chance

A value is below 1,000.
"""
import itertools
import random
import string
import sys

WORDS = 50_000
BLOCK = 20_000
# How long a line of a short key is, nearly.
LINE = 12


def words(chance: random.Random, size: int):
    """Lines of ten words, the n-th most frequent of which comes 1 / n as often as the first."""
    known: dict[str, None] = {}
    while len(known) < WORDS:
        letters = chance.choices(string.ascii_lowercase, k=chance.randint(1, 12))
        known["".join(letters)] = None
    weights = list(itertools.accumulate(1 / n for n in range(1, WORDS + 1)))
    spelled = list(known)
    while True:
        drawn = chance.choices(spelled, cum_weights=weights, k=10 * BLOCK)
        yield from (" ".join(drawn[i : i + 10]) for i in range(0, len(drawn), 10))


def keyed(keys: list[str], chance: random.Random):
    """Lines of a key and a value: all keys in an order by chance, and then again."""
    while True:
        chance.shuffle(keys)
        yield from (f"{key} {chance.randrange(1000)}" for key in keys)


def distinct(chance: random.Random, size: int):
    """Short keys, each once: from 1,000,000 lines on, again."""
    return keyed([f"k{n:06}" for n in range(1_000_000)], chance)


def sixteen(chance: random.Random, size: int):
    """Sixteen keys."""
    return keyed([f"k{n}" for n in range(16)], chance)


def twenty(chance: random.Random, size: int):
    """Short keys, twenty lines each."""
    count = min(max(size // LINE // 20, 1), 1_000_000)
    return keyed([f"k{n:06}" for n in range(count)], chance)


def long(chance: random.Random, size: int):
    """Long keys that begin with one of eight paths, four lines each."""
    paths = [f"region/area{n}/district/" for n in range(8)]
    count = max(size // 35 // 4, 1)
    return keyed([chance.choice(paths)[: chance.randint(14, 23)] + f"{n:07}" + "x" * (n % 11)
                  for n in range(count)], chance)


def numbers(chance: random.Random, size: int):
    """Numbers, about as many as lines."""
    count = max(size // LINE, 1)
    while True:
        yield f"{chance.randrange(count)} {chance.randrange(1000)}"


KINDS = {kind.__name__: kind for kind in (words, distinct, sixteen, twenty, long, numbers)}


def main() -> None:
    kind, size, path, seed = sys.argv[1], int(sys.argv[2]), sys.argv[3], int(sys.argv[4])
    lines = KINDS[kind](random.Random(seed), size)
    with open(path, "wb") as file:
        written = 0
        while written < size:
            block = "\n".join(itertools.islice(lines, BLOCK)) + "\n"
            written += file.write(block.encode())


if __name__ == "__main__":
    main()
