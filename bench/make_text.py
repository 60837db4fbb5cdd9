#!/usr/bin/env python3
"""Writes so many bytes of lines, about 50 bytes each, the same at each call.

    bench/make_text.py BYTES FILE

A line begins with a word and a number from 0 to 999, and goes on with words.
"""
import random
import sys

WORDS = (
    "art book city day east fact goal home idea job king life moon name open part quiet road "
    "state time unit voice water year zone"
).split()


def line(chance: random.Random) -> str:
    """A line of 40 to 60 bytes."""
    words = [chance.choice(WORDS), str(chance.randrange(1000))]
    goal = chance.randint(40, 60)
    while sum(map(len, words)) + len(words) < goal:
        words.append(chance.choice(WORDS))
    return " ".join(words)


def main() -> None:
    size = int(sys.argv[1])
    chance = random.Random(1)
    block = "".join(line(chance) + "\n" for _ in range(20_000)).encode()
    with open(sys.argv[2], "wb") as file:
        written = 0
        while written + len(block) <= size:
            written += file.write(block)
        rest = block[: size - written]
        file.write(rest[: rest.rfind(b"\n") + 1])


if __name__ == "__main__":
    main()
