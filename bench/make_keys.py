#!/usr/bin/env python3
"""Writes so many bytes of lines of two numbers, a key and a value, the same for the same seed.

    bench/make_keys.py BYTES FILE SEED

There are as many keys as lines, and each line has one of them by chance. A value is below 1,000.
"""
import random
import sys

# How long a line is, nearly.
LINE = 11


def main() -> None:
    size = int(sys.argv[1])
    chance = random.Random(int(sys.argv[3]))
    keys = max(size // LINE, 1)
    with open(sys.argv[2], "wb") as file:
        written = 0
        while written < size:
            lines = (f"{chance.randrange(keys)} {chance.randrange(1000)}\n" for _ in range(20_000))
            written += file.write("".join(lines).encode())


if __name__ == "__main__":
    main()
