#!/usr/bin/python3
"""The jobs as one writes them for dask: dask_jobs.py JOB prints what the script of that job prints.

Texts go through bags, whose tasks are processes, and rows by key through data frames, whose tasks
are threads: dask's own choice for each.
"""
import sys

import dask
import dask.bag
import dask.dataframe

ROUNDS = 12
WORKERS = 4


def lines():
    """The lines of lines.txt, in about eight partitions."""
    with open("lines.txt", "rb") as file:
        size = file.seek(0, 2)
    return dask.bag.read_text("lines.txt", blocksize=-(-size // 8)).map(str.rstrip, "\n")


def frame(path, key, partitions=8):
    """The rows of a key and a value."""
    with open(path, "rb") as file:
        size = file.seek(0, 2)
    return dask.dataframe.read_csv(
        path, sep=" ", names=["key", "value"], dtype={"key": key, "value": "int64"},
        blocksize=-(-size // partitions))


def concat():
    for line in lines().map(lambda x: x + "!").compute():
        print(line)


def pipeline():
    ended = lines().filter(lambda x: x < "n").map(lambda x: x + " end")
    words = ended.map(str.split).flatten()
    print(words.filter(lambda x: x != "end").count().compute())


def lineage():
    numbers = lines().map(lambda x: int(x.split()[1]))
    for _ in range(ROUNDS):
        numbers = numbers.map(lambda x: x * 3).map(lambda x: x + 1)
        # Python's remainder isn't negative, and the script's has the sign of what is divided.
        numbers = numbers.map(lambda x: x % 1_000_003 if x >= 0 else -(-x % 1_000_003))
        numbers = numbers.map(lambda x: x - 7)
    print(numbers.filter(lambda x: x % 2 == 0).count().compute())



def save():
    lines().map(lambda x: x + "!").to_textfiles("saved/part-*")


def word_count():
    counts = lines().map(str.split).flatten().frequencies().compute()
    print(sum(count * count for _, count in counts))


def sum_by_key():
    sums = frame("lines.txt", "str").groupby("key").value.sum()
    print((sums * sums).sum().compute())


def sort(key="int64"):
    frame("keys.txt", key).sort_values("key").compute().to_csv(
        sys.stdout, sep=" ", header=False, index=False)


def sort_texts():
    sort("str")


def group():
    found = frame("keys.txt", "int64").groupby("key").value.agg(["count", "sum"])
    print((found["count"] * found["sum"]).sum().compute())


def join():
    met = frame("left.txt", "int64").merge(frame("right.txt", "int64"), on="key")
    print((met.value_x * met.value_y).sum().compute())


def buckets():
    rows = frame("keys.txt", "int64", 1_000)
    print(len(rows.groupby("key", sort=False).value.count(split_out=1_000).compute()))


if __name__ == "__main__":
    with dask.config.set(num_workers=WORKERS):
        globals()[sys.argv[1]]()
