#!/usr/bin/env python3
"""Runs the cases with executors that are delayed here and there, and compares as ever.

    tools/check_orders.py [-k TEXT] [--first SEED] [--last SEED] [--jobs N]

Which executor comes first differs from run to run, and what a case wants may not. So of each case
in which more than one works there is a run for each of the seeds SEED (1) to SEED (20), and in it
threads sleep now and then, each in its own way, as tools/delay_threads.c says. Where a seed finds
nothing, nothing is said of other orders. These are the cases

- of cases/*.txt, by the program of crates/spark_run/out, or the file SPARK_RUN;
- of cases/story/*.txt, by that of crates/spark_story/out, or the file SPARK_STORY;
- of cases/*.txt and examples/ that want status 6, by spark_story once more, with a history: there
  no two partitions of a stage may raise, since either may be the first that has raised too often,
  and the text names it.

Prints what differs, with the seed, and the counts, and ends with 1 where something does. N (twice
the processors) are run at a time. Where a program isn't built this says so, and leaves its cases
out. It needs a C compiler, and is no part of the gate.
"""
import argparse
import collections
import concurrent.futures
import os
import pathlib
import re
import subprocess
import sys
import tempfile
from collections.abc import Callable, Iterator

import check_cases
import check_story

TOP = pathlib.Path(__file__).resolve().parent.parent
SOURCE = TOP / "tools/delay_threads.c"
RAISED = re.compile(rb"\d+ post (\d+)\.(\d+)\.(\d+)\.\d+ failed: raised")
ONE = re.compile(rb"--executors(=| )\+?0*1\b")
LIMIT, STORY_HISTORY = 6, b"orders.history"
UNBEGUN = (2, 3, 4, 5, 15)

Check = Callable[[pathlib.Path, check_cases.Case], list[str]]


def has_orders(case: check_cases.Case) -> bool:
    """Whether a job begins in a case, and more executors than one may work."""
    return case.status not in UNBEGUN and not ONE.search(b" ".join(case.words))


def examples() -> Iterator[check_cases.Case]:
    """The examples that want the status of a task's limit."""
    for path in sorted(TOP.glob("examples/*/*expect_status.txt")):
        name = path.name.removesuffix("expect_status.txt")
        files = {it.name.encode(): it.read_bytes() for it in path.parent.iterdir() if it.is_file()}
        script = name.removesuffix("_") or "job"
        words = files.get(f"{name}args.txt".encode(), f"run\n{script}.spark\n".encode())
        if int(path.read_text()) == LIMIT:
            words = words.removesuffix(b"\n").split(b"\n")
            wanted = {b"err": files[f"{name}expect_err.txt".encode()]}
            where = f"examples/{path.parent.name} {script}"
            yield check_cases.Case(where, words, files, LIMIT, wanted)


def as_a_case(program: pathlib.Path, case: check_cases.Case) -> list[str]:
    """What differs in a run of spark_run."""
    return check_cases.differences(program, case)


def as_a_story(program: pathlib.Path, case: check_cases.Case) -> list[str]:
    """What differs in a run of spark_story."""
    return check_story.differences(program, case, is_story=True)


def as_one_that_raises(program: pathlib.Path, case: check_cases.Case) -> list[str]:
    """What differs, or which partitions of a stage raise, where more than one does."""
    with tempfile.TemporaryDirectory() as scratch:
        folder = pathlib.Path(scratch)
        for name, content in case.files.items():
            (folder / os.fsdecode(name)).write_bytes(content)
        words = [bytes(program), *case.words, b"--history", STORY_HISTORY]
        ran = subprocess.run(words, cwd=folder, input=b"", capture_output=True, timeout=60)
        history = folder / os.fsdecode(STORY_HISTORY)
        entries = history.read_bytes() if history.exists() else b""
    told = [f"  status {ran.returncode}"] * (ran.returncode != case.status)
    if not ran.stderr.startswith(case.wanted[b"err"]):
        told += ["  err: what came", *check_story.shown(ran.stderr)]
    raising = collections.defaultdict(set)
    for stage, attempt, partition in RAISED.findall(entries):
        raising[stage, attempt].add(partition)
    return told + [f"  {sorted(it)} raise in one stage" for it in raising.values() if len(it) > 1]


def library(scratch: pathlib.Path) -> pathlib.Path:
    """The library that delays threads."""
    made = scratch / "delay_threads.so"
    subprocess.run(["cc", "-O1", "-shared", "-fPIC", SOURCE, "-o", made, "-ldl"], check=True)
    return made


def all_checks() -> Iterator[tuple[pathlib.Path, check_cases.Case, Check]]:
    """The program, the case, and what is looked at, of each run of a seed."""
    found = {}
    for name in ("spark_run", "spark_story"):
        built = TOP / f"crates/{name}/out/{name}"
        found[name] = pathlib.Path(os.environ.get(name.upper(), built)).resolve()
        if not os.access(found[name], os.X_OK):
            print(f"check_orders: without {name}, since {found[name]} isn't built")
            del found[name]
    cases = [it for it in check_story.run_cases() if has_orders(it)]
    if program := found.get("spark_run"):
        yield from ((program, it, as_a_case) for it in cases)
    if program := found.get("spark_story"):
        own = (it for it in check_story.story_cases() if has_orders(it))
        yield from ((program, it, as_a_story) for it in own)
        raising = (it for it in [*cases, *examples()] if it.status == LIMIT)
        yield from ((program, it, as_one_that_raises) for it in raising)


def main() -> int:
    parser = argparse.ArgumentParser(description=__doc__.splitlines()[0])
    parser.add_argument("-k", metavar="TEXT", default="", help="only cases that have TEXT")
    parser.add_argument("--first", metavar="SEED", type=int, default=1)
    parser.add_argument("--last", metavar="SEED", type=int, default=20)
    parser.add_argument("--jobs", metavar="N", type=int, default=2 * (os.cpu_count() or 1))
    arguments = parser.parse_args()
    checks = [it for it in all_checks() if arguments.k in it[1].name]
    runs = faults = 0
    with tempfile.TemporaryDirectory() as scratch:
        os.environ["LD_PRELOAD"] = str(library(pathlib.Path(scratch)))
        for seed in range(arguments.first, arguments.last + 1):
            os.environ["SEED"] = str(seed)
            with concurrent.futures.ThreadPoolExecutor(arguments.jobs) as pool:
                told = pool.map(lambda it: it[2](it[0], it[1]), checks)
                for (_, case, _), found in zip(checks, told):
                    runs += 1
                    if found:
                        print(f"seed {seed}: {case.name}", *found, sep="\n", flush=True)
                        faults += 1
    print(f"orders: {len(checks)} cases, {runs} runs, {faults} not as expected")
    return 1 if faults else 0


if __name__ == "__main__":
    sys.exit(main())
