#!/usr/bin/env python3
"""Refuses each allocation of some runs in turn, and looks for an answer that is no refusal.

    tools/fail_allocations.py [-k TEXT] [--first N] [--last N] [--step N] [--executors N]

The runs are those below whose name has TEXT, each over the built program (that of
crates/spark_run/out, or the file SPARK_RUN): the cases of cases/*.txt by place and claim, the save
of examples/saving, and the saves, sorts and losses of RUNS, which are called runs/NAME. With
--executors each has so many, where its words don't say how many. Of each run every allocation is
refused, each in a run of its own: those from number N (1) to N (the last one), by steps of N (1).
A run then either

- wants memory: its status is 13, its output is some first lines of what is expected, and of the
  directories that it saved to one at most isn't whole, and has what a save may leave that ended
  early: nothing, its staging area, some first parts with that, or all parts; or
- ends as ever, with the output, the status and the directories that it has with all memory: where
  the memory was to keep a partition of a `cache` node, say.

Anything else is told, with the number, and the tool ends with 1. A line for each run has its number
of allocations and how many runs ended so, and the last line has the sums. With threads the number
differs a little from run to run, so what is refused by a number isn't always the same. It needs a C
compiler, and is no part of the gate.
"""
import argparse
import concurrent.futures
import dataclasses
import os
import pathlib
import subprocess
import sys
import tempfile
from collections.abc import Iterator

import check_cases
from hostile.saves import wrong_end, wrong_parts

TOP = pathlib.Path(__file__).resolve().parent.parent
WANT, NO_END, LIMIT = 13, 124, 60
# Runs that no case has, since what they save or lose is seen of the files and not of the text.
RUNS = {
    "saves_three_parts": """l = parallelize 3 1 2 3 4 5
save l "out"
""",
    "saves_a_sort": """l = parallelize 2 9 2 1 3 2
p = map l (pair x 0)
s = sortByKey p 3
save s "out"
""",
    "saves_by_repeated_and_late_attempts": """l = parallelize 4 1 2 3 4 5 6
m = map l (* x 10)
save m "out"
collect m
""",
    "saves_with_a_copy": """l = parallelize 4 1 2 3 4
save l "out"
""",
    "gathers_on_threads": """l = parallelize 8 1 2 3 4 5 6 7 8 9 10 11 12
p = map l (pair (% x 3) x)
g = groupByKey p 4
c = cache g
s = sortByKey c 3
collect s
count c
""",
}
PLANS = {
    "saves_with_a_copy": "late 0 0 0 9\n",
    "saves_by_repeated_and_late_attempts": "fail 0 0 0\nlate 0 1 0 2\ntwice 0 2 0\nfail 0 3 0\n",
    "gathers_on_threads": "drop 0 5\nlate 0 2 0 3\n",
}
WORDS = {"saves_with_a_copy": [b"--speculation"]}


@dataclasses.dataclass(frozen=True)
class Seen:
    """What is seen of a run, with the files that stand behind it, and what is wrong with those."""

    status: int
    out: bytes
    files: frozenset[tuple[str, bytes]]
    wrong: tuple[str, ...]


@dataclasses.dataclass
class Run(check_cases.Case):
    """A case with the directories that it saves to, which have these parts where they are whole."""

    saved: dict[str, list[bytes]] = dataclasses.field(default_factory=dict)


@dataclasses.dataclass
class Tally:
    """How the runs with one refused allocation ended."""

    wanted: int = 0
    as_ever: int = 0
    wrong: list[str] = dataclasses.field(default_factory=list)

    def shown(self) -> str:
        return f"{self.wanted} want, {self.as_ever} as ever, {len(self.wrong)} WRONG"


def shim(scratch: pathlib.Path) -> pathlib.Path:
    """The library that refuses memory."""
    library = scratch / "refuse_memory.so"
    source = TOP / "tools/refuse_memory.c"
    subprocess.run(
        ["cc", "-O1", "-shared", "-fPIC", "-fno-builtin", source, "-o", library], check=True
    )
    return library


def files_in(folder: pathlib.Path, given: set[str]) -> frozenset[tuple[str, bytes]]:
    """The files that a run made."""
    found = (path for path in folder.rglob("*") if path.is_file())
    named = ((str(path.relative_to(folder)), path) for path in found)
    return frozenset((name, path.read_bytes()) for name, path in named if name not in given)


def run(
    program: pathlib.Path, case: check_cases.Case, library: pathlib.Path, number: int
) -> tuple[Seen, int]:
    """Runs a case with the allocation of a number refused: what is seen, and how many there
    were."""
    with tempfile.TemporaryDirectory() as scratch:
        folder, counted = pathlib.Path(scratch, "here"), pathlib.Path(scratch, "counted")
        folder.mkdir()
        for name, content in case.files.items():
            (folder / os.fsdecode(name)).write_bytes(content)
        names = {os.fsdecode(name) for name in case.files}
        outside = {"LD_PRELOAD": library, "REFUSED": str(number), "COUNTED": counted}
        words = [bytes(program.resolve()), *case.words]
        try:
            ran = subprocess.run(
                words, cwd=folder, input=b"", capture_output=True, timeout=LIMIT, env=outside
            )
        except subprocess.TimeoutExpired:
            return Seen(NO_END, b"", files_in(folder, names), ()), 0
        count = int(counted.read_text()) if counted.exists() else 0
        wrong = tuple(wrong_folders(folder, case.saved))
        return Seen(ran.returncode, ran.stdout, files_in(folder, names), wrong), count


def wrong_folders(folder: pathlib.Path, saved: dict[str, list[bytes]]) -> Iterator[str]:
    """What is wrong with directories that have these parts where they are whole."""
    there = {name: parts for name, parts in saved.items() if (folder / name).exists()}
    for name, parts in there.items():
        yield from wrong_end(folder / name, parts)
    begun = [name for name, parts in there.items() if list(wrong_parts(folder / name, parts))]
    if len(begun) > 1:
        yield f"{begun} aren't whole"


def is_refusal(seen: Seen, whole: Seen) -> bool:
    """Whether a run says that it wants memory, and left what it may leave."""
    is_cut = whole.out.startswith(seen.out) and (not seen.out or seen.out.endswith(b"\n"))
    return seen.status == WANT and is_cut and not seen.wrong


def saved_by(whole: Seen) -> dict[str, list[bytes]]:
    """The directories that a run saves to, with their parts."""
    found: dict[str, list[bytes]] = {}
    for name, content in sorted(whole.files):
        folder, _, file = name.rpartition("/")
        if file.startswith("part-"):
            found.setdefault(folder, []).append(content)
    return found


def tally(
    program: pathlib.Path, case: check_cases.Case, library: pathlib.Path, numbers: range
) -> tuple[int, Tally]:
    """All runs of a case, and its number of allocations."""
    case = Run(**vars(case))
    whole, count = run(program, case, library, 0)
    case.saved = saved_by(whole)
    found = Tally()
    with concurrent.futures.ThreadPoolExecutor(len(os.sched_getaffinity(0))) as pool:
        tried = [number for number in range(1, count + 1) if number in numbers]
        runs = pool.map(lambda number: run(program, case, library, number)[0], tried)
        for number, seen in zip(tried, runs):
            if seen == whole:
                found.as_ever += 1
            elif is_refusal(seen, whole):
                found.wanted += 1
            else:
                why = ", ".join(seen.wrong) or repr(seen.out[:200])
                found.wrong.append(f"  {number}: status {seen.status}, {why}")
    return count, found


def own_runs() -> list[check_cases.Case]:
    """The example that saves, and the runs that no case has."""
    folder = TOP / "examples/saving"
    files = {path.name.encode(): path.read_bytes() for path in folder.iterdir() if path.is_file()}
    found = [check_cases.Case("examples/saving", [b"run", b"job.spark"], files, 0, {})]
    for name, script in RUNS.items():
        words = [b"run", b"job.spark", *WORDS.get(name, [])]
        files = {b"job.spark": script.encode()}
        if name in PLANS:
            words += [b"--plan", b"plan.txt"]
            files[b"plan.txt"] = PLANS[name].encode()
        found.append(check_cases.Case(f"runs/{name}", words, files, 0, {}))
    return found


def with_executors(case: check_cases.Case, executors: int | None) -> check_cases.Case:
    """A run with so many executors, where its words don't say how many."""
    is_said = executors is None or any(word.startswith(b"--executors") for word in case.words)
    words = [] if is_said else [b"--executors=%d" % executors]
    return dataclasses.replace(case, words=[*case.words, *words])


def main() -> int:
    parser = argparse.ArgumentParser(description=__doc__.splitlines()[0])
    parser.add_argument("-k", metavar="TEXT", default="", help="only runs that have TEXT")
    parser.add_argument("--first", metavar="N", type=int, default=1)
    parser.add_argument("--last", metavar="N", type=int, default=1 << 40)
    parser.add_argument("--step", metavar="N", type=int, default=1)
    parser.add_argument("--executors", metavar="N", type=int)
    arguments = parser.parse_args()
    program = pathlib.Path(os.environ.get("SPARK_RUN", TOP / "crates/spark_run/out/spark_run"))
    if not os.access(program, os.X_OK):
        print(f"fail_allocations: skipped, since {program} isn't built")
        return 0
    cases = [it for path in sorted(TOP.glob("cases/*.txt")) for it in check_cases.cases_of(path)]
    numbers = range(arguments.first, arguments.last + 1, arguments.step)
    sums = Tally()
    with tempfile.TemporaryDirectory() as scratch:
        library = shim(pathlib.Path(scratch))
        for case in [it for it in [*own_runs(), *cases] if arguments.k in it.name]:
            case = with_executors(case, arguments.executors)
            count, found = tally(program, case, library, numbers)
            print(f"{case.name}: {count} allocations, {found.shown()}", *found.wrong, sep="\n")
            sys.stdout.flush()
            sums.wanted += found.wanted
            sums.as_ever += found.as_ever
            sums.wrong += found.wrong
    tried = sums.wanted + sums.as_ever + len(sums.wrong)
    print(f"allocations: {tried} refused, {sums.shown()}")
    return 1 if sums.wrong else 0


if __name__ == "__main__":
    sys.exit(main())
