#!/usr/bin/env python3
"""Runs the gate from nothing and tells what it took, crate by crate.

    tools/gate_times.py [--kept] [--page FILE] [-- COMMAND..]
    tools/gate_times.py --watch PID [--root FOLDER] [--page FILE]
    tools/gate_times.py --functions [--root FOLDER] [--page FILE]

The first runs `rt ci --anew`, with --kept `rt ci`, or another command, and prints each of its lines
behind the time. The second looks at an `rt` that runs already, until it ends or until Ctrl-C. At
the end of each, and in FILE, stand tables in Markdown:

- of each crate the processor-minutes of its proof, of its tests, and of its must-fail edits: of the
  seed, which is one more check of the crate, and of the edits over it. And the minutes since the
  start at which its first check began, its proof ended, and its last check ended;
- the chain of crates, each on the one before, whose proofs take longest together. The gate can't be
  faster than that;
- the dearest edits;
- the longest functions.

`rt ci` tells what its edits came to only at its end, so the times are those of the processes of
rattle below it, looked at each second. What a process did after the last look, half a second, is
lost. The last line tells what `rt` and all below it took, the runs of programs and tests too.

The time of a function is taken from what a check from nothing keeps: a file for each module, once
it is checked, so the time between a file and the one before is that of the module. It is in seconds
of the clock, and exact where one job checks the crate and has a processor for itself. `rt ci` keeps
files for seeds alone. Of a crate without one, and with --functions of each crate, those count that
`rt all check` left in out/incremental; a later check that made some anew spoils them.
"""
import argparse
import contextlib
import dataclasses
import datetime
import os
import pathlib
import re
import resource
import subprocess
import sys
import threading
import time
from collections.abc import Iterator

from crate_files import Crates
from running_checks import Check, checks_below

PAUSE = 1.0
KINDS = ("proof", "tests", "seed", "edit")
FUNCTIONS, EDITS = 25, 10
GAP = 600  # the most seconds between two files of one run
MODULE = re.compile(r"Rattle-(\w+)-proofs\.(.+?)(?:\.decls)?\.oantt$")
PART_OF_A_PROOF = re.compile(r"(?:\.[A-Z][^.]*(?<!Lemmas))+$")


@dataclasses.dataclass
class Seen:
    """A check, and when it was seen first and last, in seconds since the start."""

    check: Check
    first: float
    last: float


class Sampler(threading.Thread):
    """Looks at the checks below a process until it is told to stop."""

    def __init__(self, root: int) -> None:
        super().__init__(daemon=True)
        self.root = root
        self.started = time.monotonic()
        self.seen: dict[tuple[int, int], Seen] = {}
        self.functions: dict[tuple[str, str], float] = {}
        self.seeds: set[pathlib.Path] = set()
        self.stopped = threading.Event()

    def run(self) -> None:
        while not self.stopped.wait(PAUSE):
            self.look()

    def look(self) -> None:
        """Notes what each check has taken so far, and what a seed holds once an edit begins."""
        now = time.monotonic() - self.started
        for check in checks_below(self.root):
            known = self.seen.setdefault((check.pid, check.began), Seen(check, now, now))
            if check.seconds >= known.check.seconds:
                known.check, known.last = check, now
            seed = pathlib.Path(check.kept).parent / "seed"
            if check.kind == "edit" and check.kept and seed not in self.seeds:
                self.seeds.add(seed)
                self.functions.update(function_times(seed))


def function_times(folder: pathlib.Path) -> dict[tuple[str, str], float]:
    """The seconds that each function or file of lemmas took, by its crate and its path."""
    try:
        files = sorted((it.stat().st_mtime, it.name) for it in folder.rglob("*.oantt"))
    except OSError:
        return {}
    found: dict[tuple[str, str], float] = {}
    for (before, _), (after, name) in zip(files, files[1:]):
        module = MODULE.match(name)
        if module and after - before < GAP:
            key = module.group(1), PART_OF_A_PROOF.sub("", module.group(2)).replace(".", "::")
            found[key] = found.get(key, 0) + after - before
    return found


def minutes(seconds: float) -> str:
    return f"{seconds / 60:.1f}"


def machine() -> str:
    """The date and the machine, in one line."""
    text = pathlib.Path("/proc/cpuinfo").read_text(encoding="utf-8", errors="replace")
    model = re.search(r"^model name\s*: (.*)$", text, re.MULTILINE)
    memory = os.sysconf("SC_PAGE_SIZE") * os.sysconf("SC_PHYS_PAGES") / 2**30
    what = f"{os.cpu_count()} processors ({model.group(1) if model else 'unknown'})"
    return f"{datetime.date.today()}, {what}, {memory:.0f} GB of memory"


def crate_table(crates: Crates, seen: list[Seen]) -> Iterator[str]:
    """The table of the crates, with their sums."""
    yield "| crate | proof | tests | seed | edits | number | begun | proved | ended |"
    yield "|---|---:|---:|---:|---:|---:|---:|---:|---:|"
    sums, tried = dict.fromkeys(KINDS, 0.0), 0
    for crate in crates.names:
        own = [it for it in seen if it.check.crate == crate and it.check.kind in KINDS]
        if own:
            by = {it: [one.check.seconds for one in own if one.check.kind == it] for it in KINDS}
            took = {kind: sum(by[kind]) for kind in KINDS}
            sums = {kind: sums[kind] + took[kind] for kind in KINDS}
            edits = len(crates.files(f"{crate}/must-fail/*.edit"))
            tried += edits
            proved = max((it.last for it in own if it.check.kind == "proof"), default=0.0)
            clock = [min(it.first for it in own), proved, max(it.last for it in own)]
            cells = [*map(minutes, took.values()), str(edits), *map(minutes, clock)]
            yield f"| `{crate}` | {' | '.join(cells)} |"
    last = max((it.last for it in seen), default=0.0)
    cells = [*map(minutes, sums.values()), str(tried), "", "", minutes(last)]
    yield f"| all | {' | '.join(cells)} |"


def edit_table(crates: Crates, seen: list[Seen]) -> Iterator[str]:
    """The table of the dearest edits. `rt` numbers those of a crate in the order of their names."""
    yield "| crate | edit | processor-seconds |"
    yield "|---|---|---:|"
    tried = [it.check for it in seen if it.check.kind == "edit"]
    for check in sorted(tried, key=lambda it: -it.seconds)[:EDITS]:
        names = [pathlib.Path(it).stem for it in crates.files(f"{check.crate}/must-fail/*.edit")]
        number = int(pathlib.Path(check.kept).name) if check.kept else 0
        known = check.kept or len(names) == 1
        name = names[number] if known and number < len(names) else "one, tried from nothing"
        yield f"| `{check.crate}` | {name} | {check.seconds:.0f} |"


def chain_lines(crates: Crates, seen: list[Seen]) -> Iterator[str]:
    """The longest chain of crates, by the processor time of their proofs."""
    cost: dict[str, float] = {}
    clock: dict[str, float] = {}
    for it in seen:
        if it.check.kind == "proof":
            crate = it.check.crate
            cost[crate] = cost.get(crate, 0) + it.check.seconds
            clock[crate] = clock.get(crate, 0) + it.last - it.first
    chain = crates.longest_chain(cost)
    names = ", ".join(f"`{it}` {minutes(cost.get(it, 0))}" for it in chain)
    whole = [minutes(sum(by.get(it, 0) for it in chain)) for by in (cost, clock)]
    yield f"The longest chain takes {whole[0]} processor-minutes, {whole[1]} by the clock: {names}."


def function_table(found: dict[tuple[str, str], float]) -> Iterator[str]:
    """The table of the longest functions and files of lemmas."""
    yield "| crate | function, or file of lemmas | seconds |"
    yield "|---|---|---:|"
    for (crate, name), seconds in sorted(found.items(), key=lambda it: -it[1])[:FUNCTIONS]:
        yield f"| `{crate}` | {name} | {seconds:.0f} |"


def printed(command: list[str], folder: pathlib.Path) -> tuple[Sampler, int]:
    """Runs a command, prints its lines behind the time, and gives what was seen, and its status."""
    how = {"cwd": folder, "stdout": subprocess.PIPE, "stderr": subprocess.STDOUT}
    with subprocess.Popen(command, text=True, errors="replace", **how) as ran:
        sampler = Sampler(ran.pid)
        sampler.start()
        for line in ran.stdout or ():
            print(time.strftime("%H:%M:%S"), line, end="", flush=True)
    sampler.stopped.set()
    return sampler, ran.returncode


def watched(pid: int) -> Sampler:
    """What is seen of a process until it ends, or until Ctrl-C."""
    sampler = Sampler(pid)
    with contextlib.suppress(KeyboardInterrupt):
        while os.path.exists(f"/proc/{pid}"):
            sampler.look()
            time.sleep(PAUSE)
    return sampler


def report(crates: Crates, sampler: Sampler | None, whole: str) -> Iterator[str]:
    """The tables."""
    functions = dict(sampler.functions) if sampler else {}
    for crate in {*crates.names} - {it for it, _ in functions}:
        functions.update(function_times(crates.root / "crates" / crate / "out/incremental"))
    yield f"{machine()}. {whole}".rstrip()
    if sampler:
        seen = list(sampler.seen.values())
        yield from ("", *crate_table(crates, seen), "", *chain_lines(crates, seen))
        yield from ("", *edit_table(crates, seen))
    yield from ("", *function_table(functions))


def main() -> int:
    parser = argparse.ArgumentParser(
        description=__doc__, formatter_class=argparse.RawDescriptionHelpFormatter
    )
    parser.add_argument("--kept", action="store_true", help="run rt ci, over what it keeps")
    parser.add_argument("--watch", type=int, metavar="PID", help="look at a run of rt")
    parser.add_argument("--functions", action="store_true", help="tell of functions alone")
    parser.add_argument("--root", type=pathlib.Path, help="the checkout, if it isn't this one")
    parser.add_argument("--page", type=pathlib.Path, metavar="FILE", help="write the tables there")
    parser.add_argument("command", nargs="*", metavar="COMMAND", help="in place of rt ci")
    arguments = parser.parse_args()
    crates = Crates(arguments.root or pathlib.Path(__file__).resolve().parent.parent)
    sampler, status, whole = None, 0, ""
    if arguments.watch:
        sampler = watched(arguments.watch)
    elif not arguments.functions:
        command = arguments.command or ["rt", "ci", *([] if arguments.kept else ["--anew"])]
        sampler, status = printed(command, crates.root)
        took = resource.getrusage(resource.RUSAGE_CHILDREN)
        clock = minutes(time.monotonic() - sampler.started)
        ran = f"`{' '.join(command)}` took {clock} minutes"
        whole = f"{ran}, and {minutes(took.ru_utime + took.ru_stime)} processor-minutes in all."
    text = "\n".join(report(crates, sampler, whole)) + "\n"
    if arguments.page:
        arguments.page.write_text(text, encoding="utf-8")
    print("", text, sep="\n", end="")
    return status


if __name__ == "__main__":
    sys.exit(main())
