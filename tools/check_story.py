#!/usr/bin/env python3
"""Runs spark_story beside spark_run, and its own cases, and compares what it says with them.

    tools/check_story.py [-k TEXT]

The cases of cases/story/*.txt have the form of cases/*.txt, which tools/check_cases.py tells: here
the standard error is the whole text that spark_story prints. A file history.txt isn't there before:
it is what the run has to leave, but for the lines that tell what the clock showed. The lines of a
file page.txt, which isn't there either, have to stand in order in the page.html that it leaves.
Each of these cases that begins a run is run once more, with --progress on a pseudo-terminal. In the
end that has to show what both outputs have without, and before it bars of the form that is told
alone. The lines of a file bars.txt, which isn't there either, are the bars that it has to show.

Each case of cases/*.txt is run too, and each example: there spark_story has to print the same on
the standard output and to end with the same status as is wanted of spark_run, and its standard
error has to begin with what spark_run prints there, to tell more, which of a fault in a line isn't
its place alone, and to tell of no job that was given up by its executors. The examples of
docs/STORY.md are run as tools/check_guide.py runs those of the guide.

Each example is run once more, in a copy of its own. There a case that has NAME_expect_told.txt, or
expect_told.txt for the case job, is run with --executors 1, where its words say nothing of them, so
that what is told is the same each time: its standard error has to be what spark_run prints and then
that. Cases lack it that need more executors than one, since then what runs again isn't told ahead.

Prints what differs and the counts, and ends with 1 where something does. With -k only cases run
whose place and claim have TEXT. The program is crates/spark_story/out/spark_story, or the file that
SPARK_STORY names; where there is none this says so and ends with 0.
"""
import argparse
import concurrent.futures
import os
import pathlib
import pty
import re
import select
import shutil
import subprocess
import sys
import tempfile
import tty
from collections.abc import Iterator

import check_cases
import check_guide

TOP = pathlib.Path(__file__).resolve().parent.parent
HISTORY, PAGE, PAGE_LINES, BAR_LINES = b"history.txt", b"page.html", b"page.txt", b"bars.txt"
WANTED = (HISTORY, PAGE_LINES, BAR_LINES)
LIMIT, SHOWN, USAGE = 120, 40, 2
GIVEN_UP = b" given up by the executors"
REFUSED = re.compile(rb"(?:script|plan): line [1-9]")
BARS = re.compile(rb"(?:\[Stage \d+:=*>? *\(\d+ \+ \d+\) / \d+\]){1,2}")
WIDTH = 78


def story_cases() -> Iterator[check_cases.Case]:
    """The cases of spark_story itself."""
    for path in sorted(TOP.glob("cases/story/*.txt")):
        yield from check_cases.cases_of(path, "cases/story")


def run_cases() -> Iterator[check_cases.Case]:
    """The cases of spark_run."""
    for path in sorted(TOP.glob("cases/*.txt")):
        yield from check_cases.cases_of(path)


def filled(folder: pathlib.Path, case: check_cases.Case) -> pathlib.Path:
    """A new folder with the files that a case has before it is run."""
    folder.mkdir()
    files = {name: content for name, content in case.files.items() if name not in WANTED}
    check_cases.fill(folder, files)
    return folder


def ran(
    program: pathlib.Path, case: check_cases.Case
) -> tuple[subprocess.CompletedProcess[bytes], dict[bytes, bytes]]:
    """Runs a case in a folder of its own; with it the history and the page that it leaves."""
    with tempfile.TemporaryDirectory() as scratch:
        folder = filled(pathlib.Path(scratch, "here"), case)
        words = [bytes(program), *case.words]
        run = subprocess.run(words, cwd=folder, input=b"", capture_output=True, timeout=LIMIT)
        paths = {name: folder / os.fsdecode(name) for name in (HISTORY, PAGE)}
        return run, {name: it.read_bytes() for name, it in paths.items() if it.exists()}


def without_ticks(history: bytes) -> list[bytes]:
    """The lines of a history but for those of the clock."""
    return [it for it in history.split(b"\n") if b" tick " not in it]


def lacking(page: bytes, lines: list[bytes]) -> list[str]:
    """The first of some lines that doesn't stand in a page behind those before it."""
    place = 0
    for line in lines:
        place = page.find(line, place)
        if place < 0:
            return [f"  page: lacks {line.decode(errors='backslashreplace')}", *shown(page)]
        place += len(line)
    return []


def shown(came: bytes) -> list[str]:
    """A text in lines that are marked."""
    return [f"  + {it[:160]}" for it in came.decode(errors="backslashreplace").split("\n")][:SHOWN]


def is_of_run(came: bytes, wanted: bytes) -> bool:
    """Whether a standard error tells more than spark_run's, and of no job that was given up."""
    more = came.removeprefix(wanted)
    is_explained = bool(more) and (not REFUSED.match(wanted) or explains(more))
    return came.startswith(wanted) and is_explained and GIVEN_UP not in came


def explains(told: bytes) -> bool:
    """Whether what is told of a fault in a line has more than its place and the line."""
    return any(not it.startswith(b"  | ") for it in told.splitlines()[1:])


def differences(program: pathlib.Path, case: check_cases.Case, is_story: bool) -> list[str]:
    """What differs where a case is run, in lines; where all is as wanted, none."""
    try:
        run, left = ran(program, case)
    except subprocess.TimeoutExpired:
        return [f"  has no end in {LIMIT} seconds"]
    told = [f"  status {run.returncode}, not {case.status}"] * (run.returncode != case.status)
    if run.stdout != case.wanted[b"out"]:
        told += ["  out: what came", *shown(run.stdout)]
    wanted = case.wanted[b"err"]
    if not (run.stderr == wanted if is_story else is_of_run(run.stderr, wanted)):
        told += ["  err: what came", *shown(run.stderr)]
    history = left.get(HISTORY, b"")
    if without_ticks(history) != without_ticks(case.files.get(HISTORY, b"")):
        told += ["  history: what came", *shown(history)]
    return told + lacking(left.get(PAGE, b""), case.files.get(PAGE_LINES, b"").splitlines())


def on_terminal(words: list[bytes], folder: pathlib.Path) -> bytes:
    """What a run writes to a terminal that has both its outputs."""
    ours, theirs = pty.openpty()
    tty.setraw(theirs)
    came = b""
    with subprocess.Popen(
        words, cwd=folder, stdin=subprocess.DEVNULL, stdout=theirs, stderr=theirs
    ) as run:
        os.close(theirs)
        while select.select([ours], [], [], LIMIT)[0]:
            try:
                came += os.read(ours, 65536)
            except OSError:
                break
        else:
            run.kill()
    os.close(ours)
    return came


def screen(came: bytes) -> list[bytes]:
    """The lines that a terminal shows in the end."""
    lines = []
    for line in came.split(b"\n"):
        shown_last = b""
        for part in line.split(b"\r"):
            shown_last = part + shown_last[len(part) :]
        lines.append(shown_last.rstrip(b" "))
    return lines


def terminal_differences(program: pathlib.Path, case: check_cases.Case) -> list[str]:
    """What is otherwise than wanted where a case is run with --progress on a terminal."""
    with tempfile.TemporaryDirectory() as scratch:
        folder = filled(pathlib.Path(scratch, "here"), case)
        words = [it for it in case.words if it != b"--progress"]
        came = on_terminal([bytes(program), *words, b"--progress"], folder)
    told: list[str] = []
    if screen(came) != screen(case.wanted[b"out"] + case.wanted[b"err"]):
        told += ["  on a terminal: what came", *shown(came.replace(b"\r", b"\n"))]
    bars = re.findall(rb"\r(\[Stage [^\r\n]*)", came)
    told += [f"  no bar: {it!r}" for it in bars if not BARS.fullmatch(it) or len(it) != WIDTH]
    if BAR_LINES in case.files and bars != case.files[BAR_LINES].splitlines():
        told += ["  bars: what came", *shown(b"\n".join(bars))]
    return told


def example_differences(program: pathlib.Path, folder: pathlib.Path) -> list[str]:
    """What differs where the cases of an example are run one after the other, in copies of it."""
    names = {it.stem for it in folder.glob("*.spark")}
    names |= {it.name.removesuffix("_args.txt") for it in folder.glob("*_args.txt")}
    told: list[str] = []
    for is_alone in (False, True):
        with tempfile.TemporaryDirectory() as scratch:
            here = pathlib.Path(scratch, "here")
            shutil.copytree(folder, here)
            make_links(here)
            for name in sorted(names):
                found = case_differences(program, here, name, is_alone)
                told += [f"  {name}{' alone' * is_alone}:{it}" for it in found]
    return told


def make_links(here: pathlib.Path) -> None:
    """Makes the links that a list of an example names, each with where it leads."""
    path = here / "links.txt"
    for line in path.read_text().splitlines() if path.exists() else []:
        name, to = line.split(" ")
        (here / name).symlink_to(to)


def example_run(
    words: list[bytes], here: pathlib.Path, output: pathlib.Path
) -> subprocess.CompletedProcess[bytes]:
    """A run of an example, whose output goes to the file that a file names, where that is there."""
    if not output.exists():
        return subprocess.run(words, cwd=here, input=b"", capture_output=True, timeout=LIMIT)
    with open(output.read_text().strip(), "wb") as place:
        outputs = {"stdout": place, "stderr": subprocess.PIPE}
        return subprocess.run(words, cwd=here, input=b"", timeout=LIMIT, **outputs)


def case_differences(
    program: pathlib.Path, here: pathlib.Path, name: str, is_alone: bool
) -> list[str]:
    """What differs where spark_story runs a case of an example, by one executor or as it says."""
    prefix = "" if name == "job" else f"{name}_"

    def content(ending: str, otherwise: bytes) -> bytes:
        path = here / f"{prefix}{ending}.txt"
        return path.read_bytes() if path.exists() else otherwise

    words = content("args", f"run\n{name}.spark\n".encode()).removesuffix(b"\n").split(b"\n")
    is_told = is_alone and (here / f"{prefix}expect_told.txt").exists()
    if is_told and not any(it.startswith(b"--executors") for it in words):
        words += [b"--executors", b"1"]
    try:
        run = example_run([bytes(program), *words], here, here / f"{prefix}output.txt")
    except subprocess.TimeoutExpired:
        return [f"  has no end in {LIMIT} seconds"]
    status = int(content("expect_status", b"0"))
    told = [f"  status {run.returncode}, not {status}"] * (run.returncode != status)
    if (run.stdout or b"") != content("expect", b""):
        told += ["  out: what came", *shown(run.stdout)]
    error, more = content("expect_err", b""), content("expect_told", b"")
    if not is_of_run(run.stderr, error):
        told += ["  err: what came", *shown(run.stderr)]
    elif is_told and run.stderr != error + more:
        told += ["  told: what came", *shown(run.stderr.removeprefix(error))]
    return told


def main() -> int:
    parser = argparse.ArgumentParser(description="Runs spark_story over the cases.")
    parser.add_argument("-k", metavar="TEXT", default="", help="run only cases that have TEXT")
    arguments = parser.parse_args()
    built = TOP / "crates/spark_story/out/spark_story"
    program = pathlib.Path(os.environ.get("SPARK_STORY", built)).resolve()
    if not os.access(program, os.X_OK):
        print(f"check_story: skipped, since {program} isn't built")
        return 0
    own = [(it, True) for it in story_cases() if arguments.k in it.name]
    others = [(it, False) for it in run_cases() if arguments.k in it.name]
    folders = [it for it in sorted(TOP.glob("examples/*/")) if arguments.k in f"examples/{it.name}"]
    runs = [it for it, _ in own if it.words[:1] in ([b"run"], [b"gen"]) and it.status != USAGE]
    faults = 0
    with concurrent.futures.ThreadPoolExecutor(os.cpu_count() or 1) as pool:
        tried = [*own, *others]
        for (case, _), told in zip(tried, pool.map(lambda it: differences(program, *it), tried)):
            if told:
                print(case.name, *told, sep="\n")
                faults += 1
        for case, told in zip(runs, pool.map(lambda it: terminal_differences(program, it), runs)):
            if told:
                print(case.name, *told, sep="\n")
                faults += 1
        compared = pool.map(lambda it: example_differences(program, it), folders)
        for folder, told in zip(folders, compared):
            if told:
                print(f"examples/{folder.name}", *told, sep="\n")
                faults += 1
    if arguments.k in "docs/STORY.md":
        for line, what in check_guide.Page(TOP / "docs/STORY.md", [program.parent]).faults():
            print(f"docs/STORY.md:{line}: {what}")
            faults += 1
    counts = f"{len(own)} of its own, {len(runs)} of them on a terminal, {len(others)} cases"
    print(f"story: {counts} and {len(folders)} examples of spark_run, {faults} not as expected")
    return 1 if faults else 0


if __name__ == "__main__":
    sys.exit(main())
