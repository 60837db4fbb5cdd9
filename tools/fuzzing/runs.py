"""Runs of a program over random cases, each in a folder of its own."""
import pathlib
import re
import resource
import subprocess
import tempfile
import time
from collections import Counter
from dataclasses import dataclass, field, replace

from fuzzing.cases import Case

# The directories that stand, with the bytes of their files.
Folders = dict[str, dict[str, bytes]]

LIMIT = 60
NO_END = 124
# What a program tells of its jobs, as the last line of its standard error.
COUNTS = re.compile(r"\d+ given up(, \d+ [a-z ]+)*\n")
COUNT = re.compile(r"(\d+) ([a-z ]+)")
# What spark_story tells of a run on its standard error, and of its jobs in that.
TOLD = re.compile(r"(?m)^  .*\n")
JOBS = re.compile(r"(?m)^  (?:no job was begun|(\d+) jobs?(?:,| (given up) by))")


@dataclass(frozen=True)
class Ran:
    """How a run ended, what it printed, and how many seconds it took: of the processor, and in
    all."""

    status: int
    out: str
    err: str
    saved: Folders = field(default_factory=dict)
    seconds: float = 0
    elapsed: float = 0


def put_files(case: Case, folder: pathlib.Path) -> None:
    folder.mkdir(parents=True, exist_ok=True)
    for name, content in case.files.items():
        (folder / name).write_bytes(content)
    for name in case.script.there:
        (folder / name).mkdir(parents=True)
        (folder / name / "old").write_bytes(b"old")


def folders_in(top: pathlib.Path) -> Folders:
    """The directories under a folder that have no other one in them, with their files."""
    found: Folders = {}
    for path in sorted(top.rglob("*")):
        if path.is_dir() and not any(inner.is_dir() for inner in path.iterdir()):
            files = {inner.name: inner.read_bytes() for inner in path.iterdir()}
            found[str(path.relative_to(top))] = files
    return found


def seconds_of_runs() -> float:
    """How many seconds of the processor all runs took that have ended."""
    used = resource.getrusage(resource.RUSAGE_CHILDREN)
    return used.ru_utime + used.ru_stime


def run(program: pathlib.Path, case: Case) -> Ran:
    """Runs a case in a folder of its own."""
    used, before = seconds_of_runs(), time.monotonic()
    with tempfile.TemporaryDirectory() as scratch:
        put_files(case, pathlib.Path(scratch))
        command = [str(program), "run", *case.words]
        try:
            ran = subprocess.run(
                command,
                cwd=scratch,
                stdin=subprocess.DEVNULL,
                capture_output=True,
                timeout=LIMIT,
                check=False,
            )
        except subprocess.TimeoutExpired:
            return Ran(NO_END, "", f"no end within {LIMIT} seconds")
        elapsed = time.monotonic() - before
        saved = folders_in(pathlib.Path(scratch))
    out, err = (text.decode(errors="replace") for text in (ran.stdout, ran.stderr))
    return Ran(ran.returncode, out, err, saved, seconds_of_runs() - used, elapsed)


def without_counts(ran: Ran) -> tuple[Ran, Counter[str] | None]:
    """A run without the last line of its standard error, and what that counts, if it does."""
    *lines, last = ran.err.splitlines(keepends=True) or [""]
    if not COUNTS.fullmatch(last):
        return ran, None
    counts = Counter({name: int(number) for number, name in COUNT.findall(last)})
    return replace(ran, err="".join(lines)), counts


def without_told(ran: Ran) -> tuple[Ran, Counter[str] | None]:
    """A run of spark_story as if by spark_run, and what is told of its jobs, if anything is."""
    told = JOBS.findall(ran.err)
    counts = Counter({"given up": 0, "jobs": 0})
    for number, is_given_up in told:
        counts["given up" if is_given_up else "jobs"] += int(number or 0)
    return replace(ran, err=TOLD.sub("", ran.err)), counts if told else None
