"""Runs of which calls on the files fail. Of a save what stands is what the table of docs/OUTPUT.md
says."""
import itertools
import pathlib
import re
import shutil
import subprocess
from collections.abc import Iterator
from dataclasses import dataclass

from hostile.runs import Ended, Place, differs
from hostile.saves import STAGED, files_in, wrong_abort, wrong_end, wrong_parts

SOURCE = pathlib.Path(__file__).resolve().parents[1] / "refuse_calls.c"
SCRIPT = 'l = parallelize 3 1 2 3 4 5\nsave l "out"\n'
PARTS = [b"1\n", b"2\n3\n", b"4\n5\n"]
STAGING, SUCCESS = "out/_temporary", "out/_SUCCESS"
# Attempts by one executor, and by several at a time.
EXECUTORS = "1", "4"


@dataclass(frozen=True)
class Call:
    """A call on the files: its name, and the path that it is about."""

    name: str
    path: str

    def staged(self) -> re.Match[str] | None:
        """The file of an attempt, where the call is about one."""
        return STAGED.fullmatch(self.path.removeprefix(f"{STAGING}/"))

    def device(self) -> str:
        """The path that is told where the call fails and is the driver's."""
        return STAGING if self.path.startswith(STAGING) else self.path

    def parts(self, way: str) -> int:
        """How many parts stand then."""
        if self.name == "mkdir":
            return 0
        if self.name == "rename":
            return int(self.path.removeprefix("out/part-")) + (way == "behind")
        return len(PARTS)


def refusing(place: Place) -> pathlib.Path:
    """The library that lets calls fail."""
    library = place.scratch / "refuse_calls.so"
    if not library.exists():
        command = ["cc", "-O1", "-shared", "-fPIC", "-fno-builtin", SOURCE, "-o", library]
        subprocess.run(command, check=True)
    return library


def refused(
    place: Place, folder: str, way: str, number: int, words: tuple[str, ...]
) -> tuple[Ended, list[Call]]:
    """A run in which the call of a number fails, of those on a directory or a file, and these."""
    calls = place.scratch / "calls"
    calls.write_bytes(b"")
    told = {"FOLDER": folder, "FAILING": str(number), "WAY": way, "CALLS": str(calls)}
    told["LD_PRELOAD"] = str(refusing(place))
    ended = place.run("run", *words, told=told)
    lines = calls.read_text().splitlines()
    return ended, [Call(*line.split(" ", 1)) for line in lines]


def save(place: Place, way: str, number: int, words: tuple[str, ...]) -> tuple[Ended, list[Call]]:
    """A save in which the call of a number fails, and the calls that it made."""
    shutil.rmtree(place.folder / "out", ignore_errors=True)
    return refused(place, "out", way, number, ("saving.spark", *words))


def first_told(calls: list[Call], way: str) -> Call | None:
    """The first that tells of its failure, of calls of which the first fails, or all do. No close
    does."""
    failing = calls if way == "onward" else calls[:1]
    return next((call for call in failing if call.name != "close"), None)


def failing_saves(place: Place, way: str) -> Iterator[tuple[str, Ended, Call | None, bool]]:
    """A save for each call that fails: with what it is about, if it tells that, and whether an
    attempt may fail."""
    place.put("saving.spark", SCRIPT)
    for executors, failures in itertools.product(EXECUTORS, ("4", "1")):
        words = "--executors", executors, "--task-failures", failures
        for number in itertools.count(1):
            ended, calls = save(place, way, number, words)
            if len(calls) < number:
                break
            call = calls[number - 1]
            what = f"{way} {number}, {call.name} {call.path}, {' '.join(words)}"
            yield what, ended, first_told(calls[number - 1 :], way), failures == "4"


def a_call_that_fails_leaves_what_the_table_says(place: Place) -> Iterator[str]:
    """Each call in turn, in place of what it does and behind that, with one executor and with four,
    where a partition may be tried again and where it may not."""
    out = place.folder / "out"
    for way in ("instead", "behind"):
        for what, ended, call, may_fail in failing_saves(place, way):
            staged = call.staged() if call else None
            if call is None or (staged and may_fail):
                yield from differs(what, ended, 0)
                yield from wrong_parts(out, PARTS)
            elif staged:
                limit = f"task limit: stage 0 attempt 0 partition {staged.group(4)}\n"
                yield from differs(what, ended, 6, b"", limit.encode())
                yield from wrong_abort(out)
            else:
                yield from differs(what, ended, 11, b"", f"device: {call.device()}\n".encode())
                yield from (f"{what}: {it}" for it in wrong_fault(out, call, way))


def wrong_fault(out: pathlib.Path, call: Call, way: str) -> Iterator[str]:
    """What is wrong with what stands where a call of the driver failed."""
    if not out.exists():
        if (call, way) != (Call("mkdir", "out"), "instead"):
            yield "nothing stands"
        return
    stand = files_in(out)
    if call.path == SUCCESS:
        stand.pop("_SUCCESS", None)
    if stand != {f"part-{number:05}": part for number, part in enumerate(PARTS[: call.parts(way)])}:
        yield f"{sorted(stand)} stand"
    yield from wrong_end(out, PARTS)


def a_disk_that_goes_away_leaves_no_success_over_missing_parts(place: Place) -> Iterator[str]:
    """From each call on all fail. The first of the driver's is told: of an attempt that failed too
    often this is that the staging area is removed. Where the last one's file can't be brought to
    the device, it may stand there, empty."""
    out = place.folder / "out"
    for what, ended, call, _ in failing_saves(place, "onward"):
        if call is None:
            yield from differs(what, ended, 0)
            yield from wrong_parts(out, PARTS)
            continue
        yield from differs(what, ended, 11, b"", f"device: {call.device()}\n".encode())
        if (out / "_SUCCESS").exists() and call.path != SUCCESS:
            yield f"{what}: _SUCCESS stands"
        yield from wrong_end(out, PARTS)


def a_read_that_fails_is_told_by_its_name(place: Place) -> Iterator[str]:
    """Of the script, of the plan and of an input each call in turn fails. A file that can't be
    opened, or read to its end, has failed; one that doesn't tell its length, or can't be closed,
    is read."""
    lines = 100_000
    place.put("in.txt", b"7\n" * lines)
    place.put("job.spark", 'l = text "in.txt" 2\ncount l\n')
    place.put("plan.txt", "twice 0 0 0\n")
    words = "job.spark", "--plan", "plan.txt"
    for name, way in itertools.product(("job.spark", "plan.txt", "in.txt"), ("instead", "behind")):
        for number in itertools.count(1):
            ended, calls = refused(place, name, way, number, words)
            if len(calls) < number:
                break
            what = f"{way} {number}, {calls[number - 1]}"
            if calls[number - 1].name in ("open", "read"):
                told = f"input: {name}: failed\n"
                yield from differs(what, ended, 5, b"", told.encode())
            else:
                yield from differs(what, ended, 0, b"%d\n" % lines)
