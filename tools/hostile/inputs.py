"""Files that are none, devices and pipes, and scripts and plans that break a limit."""
import os
import pathlib
import re
import signal
import stat
import threading
import time
from collections.abc import Iterator

import check_cases
from fuzzing.grammar import Fault
from fuzzing.reader import plan_of, script_of
from hostile.runs import NOBODY, Place, differs

TOP = pathlib.Path(__file__).resolve().parents[2]
EXECUTORS = re.compile(rb"--executors[ =]([0-9]+)")
COUNT = 'l = text "{}" 2\ncount l\n'
LINES = b"b a\nb\n"
GIB = 1 << 30
# Seconds of the processor and megabytes that a refusal may take beyond an empty script.
MOST_SECONDS, MOST_MEGABYTES = 1, 64


def roles(place: Place, name: str) -> Iterator[tuple[str, ...]]:
    """The words of runs that read a file of this name as the script, the plan and an input."""
    place.put("empty.spark", "")
    place.put("count.spark", COUNT.format(name))
    yield "run", "--", name
    yield "run", "empty.spark", f"--plan={name}"
    yield "run", "count.spark"


def odd_files(place: Place) -> Iterator[tuple[str, str]]:
    """Names where no file can be read, each with what is told of it."""
    folder = place.folder
    (folder / "folder").mkdir()
    os.mknod(folder / "socket", stat.S_IFSOCK | 0o666)
    (folder / "loop").symlink_to("loop")
    (folder / "to_nothing").symlink_to("nothing")
    place.put("file", LINES)
    place.put("unreadable", LINES).chmod(0)
    yield from ((name, "failed") for name in ("folder", "socket", "loop", "file/x", "unreadable"))
    yield from ((name, "failed") for name in ("n" * 256, "/proc/self/mem", "./folder/."))
    yield from ((name, "failed") for name in ("n" * 4_000, "./" * 2_000 + "file/x"))
    yield from ((name, "missing") for name in ("nothing", "to_nothing", "folder/nothing"))


def what_is_no_file_is_told_by_its_name(place: Place) -> Iterator[str]:
    """As a script, as a plan and as an input."""
    for name, told in odd_files(place):
        for words in roles(place, name):
            ended = place.run(*words, user=NOBODY)
            yield from differs(f"{words}", ended, 5, b"", f"input: {name}: {told}\n".encode())


def an_empty_device_is_an_empty_file(place: Place) -> Iterator[str]:
    for words, out in zip(roles(place, "/dev/null"), (b"", b"", b"0\n")):
        yield from differs(f"{words}", place.run(*words), 0, out)


def a_file_that_tells_no_length_is_read_to_its_end(place: Place) -> Iterator[str]:
    """The system's own say that they have no bytes."""
    name = "/proc/version"
    wanted = pathlib.Path(name).read_text().count("\n")
    place.put("count.spark", COUNT.format(name))
    yield from differs("as an input", place.run("run", "count.spark"), 0, b"%d\n" % wanted)
    told = b"script: line 1: Syntax\n"
    yield from differs("as a script", place.run("run", name), 3, b"", told)


def feed(path: pathlib.Path, pieces: list[bytes], pause: float) -> threading.Thread:
    """Writes pieces into a pipe from beside, with a pause behind each."""

    def write() -> None:
        with path.open("wb", buffering=0) as pipe:
            for piece in pieces:
                pipe.write(piece)
                time.sleep(pause)

    thread = threading.Thread(target=write, daemon=True)
    thread.start()
    return thread


def a_pipe_is_read_to_its_end(place: Place) -> Iterator[str]:
    """What comes byte by byte, much at once, and nothing at all; and a run that was stopped and
    went on."""
    pipe = place.folder / "pipe"
    os.mkfifo(pipe)
    pipe.chmod(0o666)
    place.put("in.txt", LINES)
    script, plan = COUNT.format("in.txt").encode(), b"twice 0 0 0\nlate 0 1 0 1\n"
    place.put("plain.spark", script)
    place.put("count.spark", COUNT.format("pipe"))
    many = [b"7\n" * 5_000] * 20
    for words, pieces, pause, out in (
        (("run", "pipe"), [bytes([it]) for it in script], 0.001, b"2\n"),
        (("run", "plain.spark", "--plan", "pipe"), [plan[:7], plan[7:]], 0.05, b"2\n"),
        (("run", "count.spark"), [b"b", b" a\n", b"b"], 0.05, b"2\n"),
        (("run", "count.spark"), many, 0, b"100000\n"),
        (("run", "count.spark"), [], 0, b"0\n"),
    ):
        feed(pipe, pieces, pause)
        yield from differs(f"{words}", place.run(*words), 0, out)
    feed(pipe, [b"b\n"] * 8, 0.05)
    running = place.start("run", "count.spark")
    for _ in range(3):
        for number in (signal.SIGSTOP, signal.SIGCONT):
            time.sleep(0.03)
            running.signal(number)
    yield from differs("stopped and went on", place.ended(running), 0, b"8\n")


def broken_scripts() -> Iterator[bytes]:
    """Scripts of the greatest length with nothing but one thing in them, alone and in a line that
    begins well."""
    for thing in (b"(", b")", b"-", b"7", b"w", b'"', b"\\", b"=", b"\r", b"\n", b"\0", b"#", b" "):
        yield thing * 65_536
        yield (b"l = parallelize 1 " + thing * 65_536)[:65_536]
    yield b"l = parallelize 1 1\n" + b"m = map l " + b"(not " * 800
    yield b"\n".join([b"l = parallelize 1 1"] * 3_000)
    yield b"x\n" * 32_768
    yield b"\n" * 65_000 + b"("
    yield b"\xff" * 65_536
    yield b"\xff" * 65_537
    yield b"\n" * 65_537


def broken_plans() -> Iterator[bytes]:
    for thing in (b"9", b"#", b" ", b"\n", b"\0", b"x"):
        yield thing * 65_536
        yield (b"fail 0 0 " + thing * 65_536)[:65_536]
    yield b"fail 0 0 0\n" * 5_000
    yield b"".join(b"fail 0 0 %d\n" % number for number in range(5_000))
    yield b"\xff" * 65_537


def expected(script: bytes, plan: bytes, executors: int = 2) -> tuple[int, bytes]:
    """The status and the error of a script and a plan, by the reader of tools/fuzzing."""
    try:
        script_of(script)
    except Fault as fault:
        return 3, f"script: line {fault.line}: {fault.kind}\n".encode()
    try:
        plan_of(plan, executors)
    except Fault as fault:
        return 4, f"plan: line {fault.line}: {fault.kind}\n".encode()
    return 0, b""


def the_reader_of_scripts_and_plans_agrees_with_the_cases(place: Place) -> Iterator[str]:
    """It refuses the files of cases/*.txt as these say, and tells of the broken ones below. Nothing
    is run."""
    for path in sorted(TOP.glob("cases/*.txt")):
        for case in check_cases.cases_of(path):
            if case.words[:2] != [b"run", b"job.spark"] or case.status == 2:
                continue
            if b"job.spark" not in case.files:
                continue
            said = EXECUTORS.search(b" ".join(case.words))
            script, plan = case.files[b"job.spark"], case.files.get(b"plan.txt", b"")
            wanted = case.status if case.status in (3, 4) else 0
            told = wanted, case.wanted[b"err"] if wanted else b""
            found = expected(script, plan, int(said.group(1)) if said else 2)
            if found != told:
                yield f"{case.name}: {found}, not {told}"


def a_broken_file_is_refused_in_little_time_and_memory(place: Place) -> Iterator[str]:
    """A limit is found before the rest is parsed."""
    place.put("job.spark", "")
    place.put("plan.txt", "")
    words = "run", "job.spark", "--plan", "plan.txt"
    usual = place.run(*words).megabytes
    pairs = [(script, b"") for script in broken_scripts()]
    for script, plan in pairs + [(b"", plan) for plan in broken_plans()]:
        place.put("job.spark", script)
        place.put("plan.txt", plan)
        ended = place.run(*words)
        what = f"{(script or plan)[:24]!r} of {len(script or plan)} bytes"
        status, err = expected(script, plan)
        yield from differs(what, ended, status, b"", err)
        if ended.seconds > MOST_SECONDS or ended.megabytes > usual + MOST_MEGABYTES:
            yield f"{what}: took {ended.seconds:.1f} seconds and {ended.megabytes:.0f} megabytes"


def a_file_has_one_gibibyte_at_most(place: Place) -> Iterator[str]:
    """Of bytes that are one line, with one more, and without an end."""
    path = place.put("big", b"")
    for size, told in ((GIB, None), (GIB + 1, b"failed")):
        os.truncate(path, size)
        for words, line in zip(roles(place, "big"), (b"script", b"plan", b"input")):
            ended = place.run(*words)
            if told is not None:
                yield from differs(f"{words}", ended, 5, b"", b"input: big: failed\n")
            elif line == b"input":
                yield from differs(f"{words}", ended, 0, b"1\n")
            else:
                told_line = line + b": line 0: Limit\n"
                yield from differs(f"{words}", ended, 3 if line == b"script" else 4, b"", told_line)
    words = list(roles(place, "/dev/zero"))[-1]
    yield from differs("no end", place.run(*words), 5, b"", b"input: /dev/zero: failed\n")
