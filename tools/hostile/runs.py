"""Runs of the built program in a folder of their own, with limits of the system around them."""
import collections
import contextlib
import os
import pathlib
import resource
import shutil
import signal
import subprocess
import tempfile
import threading
from collections.abc import Callable, Iterator
from dataclasses import dataclass, field

LONGEST = 240
# A user of whom nothing else runs, and who owns no file.
NOBODY = 54_321
NO_LIMITS: dict[int, int] = {}
NOTHING: dict[str, str] = {}


@dataclass(frozen=True)
class Ended:
    """How a run ended: its status, which of a signal is negative, what it printed, and the seconds
    of the processor and the megabytes of memory that it took."""

    status: int
    out: bytes
    err: bytes
    seconds: float
    megabytes: float

    def shown(self) -> str:
        return f"status {self.status}, {self.out[:80]!r}, {self.err[:80]!r}"


@dataclass
class Running:
    """A run that was started, with the files that take its outputs."""

    process: subprocess.Popen
    outputs: tuple[pathlib.Path, pathlib.Path]

    def goes_on(self) -> bool:
        """Whether the run hasn't ended."""
        how = os.WEXITED | os.WNOHANG | os.WNOWAIT
        return os.waitid(os.P_PID, self.process.pid, how) is None

    def signal(self, number: int) -> None:
        """Sends a signal, if the run hasn't ended."""
        with contextlib.suppress(ProcessLookupError):
            os.kill(self.process.pid, number)

    def end(self) -> Ended:
        """Waits for the end, which comes by force where it takes too long."""
        timer = threading.Timer(LONGEST, self.signal, [signal.SIGKILL])
        timer.start()
        _, waited, used = os.wait4(self.process.pid, 0)
        timer.cancel()
        self.process.returncode = status = os.waitstatus_to_exitcode(waited)
        out, err = (path.read_bytes() for path in self.outputs)
        return Ended(status, out, err, used.ru_utime + used.ru_stime, used.ru_maxrss / 1024)


@dataclass
class Place:
    """A folder to run the program in, how often a check that takes chances tries, and the count of
    the runs by how they ended."""

    program: pathlib.Path
    scratch: pathlib.Path
    rounds: int
    counts: collections.Counter[int] = field(default_factory=collections.Counter)

    @property
    def folder(self) -> pathlib.Path:
        return self.scratch / "here"

    def put(self, name: str, content: bytes | str) -> pathlib.Path:
        """A file in the folder."""
        path = self.folder / name
        path.write_bytes(content.encode() if isinstance(content, str) else content)
        return path

    def start(
        self,
        *words: str,
        limits: dict[int, int] = NO_LIMITS,
        memory: int | None = None,
        stdout: int | None = None,
        user: int | None = None,
        before: Callable[[], None] = lambda: None,
        told: dict[str, str] = NOTHING,
        within: tuple[str, ...] = (),
    ) -> Running:
        """Starts the program with some words, or the command that does so within. It has the
        limits, and so many kibibytes of memory where that is said; `before` is done in the process
        that it will be; its environment has what is told besides; and it is run as the user, where
        one is named and may be had."""

        def begin() -> None:
            for limit, value in limits.items():
                resource.setrlimit(limit, (value, value))
            before()

        if memory is not None:
            within = "sh", "-c", 'ulimit -v "$0"; exec "$@"', str(memory)
        outputs = self.scratch / "out", self.scratch / "err"
        identity = {}
        if user is not None and os.getuid() == 0:
            identity = {"user": user, "group": user, "extra_groups": []}
        with outputs[0].open("wb") as out, outputs[1].open("wb") as err:
            process = subprocess.Popen(
                [*within, self.program, *words],
                cwd=self.folder,
                stdin=subprocess.DEVNULL,
                stdout=out if stdout is None else stdout,
                stderr=err,
                preexec_fn=begin,
                env={**os.environ, **told},
                **identity,
            )
        return Running(process, outputs)

    def run(self, *words: str, **around) -> Ended:
        """Runs the program with some words to its end."""
        return self.ended(self.start(*words, **around))

    def ended(self, running: Running) -> Ended:
        """The end of a run that was started, which is counted."""
        ended = running.end()
        self.counts[ended.status] += 1
        return ended

    def clear(self) -> None:
        """Makes the folder anew. Everybody may write in it."""
        if self.folder.exists():
            self.folder.chmod(0o777)
            shutil.rmtree(self.folder)
        self.folder.mkdir()
        self.folder.chmod(0o777)


@contextlib.contextmanager
def a_place(program: pathlib.Path, rounds: int) -> Iterator[Place]:
    """A place with an empty folder and a copy of the program that each user may run."""
    with tempfile.TemporaryDirectory() as scratch:
        os.chmod(scratch, 0o755)
        copy = pathlib.Path(scratch, "spark_run")
        shutil.copyfile(program, copy)
        copy.chmod(0o755)
        place = Place(copy, pathlib.Path(scratch), rounds)
        place.clear()
        yield place


def differs(
    what: str, ended: Ended, status: int, out: bytes = b"", err: bytes = b""
) -> Iterator[str]:
    """What is wrong with the end of a run, where something is."""
    if (ended.status, ended.out, ended.err) != (status, out, err):
        yield f"{what}: {ended.shown()}, not status {status}, {out[:80]!r}, {err[:80]!r}"
