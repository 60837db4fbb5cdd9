#!/usr/bin/env python3
"""Runs `rt all check` and tells how far it is.

    tools/progress.py [--jobs N]

Prints a line each time a crate begins or ends, with the minutes and seconds since the start:

    12:34 sc_dag proved, 17 of 42, 25 left; in work: sc_core, sc_ops

`rt all check` itself prints what it has to say of a crate once that is done. Of a crate that isn't
proved all of it is printed, of others nothing. A crate that is kept was proved before. Where a
crate fails, the summary of `rt` comes last. Ends with the status of `rt`.
"""
import argparse
import pathlib
import queue
import subprocess
import sys
import threading
import time
from typing import IO

from crate_files import Crates
from running_checks import checks_below

PAUSE = 0.5
HEADING = "== "
SUMMARY = "== summary"


class Progress:
    """How far a run is."""

    def __init__(self, total: int) -> None:
        self.total = total
        self.started = time.monotonic()
        self.is_read = False
        self.ended: set[str] = set()
        self.begun: list[str] = []
        self.block: list[str] = []
        self.others: list[str] = []

    def say(self, what: str) -> None:
        """Prints a line with the time, how many crates are left, and which are in work."""
        minutes, seconds = divmod(int(time.monotonic() - self.started), 60)
        done = len(self.ended)
        work = ", ".join(self.begun) or "none"
        counts = f"{done} of {self.total}, {self.total - done} left"
        print(f"{minutes}:{seconds:02} {what}, {counts}; in work: {work}", flush=True)

    def look(self, root: int) -> None:
        """Tells which crates have begun since the last look, by the checks below a process."""
        for check in checks_below(root):
            if check.kind == "reading":
                if not self.is_read:
                    self.is_read = True
                    self.say("all crates are read, before any proof")
            elif check.crate not in {*self.ended, *self.begun}:
                self.begun.append(check.crate)
                self.say(f"{check.crate} begun")

    def take(self, line: str) -> None:
        """Takes a line of what is printed."""
        if line.startswith(HEADING):
            self.end_block()
        self.block.append(line)

    def end_block(self) -> None:
        """Tells what became of the crate whose lines were taken, and keeps lines of no crate."""
        block, self.block = self.block, []
        if not block or not block[0].startswith(HEADING) or block[0].startswith(SUMMARY):
            self.others += block
            return
        crate = block[0].removeprefix(HEADING).strip()
        self.ended.add(crate)
        self.begun = [it for it in self.begun if it != crate]
        is_proved = any(it.startswith("logic=proved") for it in block)
        is_kept = len(block) == 1
        if not is_proved and not is_kept:
            print(*block, sep="", end="", flush=True)
        self.say(f"{crate} {'proved' if is_proved else 'kept' if is_kept else 'FAILED'}")

    def tell_rest(self, status: int) -> None:
        """Prints what a run that failed said of no crate: its summary, or why it proved nothing."""
        if status:
            print(*self.others, sep="", end="", flush=True)


def read(stream: IO[str], lines: "queue.Queue[str | None]") -> None:
    """Puts each line of a stream into a queue, and then nothing."""
    for line in stream:
        lines.put(line)
    lines.put(None)


def main() -> int:
    parser = argparse.ArgumentParser(
        description=__doc__, formatter_class=argparse.RawDescriptionHelpFormatter
    )
    parser.add_argument("--jobs", type=int, help="how many crates at a time")
    arguments = parser.parse_args()
    root = pathlib.Path(__file__).resolve().parent.parent
    command = ["rt", "all", "check"]
    command += ["--jobs", str(arguments.jobs)] if arguments.jobs else []
    progress = Progress(len(Crates(root).names))
    lines: "queue.Queue[str | None]" = queue.Queue()
    how = {"cwd": root, "stdout": subprocess.PIPE, "stderr": subprocess.STDOUT}
    with subprocess.Popen(command, text=True, errors="replace", **how) as ran:
        threading.Thread(target=read, args=(ran.stdout, lines), daemon=True).start()
        line: str | None = ""
        while line is not None:
            try:
                line = lines.get(timeout=PAUSE)
                if line:
                    progress.take(line)
            except queue.Empty:
                # What is said of a crate comes at once, so it ends where nothing more comes.
                progress.end_block()
                progress.look(ran.pid)
        progress.end_block()
    progress.tell_rest(ran.returncode)
    return ran.returncode


if __name__ == "__main__":
    sys.exit(main())
