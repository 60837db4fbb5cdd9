"""Files that change while they are read."""
import os
import random
import re
import threading
import time
from collections.abc import Callable, Iterator

from hostile.inputs import COUNT
from hostile.runs import Ended, Place

LIMITS = b"script: line 0: Limit\n", b"plan: line 0: Limit\n"


def counted(ended: Ended) -> int:
    """The number that a run printed which has nothing else to say, or -1."""
    is_number = ended.status == 0 and not ended.err and re.fullmatch(rb"[0-9]+\n", ended.out)
    return int(ended.out) if is_number else -1


def a_file_may_grow_while_it_is_read(place: Place) -> Iterator[str]:
    """As many lines are read as it had at some moment of the run."""
    place.put("count.spark", COUNT.format("in.txt"))
    path = place.put("in.txt", b"7\n" * 1_000_000)
    least, stop = path.stat().st_size // 2, threading.Event()

    def grow() -> None:
        with path.open("ab", buffering=0) as file:
            while not stop.is_set() and file.tell() < 8_000_000:
                file.write(b"7\n" * 500)

    for _ in range(3):
        thread = threading.Thread(target=grow)
        thread.start()
        ended = place.run("run", "count.spark")
        stop.set()
        thread.join()
        stop.clear()
        most = path.stat().st_size // 2
        if not least <= counted(ended) <= most:
            yield f"between {least} and {most} lines: {ended.shown()}"
        least = most


def a_file_may_be_cut_while_it_is_read(place: Place) -> Iterator[str]:
    """No more lines are read than it had."""
    place.put("count.spark", COUNT.format("in.txt"))
    for _ in range(place.rounds):
        path = place.put("in.txt", b"7\n" * 5_000_000)
        running = place.start("run", "count.spark")
        pause = random.uniform(0, 0.03)
        time.sleep(pause)
        os.truncate(path, random.choice((0, 3, 1_000_000)))
        ended = place.ended(running)
        if not 0 <= counted(ended) <= 5_000_000:
            yield f"cut behind {pause} seconds: {ended.shown()}"


def changed_in_a_run(place: Place, change: Callable[[], None], *words: str) -> tuple[float, Ended]:
    """A run of which a file is changed at some moment, and behind how many seconds that was."""
    running = place.start(*words)
    pause = random.uniform(0, 0.03)
    time.sleep(pause)
    change()
    return pause, place.ended(running)


def a_file_may_be_replaced_while_it_is_read(place: Place) -> Iterator[str]:
    """By one of the same name: either is read whole."""
    place.put("count.spark", COUNT.format("in.txt"))
    for _ in range(place.rounds):
        path, new = place.put("in.txt", b"7\n" * 5_000_000), place.put("new.txt", b"7\n" * 7)
        pause, ended = changed_in_a_run(place, lambda: new.rename(path), "run", "count.spark")
        if counted(ended) not in (5_000_000, 7):
            yield f"replaced behind {pause} seconds: {ended.shown()}"


def a_file_may_go_away_while_it_is_read(place: Place) -> Iterator[str]:
    """It is read whole, or isn't there."""
    place.put("count.spark", COUNT.format("in.txt"))
    for _ in range(place.rounds):
        path = place.put("in.txt", b"7\n" * 5_000_000)
        pause, ended = changed_in_a_run(place, path.unlink, "run", "count.spark")
        is_missing = (ended.status, ended.err) == (5, b"input: in.txt: missing\n")
        if counted(ended) != 5_000_000 and not is_missing:
            yield f"gone behind {pause} seconds: {ended.shown()}"


def a_script_or_a_plan_may_be_cut_while_it_is_read(place: Place) -> Iterator[str]:
    """Of many comments: there are too many, or they end early."""
    place.put("empty.spark", "")
    for _ in range(place.rounds):
        path = place.put("long", b"# nothing\n" * 1_000_000)
        size = random.choice((0, 10, 60_000, 70_000))
        words = random.choice((("long",), ("empty.spark", "--plan", "long")))
        pause, ended = changed_in_a_run(place, lambda: os.truncate(path, size), "run", *words)
        if ended.out or not (ended.status == 0 and not ended.err or ended.err in LIMITS):
            yield f"{words} cut to {size} behind {pause} seconds: {ended.shown()}"
