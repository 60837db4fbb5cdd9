"""Saves that are ended by a signal, meet one another, or whose directory goes away."""
import contextlib
import os
import pathlib
import random
import re
import shutil
import signal
import time
from collections.abc import Iterator

from hostile.runs import Ended, Place, Running, differs

STAGED = re.compile(r"([sc])-(\d+)-(\d+)-(\d+)-(\d+)")
PART = re.compile(r"part-(\d{5})")
MANY = 48
HEEDED = signal.SIGTERM, signal.SIGINT, signal.SIGHUP


def parts_of(count: int) -> list[bytes]:
    """What the parts hold of the numbers from 0, one in each partition."""
    return [b"%d\n" % number for number in range(count)]


def saving(count: int) -> str:
    """A script that saves them."""
    literals = " ".join(str(number) for number in range(count))
    return f'l = parallelize {count} {literals}\nsave l "out"\n'


def files_in(folder: pathlib.Path) -> dict[str, bytes]:
    return {path.name: path.read_bytes() for path in folder.iterdir() if path.is_file()}


def wrong_parts(folder: pathlib.Path, parts: list[bytes]) -> Iterator[str]:
    """What is wrong with a directory that is to be saved whole."""
    want = {f"part-{number:05}": part for number, part in enumerate(parts)} | {"_SUCCESS": b""}
    if not folder.is_dir() or files_in(folder) != want or (folder / "_temporary").exists():
        stand = sorted(os.listdir(folder)) if folder.is_dir() else "nothing"
        yield f"{folder.name} isn't saved whole: {stand}"


def wrong_staged(staging: pathlib.Path, parts: list[bytes]) -> Iterator[str]:
    """What is wrong with a staging area: a file of another name, or a moved one that isn't
    whole."""
    for name, content in files_in(staging).items():
        found = STAGED.fullmatch(name)
        if found is None or int(found.group(4)) >= len(parts):
            yield f"{staging.name} has {name}"
            continue
        part = parts[int(found.group(4))]
        if not (content == part if found.group(1) == "c" else part.startswith(content)):
            yield f"{staging.name} has {name} with {content[:40]!r}"


def wrong_abort(folder: pathlib.Path) -> Iterator[str]:
    """What is wrong with the directory of a save that was aborted: it stands, and is empty."""
    if not folder.is_dir() or os.listdir(folder):
        yield f"{folder.name} isn't there and empty"


def wrong_end(folder: pathlib.Path, parts: list[bytes], is_alone: bool = True) -> Iterator[str]:
    """What is wrong with what stands of a save that ended before its end. There may be nothing; the
    directory; with its staging area; some first parts beside that; all parts with or without it;
    and _SUCCESS only where the save is whole. Where others were at it, the staging area may be
    missing in each."""
    if not folder.exists():
        return
    stand = files_in(folder)
    if "_SUCCESS" in stand:
        yield from wrong_parts(folder, parts)
        return
    count = len(stand)
    if stand != {f"part-{number:05}": part for number, part in enumerate(parts[:count])}:
        yield f"{folder.name} has {sorted(stand)}"
    if (folder / "_temporary").exists():
        yield from wrong_staged(folder / "_temporary", parts)
    elif is_alone and 0 < count < len(parts):
        yield f"{folder.name} has {count} parts and no staging area"


def seconds_of(place: Place, *words: str) -> float:
    """How long a save takes, which has to be whole."""
    before = time.monotonic()
    ended = place.run(*words)
    if ended.status:
        raise RuntimeError(f"{words}: {ended.shown()}")
    shutil.rmtree(place.folder / "out")
    return time.monotonic() - before


def files_at(folder: pathlib.Path) -> int:
    """How many names a folder has, which may be none."""
    with contextlib.suppress(OSError):
        return len(os.listdir(folder))
    return 0


def await_moment(running: Running, out: pathlib.Path, length: float) -> None:
    """Waits for some moment of a save: for a time, for a number of staged files, or for a part."""
    way, count = random.choice(("time", "staged", "parts")), random.randrange(1, MANY)
    if way == "time":
        time.sleep(random.uniform(0, length))
        return
    folder = out / "_temporary" if way == "staged" else out
    while running.goes_on() and files_at(folder) < count:
        pass


def heed() -> None:
    """Lets signals end the process, also where whoever started this ignores them."""
    for number in HEEDED:
        signal.signal(number, signal.SIG_DFL)


def a_signal_leaves_no_success_over_missing_parts(place: Place) -> Iterator[str]:
    """Whenever it comes. What stands is whole, or something that a save which ends early leaves,
    and the next run refuses it where a directory is there."""
    place.put("saving.spark", saving(MANY))
    words = "run", "saving.spark", "--executors", "4"
    length = seconds_of(place, *words)
    for number in (*HEEDED, signal.SIGKILL):
        for _ in range(place.rounds):
            running = place.start(*words, before=heed)
            await_moment(running, place.folder / "out", length)
            running.signal(number)
            ended = place.ended(running)
            if ended.status not in (0, -number) or ended.out or ended.err:
                yield f"{number.name}: {ended.shown()}"
            check = wrong_parts if ended.status == 0 else wrong_end
            yield from check(place.folder / "out", parts_of(MANY))
            if (place.folder / "out").exists():
                again = place.run(*words)
                yield from differs("the next run", again, 10, b"", b"output exists: out\n")
                yield from check(place.folder / "out", parts_of(MANY))
                shutil.rmtree(place.folder / "out")


def wrong_words(ended: Ended) -> Iterator[str]:
    """What is wrong with how a run ended of which others took the directory. It is done, or it says
    that a part failed too often, or names the call that failed."""
    told = {
        0: rb"",
        6: rb"task limit: stage 0 attempt 0 partition \d+\n",
        11: rb"device: out(/.*)?\n",
    }
    if ended.out or not re.fullmatch(told.get(ended.status, rb"(?!)"), ended.err):
        yield ended.shown()


def of_two_saves_to_a_directory_at_once_one_is_done(place: Place) -> Iterator[str]:
    """The other is refused, and changes nothing."""
    place.put("saving.spark", saving(MANY))
    for _ in range(place.rounds):
        running = [place.start("run", "saving.spark", "--executors", "2") for _ in range(2)]
        ended = sorted(place.ended(it).status for it in running)
        if ended != [0, 10]:
            yield f"they end with {ended}"
        yield from wrong_parts(place.folder / "out", parts_of(MANY))
        shutil.rmtree(place.folder / "out", ignore_errors=True)


def a_directory_may_go_away_while_it_is_saved_to(place: Place) -> Iterator[str]:
    """It gets another name: the run ends with a limit or a fault, or was through; and neither
    directory has _SUCCESS over missing parts."""
    place.put("saving.spark", saving(MANY))
    words = "run", "saving.spark", "--executors", "4"
    length, out, gone = seconds_of(place, *words), place.folder / "out", place.folder / "gone"
    for _ in range(place.rounds):
        running = place.start(*words)
        await_moment(running, out, length)
        with contextlib.suppress(FileNotFoundError):
            out.rename(gone)
        ended = place.ended(running)
        yield from wrong_words(ended)
        found = [list(wrong_parts(folder, parts_of(MANY))) for folder in (out, gone)]
        if ended.status == 0 and all(found):
            yield "a save is done, and no directory is whole"
        for folder in (out, gone):
            yield from wrong_end(folder, parts_of(MANY))
            shutil.rmtree(folder, ignore_errors=True)


def a_directory_may_be_removed_while_it_is_saved_to(place: Place) -> Iterator[str]:
    """File by file, with whatever stands in it at the moment: the run ends with a limit or a fault,
    or was through. Who removes what was saved may leave _SUCCESS behind, so what stands isn't
    looked at."""
    place.put("saving.spark", saving(MANY))
    words = "run", "saving.spark", "--executors", "4"
    length, out = seconds_of(place, *words), place.folder / "out"
    for _ in range(place.rounds):
        running = place.start(*words)
        await_moment(running, out, length)
        shutil.rmtree(out, ignore_errors=True)
        yield from wrong_words(place.ended(running))
        shutil.rmtree(out, ignore_errors=True)


def a_staging_area_may_go_away_while_it_is_saved_to(place: Place) -> Iterator[str]:
    place.put("saving.spark", saving(MANY))
    words = "run", "saving.spark", "--executors", "4"
    length, out = seconds_of(place, *words), place.folder / "out"
    for _ in range(place.rounds):
        running = place.start(*words)
        await_moment(running, out, length)
        shutil.rmtree(out / "_temporary", ignore_errors=True)
        ended = place.ended(running)
        yield from wrong_words(ended)
        if ended.status == 0:
            yield from wrong_parts(out, parts_of(MANY))
        yield from wrong_end(out, parts_of(MANY), is_alone=False)
        shutil.rmtree(out, ignore_errors=True)
