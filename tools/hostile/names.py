"""Directories to save to that have odd names, are there, or can't be made or written in."""
import contextlib
import json
import os
import pathlib
import re
import shutil
from collections.abc import Iterator

from hostile.runs import NOBODY, Place, differs
from hostile.saves import parts_of, saving, wrong_abort, wrong_parts


def a_directory_that_cannot_be_made_is_a_device_fault(place: Place) -> Iterator[str]:
    """And what is there already is refused, whatever it is."""
    (place.folder / "closed").mkdir(mode=0o555)
    (place.folder / "folder").mkdir()
    (place.folder / "link").symlink_to("nothing")
    os.mkfifo(place.folder / "pipe")
    place.put("file", "")
    fails = "closed/out", "closed/above/out", "file/out", "file/above/out", "n" * 256
    taken = "folder", "link", "pipe", "file", "closed"
    for name in (*fails, *taken):
        place.put("saving.spark", f'l = parallelize 2 1 2\nsave l "{name}"\n')
        ended = place.run("run", "saving.spark", user=NOBODY)
        told = f"device: {name}\n" if name in fails else f"output exists: {name}\n"
        yield from differs(name, ended, 11 if name in fails else 10, b"", told.encode())
    stand = sorted(path.name for path in place.folder.rglob("*"))
    if stand != ["closed", "file", "folder", "link", "pipe", "saving.spark"]:
        yield f"there stand {stand}"


def a_directory_may_have_any_name(place: Place) -> Iterator[str]:
    """As the system takes it, with those above it; and it is refused by that name."""
    names = "a b", " ", "\ta\n", "-x", "--", "...", "*", "a\\b", '"', "\x01\x7f", "\x85\u2028"
    above = "é/\U0001f600", "there//twice", "./here", "made/../beside", "made/./in", "n" * 255
    for name in (*names, *above):
        written = json.dumps(name, ensure_ascii=False).replace("\\u0001", "\x01")
        place.put("saving.spark", f"l = parallelize 3 0 1 2\nsave l {written}\n")
        yield from differs(f"{name!r}", place.run("run", "saving.spark"), 0)
        yield from wrong_parts(place.folder / name, parts_of(3))
        told = f"output exists: {name}\n".encode()
        yield from differs(f"{name!r} again", place.run("run", "saving.spark"), 10, b"", told)
        yield from wrong_parts(place.folder / name, parts_of(3))


@contextlib.contextmanager
def in_short(folder: pathlib.Path) -> Iterator[pathlib.Path]:
    """A short path of a folder, by which it can be looked into whatever its length."""
    above = os.open(folder.parents[len(folder.parts) // 2], os.O_PATH)
    yield pathlib.Path(f"/proc/self/fd/{above}", *folder.parts[-(len(folder.parts) // 2) - 1 :])
    os.close(above)


def a_path_that_is_too_long_is_a_device_fault(place: Place) -> Iterator[str]:
    """The system takes 4,095 bytes. Behind those of the directory an attempt needs 21 for its file,
    and the staging area 11. No line has room for a directory of more than 4,087."""
    limit = re.compile(rb"task limit: stage 0 attempt 0 partition [0-2]\n")
    for length in (4_000, *range(4_070, 4_088)):
        name = ("o" * 99 + "/") * 39 + "p" * (length - 3_900)
        place.put("saving.spark", f'l = parallelize 3 0 1 2\nsave l "{name}"\n')
        ended = place.run("run", "saving.spark")
        is_saved = length <= 4_074
        with in_short(place.folder / name) as folder:
            yield from wrong_parts(folder, parts_of(3)) if is_saved else wrong_abort(folder)
        if is_saved:
            yield from differs(f"{length} bytes", ended, 0)
        elif length > 4_084:
            told = f"device: {name}/_temporary\n".encode()
            yield from differs(f"{length} bytes", ended, 11, b"", told)
        elif (ended.status, ended.out) != (6, b"") or not limit.fullmatch(ended.err):
            yield f"{length} bytes: {ended.shown()}"
        shutil.rmtree(place.folder / ("o" * 99), ignore_errors=True)


def a_folder_that_may_not_be_written_in_gets_nothing(place: Place) -> Iterator[str]:
    place.put("saving.spark", saving(3))
    place.folder.chmod(0o555)
    ended = place.run("run", "saving.spark", user=NOBODY)
    yield from differs("saved", ended, 11, b"", b"device: out\n")
    if (place.folder / "out").exists():
        yield "out is there"
