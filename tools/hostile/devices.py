"""Devices that have no room left: small file systems in memory, which root alone may have."""
import os
import pathlib
import re
import shutil
from collections.abc import Iterator

from hostile.runs import Ended, Place, differs
from hostile.saves import wrong_abort, wrong_parts

# The folder is a device of so many bytes, for so many names, and what it has in the end is left.
SHELL = """mount -t tmpfs -o "size=$0,nr_inodes=$1" none . && cd "$PWD" && shift || exit 125
"$@" >text
status=$?
cp -a . ../stands
exit $status
"""
PAGE, PLENTY = 4_096, 64
# Three parts of two pages each. On the device are names for itself, the text, the directory, the
# staging area and the parts.
PART = (b"7" * 99 + b"\n") * 80
LEAST_PAGES, LEAST_NAMES = 6, 7
TASK_LIMIT = re.compile(rb"task limit: stage 0 attempt 0 partition [0-2]\n")


def on_a_device(place: Place, action: str, pages: int, names: int, executors: str) -> Ended:
    """A run in a folder that is a device of so many pages, for so many names."""
    shutil.rmtree(place.scratch / "stands", ignore_errors=True)
    (place.scratch / "in.txt").write_bytes(PART * 3)
    (place.scratch / "job.spark").write_text(f'l = text "../in.txt" 3\n{action}\n')
    around = "unshare", "-m", "sh", "-c", SHELL, str(pages * PAGE), str(names)
    return place.run("run", "../job.spark", "--executors", executors, within=around)


def wrong_save(ended: Ended, out: pathlib.Path, pages: int, names: int) -> Iterator[str]:
    """What is wrong with a save on a device of so many pages, for so many names."""
    what = f"{pages} pages, {names} names"
    if names == 2:
        yield from differs(what, ended, 11, b"", b"device: out\n")
        yield from (f"{what}: it stands" for _ in range(out.exists()))
    elif names == 3:
        yield from differs(what, ended, 11, b"", b"device: out/_temporary\n")
        yield from wrong_abort(out)
    elif names < LEAST_NAMES or pages < LEAST_PAGES:
        if ended.status != 6 or not TASK_LIMIT.fullmatch(ended.err):
            yield f"{what}: {ended.shown()}"
        yield from wrong_abort(out)
    else:
        yield from differs(what, ended, 0)
        yield from wrong_parts(out, [PART] * 3)


def a_device_without_room_is_told(place: Place) -> Iterator[str]:
    """For the names of a save, for its bytes, or for those of a text."""
    if os.getuid() != 0:
        return
    stands = place.scratch / "stands"
    rooms = [(PLENTY, names) for names in range(2, 9)] + [(pages, PLENTY) for pages in range(1, 9)]
    for executors in ("1", "4"):
        for pages, names in rooms:
            ended = on_a_device(place, 'save l "out"', pages, names, executors)
            yield from wrong_save(ended, stands / "out", pages, names)
        for pages in range(1, 9):
            ended = on_a_device(place, "collect l", pages, PLENTY, executors)
            is_whole = pages >= LEAST_PAGES
            told = (0,) if is_whole else (12, b"", b"write failed\n")
            yield from differs(f"a text on {pages} pages", ended, *told)
            took = (stands / "text").read_bytes()
            if took != (PART * 3)[: pages * PAGE]:
                yield f"a text on {pages} pages: {len(took)} bytes are written"
