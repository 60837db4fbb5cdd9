"""What the tools know of the checks of crates that run below a process, as /proc shows them."""
import dataclasses
import os
import pathlib
import re
from collections.abc import Iterator

TICK = os.sysconf("SC_CLK_TCK")
EDIT_FOLDER = re.compile(r"/rt-edit-\d+-")


@dataclasses.dataclass(frozen=True)
class Process:
    """A process as it was seen."""

    parent: int
    began: int
    seconds: float


@dataclasses.dataclass(frozen=True)
class Check:
    """A run of rattle over a crate, and the processor time that it and those below it took so far.

    Its kind is 'proof' or 'tests' where it runs in the crate's own folder. The must-fail edits of a
    crate are tried on copies of it: 'seed' is the check of the crate as it stands that they begin
    with, and 'edit' is one of them. 'reading' is a pass that proves nothing."""

    pid: int
    began: int
    crate: str
    kind: str
    kept: str
    seconds: float


def processes() -> dict[int, Process]:
    """All processes, by their numbers."""
    found = {}
    for name in os.listdir("/proc"):
        if name.isdigit():
            try:
                text = pathlib.Path(f"/proc/{name}/stat").read_text(errors="replace")
            except OSError:
                continue
            words = text.rpartition(")")[2].split()
            seconds = sum(int(it) for it in words[11:15]) / TICK
            found[int(name)] = Process(int(words[1]), int(words[19]), seconds)
    return found


def words_of(pid: int) -> list[str]:
    """The words of a process that runs rattle over a crate; none of any other."""
    try:
        text = pathlib.Path(f"/proc/{pid}/cmdline").read_text(errors="replace")
    except OSError:
        return []
    words = text.split("\0")
    runs = os.path.basename(words[0]) == "rattle" and words[1:2] in (["check"], ["build"])
    return words if runs and "--crate-name" in words else []


def behind(words: list[str], flag: str) -> str:
    """The word behind a flag, or the empty text."""
    return words[words.index(flag) + 1] if flag in words else ""


def kind_of(words: list[str], folder: str) -> str:
    """What kind of check it is that has these words and runs in this folder."""
    if EDIT_FOLDER.search(folder):
        is_seed = behind(words, "--incremental").endswith("/seed")
        return "seed" if is_seed else "edit"
    if "--only" in words:
        return "reading"
    return "tests" if "--test" in words else "proof"


def checks_below(root: int) -> Iterator[Check]:
    """The checks that run below a process. A copy that a check makes of itself is a part of it."""
    found = processes()
    children: dict[int, list[int]] = {}
    for pid, it in found.items():
        children.setdefault(it.parent, []).append(pid)
    waiting = [root]
    while waiting:
        pid = waiting.pop()
        words = words_of(pid) if pid in found else []
        if not words:
            waiting += children.get(pid, [])
            continue
        try:
            folder = os.readlink(f"/proc/{pid}/cwd")
        except OSError:
            continue
        own, seconds = [pid], 0.0
        while own:
            one = own.pop()
            seconds += found[one].seconds
            own += children.get(one, [])
        kind, kept = kind_of(words, folder), behind(words, "--incremental")
        crate = behind(words, "--crate-name")
        yield Check(pid, found[pid].began, crate, kind, kept, seconds)
