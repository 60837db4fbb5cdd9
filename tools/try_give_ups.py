#!/usr/bin/env python3
r"""Bodies that give up too early: checks their list, or plants them and looks for who refuses them.

    tools/try_give_ups.py [--build COMMAND | --switched COMMAND] [-k TEXT]

Want of memory is the one answer that no clause ties to a cause, so a body that gives up too early
keeps every clause, and only a run refuses it. edits/give_ups.txt has such bodies:

    == CRATE/src/FILE.rt FUNCTION
    old: TEXT         what stands there, just once in the functions of this name
    new: TEXT         what gives up too early; lines that begin with a blank go on with a line
    by: FILE CLAIM    a case of cases/FILE that refuses it; 'example NAME'; 'sc_rows NAME', a test;
                      'nobody, since REASON'

Of `old` only what stands between « and » is replaced, where it has them. Both are expressions, so
that a choice between the two is one too.

Without a word this prints a line for each body that doesn't fit the crates and the cases any more,
and ends with 1 where there is one; tools/check_docs.py calls it so. With --build each body whose
place or new text has TEXT is planted in a copy, alone, a program is built of that without proofs,
by 'COMMAND spark_run OUT' at the copy's top, and the one who is to refuse the body is run over it;
that takes minutes for each. With --switched one program is built of all bodies: each is chosen
where `sc_base::planted(NUMBER)` is true, which the command has to make so for the numbers, parted
by commas, in the environment's GIVE_UPS. It ends with 1 where a body isn't refused. A body that a
test refuses isn't tried: plant it by hand, and run 'rt try --test' in sc_rows.
"""
import argparse
import dataclasses
import functools
import os
import pathlib
import re
import shlex
import shutil
import subprocess
import sys
import tempfile
from collections.abc import Iterator

LIST = "edits/give_ups.txt"
TOP = pathlib.Path(__file__).resolve().parent.parent
PLACE = re.compile(r"(\w+/src/\w+\.rt) (\w+)")
NOBODY = "nobody, since "
ROWS = "sc_rows "
PLANTED = """//! Which of the planted bodies is chosen.
#![tactic(auto)]

/// Whether the planted body of a number is chosen.
#[inline(never)]
pub fn planted(number: u32) -> bool {
    number == 4_000_000_000
}
"""


@dataclasses.dataclass(frozen=True)
class GiveUp:
    """A body that gives up too early, and who refuses it."""

    number: int
    file: str
    function: str
    old: str
    new: str
    by: str

    @property
    def place(self) -> str:
        return f"{self.file} {self.function}"

    @functools.cached_property
    def replaced(self) -> tuple[str, str, str]:
        """What stands before what is replaced, that itself, and what stands behind."""
        before, found, rest = self.old.partition("«")
        within, _, behind = rest.partition("»")
        return (before, within, behind) if found else ("", self.old, "")

    @property
    def stands(self) -> str:
        return "".join(self.replaced)

    def places_in(self, text: str) -> list[int]:
        """Where its old text stands in the functions of its name."""
        head = rf"^( *)(?:pub(?:\([^)]*\))? )?fn {self.function}\b.*?^\1}}\n"
        bodies = re.finditer(head, text, re.DOTALL | re.MULTILINE)
        found = [(it.start(), it.group()) for it in bodies]
        old = re.escape(self.stands)
        return [start + at.start() for start, body in found for at in re.finditer(old, body)]


def give_ups(text: str) -> Iterator[GiveUp]:
    """The bodies of a list."""
    for number, block in enumerate(re.split(r"^== ", text, flags=re.MULTILINE)[1:], 1):
        head, *lines = re.sub(r"\n +", " ", block.strip()).split("\n")
        parts = dict(it.split(": ", 1) for it in lines)
        place = PLACE.fullmatch(head)
        if not place or set(parts) != {"old", "new", "by"}:
            raise ValueError(f"{LIST}: {head} hasn't the form")
        yield GiveUp(number, *place.groups(), parts["old"], parts["new"], parts["by"])


def is_test(root: pathlib.Path, name: str) -> bool:
    """Whether sc_rows has a test of a name."""
    files = (root / "crates/sc_rows/src").glob("*.rt")
    return any(f"#[test]\nfn {name}(" in it.read_text(encoding="utf-8") for it in files)


def faults(root: pathlib.Path = TOP) -> Iterator[str]:
    """What no longer fits of the list of a repository."""
    for it in give_ups((root / LIST).read_text(encoding="utf-8")):
        file = root / "crates" / it.file
        count = len(it.places_in(file.read_text(encoding="utf-8"))) if file.is_file() else 0
        if count != 1:
            yield f"{LIST}: '{it.stands}' stands {count} times in {it.place}"
        name, _, claim = it.by.partition(" ")
        case = root / "cases" / name
        if name == "example":
            known = (root / "examples" / claim).is_dir()
        elif it.by.startswith(ROWS):
            known = is_test(root, claim)
        else:
            known = case.is_file() and f"== {claim}\n" in case.read_text(encoding="utf-8")
        if not known and not it.by.startswith(NOBODY):
            yield f"{LIST}: {it.place}: there is no '{it.by}'"


def table(root: pathlib.Path = TOP) -> Iterator[str]:
    """The list as lines of a table, in which '..' is what stood there."""
    yield from ("| in | stands | refused by |", "|---|---|---|")
    for it in give_ups((root / LIST).read_text(encoding="utf-8")):
        name, _, claim = it.by.partition(" ")
        by = it.by if it.by.startswith(NOBODY) else f"`{name}`: `{claim}`"
        by = f"`examples/{claim}`" if name == "example" else by
        new = it.new.replace(it.replaced[1], "..").replace("|", "\\|")
        yield f"| `{it.file}`: `{it.function}` | `{new}` | {by} |"


def plant(root: pathlib.Path, planted: list[GiveUp], switched: bool) -> None:
    """Puts bodies into the places of those that stand there, or beside them for a choice."""
    for file in {it.file for it in planted}:
        path = root / "crates" / file
        text = path.read_text(encoding="utf-8")
        own = [it for it in planted if it.file == file]
        for it in sorted(own, key=lambda it: it.places_in(text), reverse=True):
            before, within, _ = it.replaced
            start = it.places_in(text)[0] + len(before)
            choice = f"(if sc_base::planted({it.number}) {{ {it.new} }} else {{ {within} }})"
            put = choice if switched else it.new
            text = text[:start] + put + text[start + len(within) :]
        path.write_text(text, encoding="utf-8")
    if switched:
        base = root / "crates/sc_base/src"
        (base / "planting.rt").write_text(PLANTED, encoding="utf-8")
        lib = (base / "lib.rt").read_text(encoding="utf-8")
        added = "mod planting;\nmod refusals;\n\npub use planting::planted;"
        (base / "lib.rt").write_text(lib.replace("mod refusals;\n", added), encoding="utf-8")


def built(planted: list[GiveUp], command: str, program: pathlib.Path, switched: bool) -> None:
    """Builds a program of a copy of the repository with these bodies."""
    with tempfile.TemporaryDirectory() as scratch:
        copy = pathlib.Path(scratch, "copy")
        ignored = shutil.ignore_patterns("out", ".git")
        shutil.copytree(TOP, copy, ignore=ignored, symlinks=True)
        plant(copy, planted, switched)
        words = [*shlex.split(command), "spark_run", str(program)]
        subprocess.run(words, cwd=copy, check=True, stdout=subprocess.DEVNULL)


def is_refused(it: GiveUp, program: pathlib.Path, chosen: str) -> bool:
    """Whether the one who is to refuse a body does."""
    environment = {**os.environ, "SPARK_RUN": str(program), "GIVE_UPS": chosen}
    name, _, claim = it.by.partition(" ")
    if name == "example":
        words = [str(TOP / "tools/check_examples.sh")]
        wanted = f"examples/{claim} job: differs"
    else:
        words = [sys.executable, str(TOP / "tools/check_cases.py"), "-k", claim]
        wanted = f"cases/{name}:"
    ran = subprocess.run(words, env=environment, capture_output=True, text=True)
    return ran.returncode != 0 and wanted in ran.stdout


def main() -> int:
    parser = argparse.ArgumentParser(description="Bodies that give up too early.")
    parser.add_argument("--build", metavar="COMMAND", help="plant each alone")
    parser.add_argument("--switched", metavar="COMMAND", help="plant all, and choose one by one")
    parser.add_argument("-k", metavar="TEXT", default="", help="try only those that have TEXT")
    arguments = parser.parse_args()
    stale = list(faults())
    print(*stale, sep="\n", end="\n" if stale else "")
    command = arguments.switched or arguments.build
    if stale or not command:
        return 1 if stale else 0
    switched = arguments.switched is not None
    everyone = list(give_ups((TOP / LIST).read_text(encoding="utf-8")))
    tried = [it for it in everyone if arguments.k in f"{it.place} {it.new}"]
    tried = [it for it in tried if not it.by.startswith((NOBODY, ROWS))]
    passed = 0
    with tempfile.TemporaryDirectory() as scratch:
        program = pathlib.Path(scratch, "spark_run")
        if switched:
            built(everyone, command, program, switched)
        for it in tried:
            if not switched:
                built([it], command, program, switched)
            if not is_refused(it, program, str(it.number)):
                print(f"{it.place}: '{it.new}' isn't refused by {it.by}")
                passed += 1
    print(f"bodies: {len(tried)} tried, {passed} not refused")
    return 1 if passed else 0


if __name__ == "__main__":
    sys.exit(main())
