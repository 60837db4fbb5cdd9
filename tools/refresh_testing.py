#!/usr/bin/env python3
"""Brings the lists of docs/TESTING.md up to date: cases, tests, edits that must fail, give-ups.

    tools/refresh_testing.py [--check]

The claims of cases/*.txt are listed by file and the tests of sc_rows by module, each with what the
file or the module says that it is about. An edit is a file crates/NAME/must-fail/DEED.edit, or
edits/NAME/DEED.edit where it is tried by hand. Its row names the function whose body it changes and
the clauses of that function, which the changed body can't keep. The bodies that give up too early
are those of edits/give_ups.txt.

Prints a line for an edit whose old text doesn't stand in its file exactly once, for a crate with
more than EDITS of them, where sc_rows has more than FUNCTIONS functions, and for what
tools/try_give_ups.py finds, and ends with 1 where it printed one. With --check it writes nothing,
and tells whether the page would change.
"""
import argparse
import pathlib
import re
import sys
import textwrap
from collections.abc import Iterator

import try_give_ups
from crate_files import Crates, between

PAGE = "docs/TESTING.md"
FUNCTION = re.compile(r"^\s*(?:pub(?:\([^)]*\))? )?(?:const )?fn (\w+)")
IMPL = re.compile(r"^impl(?:<.*?>)? (?:\w+(?:<.*?>)? for )?(\w+)")
CONSTANT = re.compile(r"^(?:pub(?:\([^)]*\))? )?const (\w+)")
TEST = re.compile(r"#\[test\]\s*(?:#\[[^\]]*\]\s*)*fn (\w+)")
CLAIM = re.compile(r"^== (\w+)$", re.MULTILINE)
EDITS = 4
FUNCTIONS = 150
WIDTH = 100
ENSURES = re.compile(r"^\s*ensures (\w*) ?\{")


def first_change(text: str) -> tuple[str, str]:
    """The file of an edit's first change, and the text that it replaces."""
    file = re.search(r"^file: (.*)$", text, re.MULTILINE)
    old = re.search(r"^old: (.*)$", text, re.MULTILINE)
    return (file.group(1).strip() if file else "", old.group(1) if old else "")


def owner(lines: list[str], place: int) -> tuple[str, int]:
    """The function or constant in which a line stands, with its type where it is a method, and the
    line at which it begins."""
    for start in range(place, -1, -1):
        constant = CONSTANT.match(lines[start])
        function = FUNCTION.match(lines[start])
        if constant:
            return constant.group(1), start
        if function:
            if lines[start].startswith(" "):
                impls = [it.group(1) for it in map(IMPL.match, lines[:start]) if it]
                return f"{impls[-1]}::{function.group(1)}" if impls else function.group(1), start
            return function.group(1), start
    return "", 0


def clauses(lines: list[str], start: int) -> str:
    """The labels of what the function that begins at a line ensures."""
    labels = []
    for line in lines[start + 1 :]:
        if line.strip() == "{" or FUNCTION.match(line):
            break
        clause = ENSURES.match(line)
        if clause:
            labels.append(f"`{clause.group(1)}`" if clause.group(1) else "its clause")
    return ", ".join(labels) or "those of its callers"


def rows(crates: Crates, crate: str, faults: list[str]) -> Iterator[str]:
    """The rows of a crate's edits: those of the gate, and behind them those tried by hand."""
    by_hand = sorted((crates.root / "edits" / crate).glob("*.edit"))
    placed = [it.relative_to(crates.root).as_posix() for it in by_hand]
    for path in [*crates.files(f"{crate}/must-fail/*.edit"), *placed]:
        file, old = first_change(crates.text(path))
        text = crates.text(f"crates/{crate}/{file}")
        if not old or text.count(old) != 1:
            faults.append(f"{path}: its old text stands {text.count(old)} times in {file}")
            continue
        lines = text.splitlines()
        name, start = owner(lines, text[: text.index(old)].count("\n"))
        tried = "by hand" if path.startswith("edits/") else "the gate"
        yield f"| `{pathlib.Path(path).stem}` | `{name}` | {clauses(lines, start)} | {tried} |"


def edit_tables(crates: Crates, faults: list[str]) -> list[str]:
    """The tables of the edits of all crates, lowest first."""
    lines: list[str] = []
    for crate in crates.names:
        found = list(rows(crates, crate, faults))
        if sum("| the gate |" in row for row in found) > EDITS:
            faults.append(f"crates/{crate}/must-fail: has {len(found)} edits, and {EDITS} serve")
        if found:
            lines += [""] * bool(lines)
            heading = ["| edit | changes | refused at | tried by |", "|---|---|---|---|"]
            lines += [f"### `{crate}`", "", *heading, *found]
    return lines


def subject(text: str, mark: str) -> str:
    """What the first comment of a file says, whose lines begin with a mark."""
    lines = []
    for line in text.splitlines():
        if not line.startswith(mark) or line.strip() == mark:
            break
        lines.append(line.removeprefix(mark).strip())
    return " ".join(lines)


def entry(name: str, about: str, claims: list[str]) -> list[str]:
    """The lines of a list that tell of a file what it is about and what it claims."""
    told = ", ".join(f"`{it}`" for it in dict.fromkeys(claims))
    lines = textwrap.wrap(f"- `{name}`: {about}", WIDTH, subsequent_indent="  ")
    return lines + textwrap.wrap(told, WIDTH, initial_indent="  ", subsequent_indent="  ")


def case_lists(crates: Crates) -> list[str]:
    """The claims of the cases, file by file."""
    lines: list[str] = []
    for path in sorted((crates.root / "cases").glob("*.txt")):
        text = path.read_text(encoding="utf-8")
        about = subject(text, "#").removeprefix(f"cases/{path.name}: ")
        lines += entry(path.name, about, CLAIM.findall(text))
    return lines


def test_lists(crates: Crates, faults: list[str]) -> list[str]:
    """The tests of sc_rows, module by module."""
    lines: list[str] = []
    count = 0
    for path in crates.files("sc_rows/src/*.rt"):
        text = crates.text(path)
        names = TEST.findall(text)
        count += sum(FUNCTION.match(line) is not None for line in text.splitlines())
        if names:
            lines += entry(pathlib.Path(path).stem, subject(text, "//!"), names)
    if count > FUNCTIONS:
        faults.append(f"crates/sc_rows/src: has {count} functions, and {FUNCTIONS} serve")
    return lines


def refreshed(crates: Crates, page: str, faults: list[str]) -> str:
    """The page as it should be."""
    page = between(page, "cases", case_lists(crates))
    page = between(page, "tests", test_lists(crates, faults))
    faults += try_give_ups.faults(crates.root)
    page = between(page, "give-ups", list(try_give_ups.table(crates.root)))
    return between(page, "edits", edit_tables(crates, faults))


def main() -> int:
    parser = argparse.ArgumentParser(
        description=__doc__, formatter_class=argparse.RawDescriptionHelpFormatter
    )
    parser.add_argument("--check", action="store_true", help="write nothing")
    arguments = parser.parse_args()
    crates = Crates(pathlib.Path(__file__).resolve().parent.parent)
    faults: list[str] = []
    page = crates.text(PAGE)
    wanted = refreshed(crates, page, faults)
    if wanted != page and arguments.check:
        faults.append(f"{PAGE} is stale: python3 tools/refresh_testing.py")
    elif wanted != page:
        (crates.root / PAGE).write_text(wanted, encoding="utf-8")
    print(*faults, sep="\n", end="\n" if faults else "")
    return 1 if faults else 0


if __name__ == "__main__":
    sys.exit(main())
