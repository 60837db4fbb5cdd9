#!/usr/bin/env python3
"""Makes the tables of docs/READING.md: the definitions on which each promise of `run` rests.

    tools/refresh_reading.py [--check]

A promise is what some clauses of `run` state. It rests on the definitions that their text names, on
those that these name in turn, and on the types of the program that they speak of, with the views by
which these are seen. A table lists, file by file, those that no promise before it rests on, and the
page says of each promise how many there are and how long they take to read.

Prints a line for a name that a file of specs brings in and that no file defines, and for a promise
whose clause `run` doesn't have. Ends with 1 where it printed one. With --check it writes nothing,
and tells whether the page would change.
"""
import argparse
import dataclasses
import pathlib
import re
import sys
from collections.abc import Iterable, Iterator

from crate_files import Crates, Declared, between, ghost_member
from definitions import Definition, Definitions, Rests

PAGE = "docs/READING.md"
RUN = "crates/sc_app/src/command.rt"
ANSWER = Declared("crates/sc_app/src/ran.rt", "Ran")
RATE = 10
STATE = re.compile(r"^(?:impl(?:<[^{]*>)? (Source|Sink) for (\w+)|pub trait (Source|Sink)) ?.*\{$")
ENSURES = re.compile(r"^    ensures (\w+) \{", re.MULTILINE)


@dataclasses.dataclass(frozen=True)
class Promise:
    """What some clauses of `run` state; all that no other promise has, where none is named."""

    words: str
    table: str
    clauses: tuple[str, ...] = ()


PROMISES = (
    Promise("what 0 means", "zero", ("headline",)),
    Promise("what each status means, and what stands", "each", ("ends", "histories")),
    Promise("what comes of a good run", "good", ("good",)),
    Promise("what it survives", "survives", ("survives",)),
    Promise("what else is said of a run", "else"),
)


@dataclasses.dataclass
class Part:
    """A promise, its clauses, all that it rests on, and what of that none before it does."""

    promise: Promise
    clauses: list[str]
    rests: Rests
    new: Rests


def clauses(crates: Crates) -> dict[str, str]:
    """The clauses of `run` by their labels."""
    contract = crates.text(RUN).partition("\npub fn run<")[2].partition("\n{\n")[0]
    starts = [*ENSURES.finditer(contract)]
    ends = [it.start() for it in starts[1:]] + [len(contract)]
    return {it.group(1): contract[it.end() : end] for it, end in zip(starts, ends)}


def parts(crates: Crates, definitions: Definitions) -> list[Part]:
    """The promises of `run`, each with what it rests on."""
    stated = clauses(crates)
    found: list[Part] = []
    before = Rests()
    for promise in PROMISES:
        others = [it for it in stated if not any(it in other.clauses for other in PROMISES)]
        labels = [it for it in promise.clauses or others if it in stated]
        rests = definitions.rests_on("\n".join(stated[it] for it in labels), RUN)
        if not found:
            rests.types.add(ANSWER)
        new = Rests(
            rests.definitions - before.definitions,
            rests.types - before.types,
            rests.kit - before.kit,
        )
        found.append(Part(promise, labels, rests, new))
        before.definitions |= rests.definitions
        before.types |= rests.types
        before.kit |= rests.kit
    return found


def subject(text: str) -> str:
    """What a file of definitions says that it is about."""
    comment = re.match(r"-- (.)(.*(?:\n-- .*)*)", text)
    words = comment.group(1).lower() + comment.group(2).replace("\n--", "") if comment else "?"
    return re.split(r"\.(?: |$)", words)[0].rstrip(":")


def in_order(definitions: Definitions, paths: Iterable[str]) -> list[str]:
    """Files by crate, lowest first, each behind those of its crate that it cites."""
    crates = definitions.crates
    wanted = {*paths}
    done: dict[str, None] = {}

    def visit(path: str) -> None:
        crate = path.split("/")[1]
        for other in sorted(definitions.modules(path)):
            if other.split("/")[1] == crate and other not in done and other != path:
                visit(other)
        done[path] = None

    for path in sorted(wanted, key=lambda it: (crates.names.index(it.split("/")[1]), it)):
        if path not in done:
            visit(path)
    return [it for it in done if it in wanted]


def types_in_order(crates: Crates, types: set[Declared]) -> list[Declared]:
    """Types by crate, lowest first, and then by file and name."""
    return sorted(types, key=lambda it: (crates.names.index(it.path.split("/")[1]), it))


def lines_of(definitions: Definitions, found: Iterable[Definition]) -> int:
    """How many lines definitions have, with the comments above them."""
    return sum(definitions.of_file(it.path)[it.name].lines for it in found)


def lines_of_types(crates: Crates, types: Iterable[Declared]) -> int:
    """How many lines the declarations of types have, and the views by which they are seen."""
    texts = (crates.declaration(it) + "\n" + crates.model(it) for it in types)
    return sum(len(it.strip().splitlines()) for it in texts)


def duration(lines: int) -> str:
    """How long it takes to read lines."""
    halves = max(1, round(lines / RATE / 30))
    hours = f"{halves // 2 or ''}{'½' if halves % 2 else ''}"
    return f"{hours} hour{'' if halves <= 2 else 's'}"


def total_rows(definitions: Definitions, found: list[Part]) -> Iterator[str]:
    yield "| | promise | clauses | definitions | new | files | types | lines | to read |"
    yield "|---|---|---|---|---|---|---|---|---|"
    for number, part in enumerate(found, 1):
        every, new = part.rests, part.new
        lines = lines_of(definitions, every.definitions)
        lines += lines_of_types(definitions.crates, every.types)
        cells = (
            str(number),
            part.promise.words,
            ", ".join(f"`{it}`" for it in part.clauses),
            f"{len(every.definitions):,}",
            f"{len(new.definitions):,}",
            f"{len({it.path for it in every.definitions}):,}",
            f"{len(every.types):,}",
            f"{lines:,}",
            duration(lines),
        )
        yield f"| {' | '.join(cells)} |"


def definition_rows(definitions: Definitions, part: Part, start: int) -> list[str]:
    """The rows of the definitions that no promise before this one rests on, numbered from here."""
    by_file: dict[str, set[str]] = {}
    for it in part.new.definitions:
        by_file.setdefault(it.path, set()).add(it.name)
    rows = ["| n | path | lines | definitions | about |", "|---|---|---|---|---|"]
    for number, path in enumerate(in_order(definitions, by_file), start):
        there = definitions.of_file(path)
        names = [it for it in there if it in by_file[path]]
        count = sum(there[it].lines for it in names)
        listed = " ".join(f"`{it}`" for it in names)
        if len(names) == len(there):
            listed = f"all {len(names)}" if len(names) > 1 else "the one"
        about = subject(definitions.crates.text(path))
        rows.append(f"| {number} | {path} | {count} | {listed} | {about} |")
    return rows


def states(crates: Crates) -> Iterator[tuple[str, Declared, str]]:
    """The traits of the outside and their impls: trait, type and what is shown."""
    for path in crates.files("sc_[is]*/src/*.rt"):
        lines = crates.text(path).splitlines()
        for number, line in enumerate(lines):
            start = STATE.match(line)
            if start:
                shows = ghost_member("\n".join(lines[number : number + 20]), "state")
                trait = start.group(1) or start.group(3)
                yield trait, Declared(path, start.group(2) or ""), shows


def state_rows(crates: Crates) -> Iterator[str]:
    yield "| trait | type | file | what it shows |"
    yield "|---|---|---|---|"
    for trait, it, shows in states(crates):
        yield f"| `{trait}` | {f'`{it.name}`' if it.name else 'any'} | {it.path} | `{shows}` |"


def model_rows(crates: Crates, found: list[Part]) -> Iterator[str]:
    yield "| for | type | file | seen as | by |"
    yield "|---|---|---|---|---|"
    outside = {it for _, it, _ in states(crates) if it.name}
    known: set[Declared] = set()
    for number, part in enumerate(found, 1):
        more = (part.new.types | (outside if number == 1 else set())) - known
        known |= more
        for it in types_in_order(crates, more):
            model = crates.model(it)
            if model:
                seen, view = (ghost_member(model, word) for word in ("Value", "view"))
                yield f"| {number} | `{it.name}` | {it.path} | `{seen}` | `{view}` |"


def type_rows(crates: Crates, found: list[Part]) -> Iterator[str]:
    yield "| for | file | types |"
    yield "|---|---|---|"
    for number, part in enumerate(found, 1):
        plain: dict[str, list[str]] = {}
        for it in types_in_order(crates, part.new.types):
            if not crates.model(it):
                plain.setdefault(it.path, []).append(f"`{it.name}`")
        yield from (f"| {number} | {path} | {', '.join(it)} |" for path, it in plain.items())


def kit_rows(found: list[Part]) -> Iterator[str]:
    yield "| for | module | words |"
    yield "|---|---|---|"
    for number, part in enumerate(found, 1):
        modules: dict[str, list[str]] = {}
        for module, word in sorted(part.new.kit):
            modules.setdefault(module, []).append("`" + word.replace("|", "\\|") + "`")
        yield from (f"| {number} | {module} | {' '.join(it)} |" for module, it in modules.items())


def other_rows(definitions: Definitions, found: list[Part]) -> Iterator[str]:
    yield "| path | lines | about |"
    yield "|---|---|---|"
    listed = {it.path for part in found for it in part.new.definitions}
    crates = definitions.crates
    files = {it for it in crates.files("*/specs/**/*.antt") if not it.endswith("/Lib.antt")}
    for path in in_order(definitions, files - listed):
        text = crates.text(path)
        yield f"| {path} | {len(text.splitlines())} | {subject(text)} |"


def refreshed(crates: Crates, page: str) -> str:
    """The page as it should be."""
    definitions = Definitions(crates)
    found = parts(crates, definitions)
    page = between(page, "totals", list(total_rows(definitions, found)))
    start = 1
    for part in found:
        rows = definition_rows(definitions, part, start)
        page = between(page, part.promise.table, rows)
        start += len(rows) - 2
    page = between(page, "views", list(model_rows(crates, found)))
    page = between(page, "states", list(state_rows(crates)))
    page = between(page, "types", list(type_rows(crates, found)))
    page = between(page, "kit", list(kit_rows(found)))
    return between(page, "others", list(other_rows(definitions, found)))


def faults(crates: Crates) -> Iterator[str]:
    """What the tables of the page may lack."""
    yield from Definitions(crates).unknown()
    stated = clauses(crates)
    for promise in PROMISES:
        for label in promise.clauses:
            if label not in stated:
                yield f"{RUN}: `run` has no clause {label}"


def main() -> int:
    parser = argparse.ArgumentParser(
        description=__doc__, formatter_class=argparse.RawDescriptionHelpFormatter
    )
    parser.add_argument("--check", action="store_true", help="write nothing")
    arguments = parser.parse_args()
    crates = Crates(pathlib.Path(__file__).resolve().parent.parent)
    page = crates.text(PAGE)
    found = list(faults(crates))
    wanted = refreshed(crates, page)
    if wanted != page and arguments.check:
        found.append(f"{PAGE} is stale: python3 tools/refresh_reading.py")
    elif wanted != page:
        (crates.root / PAGE).write_text(wanted, encoding="utf-8")
    print(*found, sep="\n", end="\n" if found else "")
    return 1 if found else 0


if __name__ == "__main__":
    sys.exit(main())
