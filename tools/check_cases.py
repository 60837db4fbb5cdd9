#!/usr/bin/env python3
r"""Runs the cases of cases/*.txt over the built program, and compares what it does with them.

    tools/check_cases.py [-k TEXT]

A file begins with '# cases/NAME.txt: SUBJECT'. A case is '== CLAIM' and its parts; several may have
one claim. A part is '-- HEAD' and the lines up to the next that begins with '-- ' or '== '; blank
lines at the end of a case belong to nothing. Lines with '#' above parts and in tables are reasons.

    -- NAME                 a file of this name
    -- out    -- err        the standard output, and the standard error; left out: nothing
    -- status N             how the program ends; left out: 0
    -- words WORD..         left out: run job.spark, and --plan plan.txt where there is that file
    -- more words WORD..    words behind these
    -- left                 what is in folders behind the run, in the order of the paths: a line
                            NAME/ for a folder, NAME = LITERALS for a file; left out: anything
    -- rows NAME | NAME..   a table: each line below is a row, which makes a case

'-- NAME = LITERALS' gives the exact bytes of a file or an output. A literal, as words and names may
be, is "text", or "text"*N for N times that text; several are put together. Escapes are \n \r \t \0
\" \\, a byte \xFF, a character \u{A0}, and in what is repeated \# for its number, from 0 on, \+ for
the next, and \(A,B) for A times the number and B more. So a file of any size stands on one line:
'-- in.txt = "\+\n"*20001' has the lines 1 to 20001, '-- plan.txt = "drop 0 \(7,2)\n"*3' wipes
behind the reports 2, 9 and 16.

In the parts {NAME} stands for the cell of a row, and the last cell takes the rest of the row. Where
its column is called NAME.. it has lines: each ' | ' in it ends one, an empty cell has none, and
{NAME} stands alone on its line. A cell '= LITERALS' is what these say. A cell may have the names of
other cells in it. Several tables make a case for each choice of their rows.

A case runs in a folder of its own, for a minute at most; it has to want an output, an error, a
status or what is left. Its files may be in folders, as '-- out/old' is. Prints what differs and
the counts, and ends with 1 where a case differs or a file hasn't this form. With -k only cases run
whose place and claim have TEXT. The program is that of crates/spark_run/out, or the file SPARK_RUN;
where there is none this says so and ends with 0.
"""
import argparse
import concurrent.futures
import dataclasses
import difflib
import functools
import itertools
import os
import pathlib
import re
import subprocess
import sys
import tempfile
from collections.abc import Iterator

LITERAL = re.compile(rb'"((?:[^"\\]|\\.)*)"(?:\*(\d+))?')
LITERALS = re.compile(rb'(?:"(?:[^"\\]|\\.)*"(?:\*\d+)? *)+')
ESCAPE = re.compile(rb"\\(x([0-9a-fA-F]{2})|u\{([0-9a-fA-F]+)\}|\((\d+),(\d+)\)|.)", re.DOTALL)
NUMBERED = re.compile(rb"\\[#+(]")
ESCAPED = {b"n": b"\n", b"r": b"\r", b"t": b"\t", b"0": b"\0", b'"': b'"', b"\\": b"\\"}
CLAIM = re.compile(rb"== (\w+)")
SETTING = re.compile(rb"-- (status|words|more words|rows|left)(?: (.*))?")
CONTENT = re.compile(rb'-- (?:(out|err)|([^"= ]\S*|"(?:[^"\\]|\\.)*"))(?: = (.*))?')
WORD = re.compile(rb'"(?:[^"\\]|\\.)*"(?:\*\d+)?|\S+')
COLUMNS = re.compile(rb"\w+( \| \w+)*(\.\.)?")
OUTPUTS = (b"out", b"err")
LINED = (b"rows", b"left")
LIMIT, SHOWN = 60, 24


class Malformed(Exception):
    """A file that hasn't the form, told with the line."""


@dataclasses.dataclass
class Part:
    """A part of a case. The head of a file is its name behind '-- '."""

    line: int
    head: bytes
    behind: bytes | None
    lines: list[bytes] = dataclasses.field(default_factory=list)

    def content(self) -> bytes:
        """The content of a file or an output."""
        if self.behind is None or self.head == b"left":
            return b"".join(it + b"\n" for it in self.lines)
        return meant(self.behind)


@dataclasses.dataclass
class Case:
    """A run, and how it is to end."""

    name: str
    words: list[bytes]
    files: dict[bytes, bytes]
    status: int
    wanted: dict[bytes, bytes]
    left: bytes | None = None


def meant(literals: bytes) -> bytes:
    """The bytes that literals stand for."""
    if not LITERALS.fullmatch(literals):
        raise Malformed(f"?: no literals: {literals!r}")
    found = [(text, int(count or 1)) for text, count in LITERAL.findall(literals)]
    return b"".join(repeated(text, count) for text, count in found)


@functools.cache
def repeated(text: bytes, count: int) -> bytes:
    """The text of a literal so many times."""
    if NUMBERED.search(text):
        return b"".join(unescaped(text, number) for number in range(count))
    return unescaped(text, 0) * count


def unescaped(text: bytes, number: int) -> bytes:
    """What the text of a literal means where it stands for the time of this number."""
    known = {**ESCAPED, b"#": b"%d" % number, b"+": b"%d" % (number + 1)}

    def meaning(escape: re.Match[bytes]) -> bytes:
        code, byte, character, step, first = escape.groups()
        if step:
            return b"%d" % (int(step) * number + int(first))
        if byte or character:
            return bytes([int(byte, 16)]) if byte else chr(int(character, 16)).encode()
        if code not in known:
            raise Malformed(f"?: no escape: {escape.group()!r}")
        return known[code]

    return ESCAPE.sub(meaning, text) if b"\\" in text else text


def word_of(written: bytes) -> bytes:
    """A word or a name, which may be written as a literal."""
    return meant(written) if written.startswith(b'"') else written


def part_of(number: int, line: bytes) -> Part:
    """The part that a line begins."""
    setting, content = SETTING.fullmatch(line), CONTENT.fullmatch(line)
    if setting:
        return Part(number, setting.group(1), setting.group(2) or b"")
    if content:
        output, name, literals = content.groups()
        return Part(number, output or b"-- " + word_of(name), literals)
    raise Malformed(f"{number}: begins no part")


def blocks(text: bytes) -> list[tuple[str, int, list[Part]]]:
    """The claims of a file, each with its line and its parts."""
    found: list[tuple[str, int, list[Part]]] = []
    for number, line in enumerate(text.split(b"\n"), 1):
        claim, parts = CLAIM.fullmatch(line), found[-1][2] if found else []
        if claim:
            found.append((claim.group(1).decode(), number, []))
        elif line.startswith(b"-- ") and found:
            parts.append(part_of(number, line))
        elif parts and (parts[-1].head in LINED or parts[-1].behind is None):
            parts[-1].lines.append(line)
        elif line and not line.startswith(b"#"):
            raise Malformed(f"{number}: stands in no part")
    return found


def rows_of(part: Part) -> list[tuple[int, dict[bytes, bytes]]]:
    """The rows of a table: the line of each, and the cell that stands for each mark."""
    if not COLUMNS.fullmatch(part.behind or b""):
        raise Malformed(f"{part.line}: no names of columns")
    columns = (part.behind or b"").split(b" | ")
    marks = [b"{%b}\n" % it[:-2] if it.endswith(b"..") else b"{%b}" % it for it in columns]
    rows = []
    for number, line in enumerate(part.lines, part.line + 1):
        cells = line.split(b" | ", len(columns) - 1)
        if not line or line.startswith(b"#"):
            continue
        if len(cells) != len(columns):
            raise Malformed(f"{number}: has {len(cells)} cells of {len(columns)}")
        if marks[-1].endswith(b"\n") and cells[-1] and not cells[-1].startswith(b'= "'):
            cells[-1] = cells[-1].replace(b" | ", b"\n") + b"\n"
        cells = [meant(it[2:]) if it.startswith(b'= "') else it for it in cells]
        rows.append((number, dict(zip(marks, cells))))
    return rows


def case_of(name: str, parts: list[Part], cells: dict[bytes, bytes], tables: int) -> Case:
    """The case of some parts with these cells."""

    def filled(text: bytes) -> bytes:
        for mark, cell in [*cells.items()] * tables:
            text = text.replace(mark, cell)
        return text

    settings = {it.head: filled(it.behind or b"") for it in parts}
    contents = {it.head: filled(it.content()) for it in parts if it.head[:3] in (*OUTPUTS, b"-- ")}
    files = {head[3:]: content for head, content in contents.items() if head not in OUTPUTS}
    plan = b" --plan plan.txt" if b"plan.txt" in files else b""
    words = settings.get(b"words", b"run job.spark" + plan), settings.get(b"more words", b"")
    found = [word_of(it) for it in WORD.findall(b" ".join(words))]
    wanted = {it: contents.get(it, b"") for it in OUTPUTS}
    left = [filled(it.content()) for it in parts if it.head == b"left"]
    status = int(settings.get(b"status", b"0"))
    return Case(name, found, files, status, wanted, left[0] if left else None)


def cases_of(path: pathlib.Path, folder: str = "cases") -> Iterator[Case]:
    """The cases of a file in a folder of the repository."""
    file = f"{folder}/{path.name}"
    if not (text := path.read_bytes()).startswith(f"# {file}: ".encode()):
        raise Malformed("1: doesn't begin with its subject")
    for claim, line, parts in blocks(text):
        while parts and parts[-1].lines[-1:] == [b""]:
            parts[-1].lines.pop()
        tables = [rows_of(it) for it in parts if it.head == b"rows"]
        heads = [it.head for it in parts if it.head != b"rows"]
        if len(heads) != len(set(heads)) or not all(tables):
            raise Malformed(f"{line}: {claim} has a part twice, or a table without rows")
        if not {*OUTPUTS, b"status", b"left"} & set(heads):
            raise Malformed(f"{line}: {claim} has no expectation")
        for choice in itertools.product(*tables):
            cells = {mark: cell for _, row in choice for mark, cell in row.items()}
            place = "-".join(str(number) for number, _ in choice) or str(line)
            yield case_of(f"{file}:{place}: {claim}", parts, cells, len(tables))


def fill(folder: pathlib.Path, files: dict[bytes, bytes]) -> None:
    """Writes files into a folder, and makes those that they are in."""
    for name, content in files.items():
        path = folder / os.fsdecode(name)
        path.parent.mkdir(parents=True, exist_ok=True)
        path.write_bytes(content)


def left_in(folder: pathlib.Path) -> bytes:
    """What is in the folders of a folder, line by line."""
    lines = []
    for path in sorted(folder.rglob("*")):
        name = os.fsencode(path.relative_to(folder))
        if path.is_dir():
            lines.append(name + b"/\n")
        elif path.parent != folder:
            text = path.read_bytes().replace(b"\\", b"\\\\").replace(b'"', b'\\"')
            lines.append(b'%b = "%b"\n' % (name, text.replace(b"\n", b"\\n")))
    return b"".join(lines)


def differences(program: pathlib.Path, case: Case) -> list[str]:
    """Runs a case: what differs, in lines; where all is as expected, none."""
    with tempfile.TemporaryDirectory() as scratch:
        folder = pathlib.Path(scratch, "here")
        folder.mkdir()
        fill(folder, case.files)
        words = [bytes(program.resolve()), *case.words]
        try:
            ran = subprocess.run(words, cwd=folder, input=b"", capture_output=True, timeout=LIMIT)
        except subprocess.TimeoutExpired:
            return [f"  has no end in {LIMIT} seconds"]
        left = left_in(folder) if case.left is not None else b""
    told = [f"  status {ran.returncode}, not {case.status}"] * (ran.returncode != case.status)
    wanted = {**case.wanted, b"left": case.left or b""}
    for name, came in zip(wanted, (ran.stdout, ran.stderr, left)):
        if came != wanted[name]:
            texts = [it.decode(errors="backslashreplace") for it in (wanted[name], came)]
            lines = difflib.unified_diff(*(it.split("\n") for it in texts), lineterm="", n=1)
            told.append(f"  {name.decode()}: - what was wanted, + what came")
            told += [f"  {it[:120]}" for it in itertools.islice(lines, 2, SHOWN)]
    return told


def main() -> int:
    parser = argparse.ArgumentParser(description="Runs the cases of cases/*.txt.")
    parser.add_argument("-k", metavar="TEXT", default="", help="run only cases that have TEXT")
    arguments = parser.parse_args()
    top = pathlib.Path(__file__).resolve().parent.parent
    program = pathlib.Path(os.environ.get("SPARK_RUN", top / "crates/spark_run/out/spark_run"))
    if not os.access(program, os.X_OK):
        print(f"check_cases: skipped, since {program} isn't built")
        return 0
    cases: list[Case] = []
    faults = 0
    for path in sorted(top.glob("cases/*.txt")):
        try:
            cases += [it for it in cases_of(path) if arguments.k in it.name]
        except (Malformed, ValueError) as fault:
            print(f"cases/{path.name}:{fault}")
            faults += 1
    with concurrent.futures.ThreadPoolExecutor(2 * (os.cpu_count() or 1)) as pool:
        for case, told in zip(cases, pool.map(lambda it: differences(program, it), cases)):
            if told:
                print(case.name, *told, sep="\n")
                faults += 1
    print(f"cases: {len(cases)} run, {faults} not as expected")
    return 1 if faults else 0


if __name__ == "__main__":
    sys.exit(main())
