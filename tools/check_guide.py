#!/usr/bin/env python3
"""Runs the examples of README.md, docs/GUIDE.md, docs/COOKBOOK.md and docs/FORMATS.md, and compares
what they print with what the pages say.

    tools/check_guide.py [PAGE..]

In each part of the page, from one heading to the next, a block ```text NAME is a file, and in a
block ```console each line '$ COMMAND' is run by bash in a folder that has these files, with
spark_run and spark_story on its path; the lines below it are its output and its errors. A line
'$ cat NAME' of a file that isn't there makes it of the lines below.

A row of a table | expression | x | prints | is a script of its own: the expression over one row.
Its last cell is the printed text, 'raises' and the raise, or 'refused' and the kind of the fault. A
row of a table | Script | Fault | has the lines of a script, and its fault as 'line 2, `Twice`'; 'a
blank line' stands for one, and rows that begin otherwise are told in words and not run.

Prints a line for each place that differs, and ends with 1 where one does. The programs are
crates/spark_run/out/spark_run and crates/spark_story/out/spark_story, or files of these names that
SPARK_RUN and SPARK_STORY name; where one isn't there it says so and ends with 0.
"""
import os
import pathlib
import re
import subprocess
import sys
import tempfile
from collections.abc import Iterator

HEADING = re.compile(r"#+ ")
BLOCK = re.compile(r"```(\w+) ?(\S*)$")
TABLE = "| expression | x | prints |"
FAULT_TABLE = "| Script | Fault |"
FAULT_ROW = re.compile(r"\| (`.*`) \| line (\d+), `(\w+)`")
CAT = re.compile(r"\$ cat (\S+)$")
CELL = re.compile(r"`([^`]*)`")
VARIABLE = re.compile(r"\bx\b(?=[ )]|$)")
PAGES = ("README.md", "docs/GUIDE.md", "docs/COOKBOOK.md", "docs/FORMATS.md")
LIMIT = 60


class Page:
    """A page that is being checked."""

    def __init__(self, path: pathlib.Path, folders: list[pathlib.Path]) -> None:
        self.lines = path.read_text(encoding="utf-8").splitlines()
        self.folders = folders
        self.checked = 0

    def run(self, folder: str, command: str) -> tuple[int, str]:
        """The status of a command, and what it printed on both outputs."""
        paths = os.pathsep.join([*map(str, self.folders), os.environ["PATH"]])
        ran = subprocess.run(
            ["bash", "-c", command],
            cwd=folder,
            env={**os.environ, "PATH": paths},
            stdin=subprocess.DEVNULL,
            stdout=subprocess.PIPE,
            stderr=subprocess.STDOUT,
            timeout=LIMIT,
            check=False,
        )
        self.checked += 1
        return ran.returncode, ran.stdout.decode(errors="replace")

    def faults(self) -> Iterator[tuple[int, str]]:
        """The numbers of the lines that are wrong, each with what is wrong there."""
        with tempfile.TemporaryDirectory() as scratch:
            folder, number = scratch, 0
            while number < len(self.lines):
                line = self.lines[number]
                block = BLOCK.match(line)
                if HEADING.match(line):
                    folder = tempfile.mkdtemp(dir=scratch)
                if block:
                    end = self.lines.index("```", number + 1)
                    yield from self.block_faults(folder, block, number + 1, end)
                    number = end
                elif line in (TABLE, FAULT_TABLE):
                    check = self.row_faults if line == TABLE else self.fault_faults
                    number += 2
                    while number < len(self.lines) and self.lines[number].startswith("|"):
                        yield from check(scratch, number)
                        number += 1
                number += 1

    def block_faults(
        self, folder: str, block: re.Match[str], start: int, end: int
    ) -> Iterator[tuple[int, str]]:
        kind, name = block.groups()
        body = self.lines[start:end]
        if kind == "text" and name:
            pathlib.Path(folder, name).write_text("".join(f"{it}\n" for it in body))
        while kind == "console" and body:
            following = [place for place, it in enumerate(body[1:], 1) if it.startswith("$ ")]
            stop = following[0] if following else len(body)
            wanted = "".join(f"{it}\n" for it in body[1:stop])
            shown = CAT.match(body[0])
            if shown and not pathlib.Path(folder, shown.group(1)).exists():
                pathlib.Path(folder, shown.group(1)).write_text(wanted)
            _, printed = self.run(folder, body[0].removeprefix("$ "))
            if printed != wanted:
                yield start + 1, f"prints {printed!r}"
            start, body = start + stop, body[stop:]

    def row_faults(self, folder: str, number: int) -> Iterator[tuple[int, str]]:
        cells = [it.strip() for it in self.lines[number].strip("|").split(" | ")]
        if len(cells) != 3 or not all(map(CELL.search, cells)):
            yield number + 1, "has no expression, x and result"
            return
        expression, row, result = (CELL.search(it).group(1) for it in cells)
        script = f"l = parallelize 1 {row}\nm = map l {expression}\ncollect m\n"
        status, printed = self.run_script(folder, script)
        if cells[2].startswith("raises"):
            at_driver = VARIABLE.sub("a", expression)
            fold = f'(if (== (text {at_driver}) "") a b)'
            script = f"l = parallelize 2 {row} {row}\nreduce l {fold}\n"
            _, told = self.run_script(folder, script)
            is_right = status == 6 and told == f"driver: action 0: {result}\n"
            printed += told
        elif cells[2].startswith("refused"):
            is_right = printed == f"script: line 2: {result}\n"
        else:
            is_right = status == 0 and printed == f"{result}\n"
        if not is_right:
            yield number + 1, f"prints {printed!r}"

    def fault_faults(self, folder: str, number: int) -> Iterator[tuple[int, str]]:
        row = FAULT_ROW.match(self.lines[number])
        if row is None:
            return
        cell, at, kind = row.groups()
        script = "".join(f"{it}\n" for it in CELL.findall(cell.replace("a blank line", "``")))
        _, printed = self.run_script(folder, script)
        if printed != f"script: line {at}: {kind}\n":
            yield number + 1, f"prints {printed!r}"

    def run_script(self, folder: str, script: str) -> tuple[int, str]:
        pathlib.Path(folder, "row.spark").write_text(script)
        return self.run(folder, "spark_run run row.spark")


def built(top: pathlib.Path, name: str) -> pathlib.Path:
    """The program of a name: the built one, or the one that a variable such as SPARK_RUN names."""
    return pathlib.Path(os.environ.get(name.upper(), top / f"crates/{name}/out/{name}")).resolve()


def main() -> int:
    top = pathlib.Path(__file__).resolve().parent.parent
    paths = [pathlib.Path(it) for it in sys.argv[1:]]
    paths = paths or [top / name for name in PAGES]
    programs = [built(top, "spark_run"), built(top, "spark_story")]
    for program in programs:
        if not os.access(program, os.X_OK):
            print(f"check_guide: skipped, since {program} isn't built")
            return 0
    result = 0
    for path in paths:
        page = Page(path, [program.parent for program in programs])
        found = list(page.faults())
        for number, fault in found:
            print(f"{path}:{number}: {fault}")
            result = 1
        print(f"{path.name}: {page.checked} runs, {len(found)} not as expected")
    return result


if __name__ == "__main__":
    sys.exit(main())
