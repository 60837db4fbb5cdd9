"""Places that must be there: those that docs/TESTING.md names for the worked examples, and the
words of scripts where sc_mistakes has them once more. tools/check_docs.py calls this.
"""
import re
from collections.abc import Iterator

TEXT = re.compile(r'"([^"]*)"')
TESTING = "docs/TESTING.md"
WORKED_MARKS = ("<!-- worked -->", "<!-- end of worked -->")
WORKED_FOLDER = "crates/sc_rows/src/"
WORKED_PLACE = re.compile(r"`([^`]+)`: `([^`]+)`")
# The words of scripts: the function of sc_script that reads them, and the list and the function of
# sc_mistakes that have them.
READ_WORDS = "crates/sc_script/src/tables.rt"
TOLD_WORDS = "crates/sc_mistakes/src/tables.rt"
WORD_TABLES = (
    ("operation_named", "OPERATIONS", "operation_wants"),
    ("action_named", "ACTIONS", "action_wants"),
    ("head_of_word", "HEADS", "head_wants"),
    ("head_of_sign", "SIGNS", "head_wants"),
)

# A place in a file: its path, the number of the line, and what is wrong there.
Fault = tuple[str, int, str]
# The files that are text, by their paths.
Files = dict[str, str]


def worked_rows(page: str) -> Iterator[tuple[int, str]]:
    """The numbered rows of the table of worked examples, but for its heading."""
    lines = page.splitlines()
    first, last = (lines.index(mark) if mark in lines else 0 for mark in WORKED_MARKS)
    rows = [(number, lines[number - 1]) for number in range(first + 1, last + 1)]
    yield from [(number, line) for number, line in rows if line.startswith("|")][2:]


def worked_faults(files: Files) -> Iterator[Fault]:
    found = 0
    for number, row in worked_rows(files.get(TESTING, "")):
        places = WORKED_PLACE.findall(row.rsplit(" | ", 1)[-1])
        found += len(places)
        for name, words in places:
            path = name if "/" in name else WORKED_FOLDER + name
            if words not in files.get(path, ""):
                yield TESTING, number, f"{path} isn't there or lacks {words}"
        if not places:
            yield TESTING, number, "a worked example without a place"
    if not found:
        yield TESTING, 1, "no worked examples are found"


def words_between(text: str, begin: str, end: str) -> set[str]:
    """The words of all texts in a part of a file of code."""
    part = text.partition(begin)[2].partition(end)[0]
    return {word for it in TEXT.findall(part) for word in it.replace("\\\n", " ").split()}


def word_faults(files: Files) -> Iterator[Fault]:
    read, told = files.get(READ_WORDS, ""), files.get(TOLD_WORDS, "")
    for reader, listed, wants in WORD_TABLES:
        words = words_between(read, f"fn {reader}(", "\n}")
        has = words_between(told, f"const {listed}: ", ";\n")
        known = words_between(told, f"fn {wants}(", "\n}")
        for word in sorted(words ^ has):
            yield TOLD_WORDS, 1, f"{listed} and {reader} of sc_script differ in {word}"
        for word in sorted(words - known):
            yield TOLD_WORDS, 1, f"{wants} lacks {word}"
        if not words:
            yield READ_WORDS, 1, f"no words are found in {reader}"
