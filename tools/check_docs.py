#!/usr/bin/env python3
"""Checks that the documents of the repository still agree with its files.

Prints one line a place, 'FILE:LINE: what is wrong', and ends with 1 where it found any:

- a label of a paper (a capital letter and a number) in prose, definitions or comments;
- a code name in backticks in README.md, ARCHITECTURE.md, CONTRIBUTING.md, docs/ or the README.md of
  a crate that no file of the repository has. A name with '_', one in CamelCase and a file .rt,
  .antt or .edit count; in a path, '*' and parts in capitals (crates/NAME/src) stand for anything.
  In the page of a crate a path such as specs/Steps.antt is one of that crate, and a lemma with a
  hyphen counts too;
- a name such as Finding::Gone in a document whose type is there and has no such member;
- a crate of 300 lines of code or more without a README.md, and such a page that doesn't begin with
  the crate's name, has more than 40 lines or one past 100 columns;
- a link in a document to a file or a heading that isn't there;
- a heading of level 2 in docs/GUIDE.md or docs/COOKBOOK.md that the table of contents there lacks,
  or has in another order;
- a block of code whose first line names a file (```rust crates/..) and whose lines don't stand in
  that file, one behind the other; a line '// ..' in the block stands for any number of lines;
- a group or a crate of crates.txt that ARCHITECTURE.md or README.md lacks;
- the word "today" in a document, but for README.md between its marks;
- a line of code, clauses, definitions or proofs past 100 columns, but for imports;
- a release that spark_story prints and that isn't the newest of CHANGELOG.md;
- a name of an operation, an action or a head that sc_mistakes has and sc_script hasn't, or the
  other way round, in its lists of names or in what it says that each takes;
- a history.txt of an example that no test of sc_rows has word for word;
- a word of scripts that sc_script reads and a table of sc_mistakes lacks, or the other way round;
- a place of the worked examples in docs/TESTING.md whose file isn't there or lacks the words that
  are said to stand in it;
- a list in a document that the crates don't bear out: those of docs/READING.md, of docs/TESTING.md
  and of CONTRIBUTING.md. `make docs` brings all of them up to date.
"""
import argparse
import fnmatch
import os
import pathlib
import re
import subprocess
import sys
from collections.abc import Iterator

import refresh_reading
import refresh_testing
import where
from crate_files import Crates
from doc_places import Fault, Files, word_faults, worked_faults

LABEL = re.compile(r"\b(?:[DNSTWRC][0-9]{1,2}|(?:paper|rung|demand|request) [0-9]{1,2})\b")
CODE_SPAN = re.compile(r"`([^`\n]+)`")
HEX_WORD = r"(?:0x)?[0-9A-Fa-f]{2,}"
HEXADECIMAL = re.compile(rf"\s*(?:{HEX_WORD}(?:[\s,]+{HEX_WORD})+|(?:0x)?[0-9A-Fa-f]{{4,}})\s*")
WORD = re.compile(r"[A-Za-z_][A-Za-z0-9_]*")
CODE_WORD = re.compile(r"[A-Za-z0-9_.+*/-]*\.(?:rt|antt|edit)\b|[A-Za-z_][A-Za-z0-9_]*")
CAMEL_CASE = re.compile(r"[A-Z][A-Za-z0-9]*[a-z0-9][A-Z][A-Za-z0-9]*|[A-Z]{2,}[a-z][A-Za-z0-9]*")
IMPORT = re.compile(r"\s*(?:pub )?(?:ghost )?use ")
TODAY = re.compile(r"\btoday\b", re.IGNORECASE)
TODAY_MARKS = ("<!-- today -->", "<!-- end of today -->")
PROSE_SUFFIXES = {".md", ".edit", ".py", ".sh"}
COMMENT_MARKS = {".rt": "//", ".antt": "--"}
FILE_SUFFIXES = (".rt", ".antt", ".edit")
TOP_DOCUMENTS = ("README.md", "ARCHITECTURE.md", "CONTRIBUTING.md")
CRATE_PAGE = re.compile(r"crates/([^/]+)/README\.md")
CRATE_PATH = re.compile(r"(?:src|specs|proofs|must-fail)/\S+")
DECLARED = re.compile(
    r"^(?:pub )?(?:(?:enum|struct|trait) (\w+)|impl\b[^{\n]*?\b(\w+)(?:<[^{\n]*>)? \{)",
    re.MULTILINE,
)
MEMBER = re.compile(r"\b([A-Z]\w*)::(\w+)")
HYPHENED = re.compile(r"\w+(?:-\w+)+")
LINK = re.compile(r"\]\(([^)\s]+)\)")
HEADING = re.compile(r"#+ (.*)")
QUOTE = re.compile(r"```\w+ (crates/\S+)")
LEFT_OUT = "// .."
RELEASE = re.compile(r'const RELEASE: &str = "([^"]*)";')
NEWEST = re.compile(r"^## \[(\d[^\]]*)\]", re.MULTILINE)
RELEASE_PAGE = "crates/sc_misuse/src/help.rt"
CONTENTS_PAGES = ("docs/GUIDE.md", "docs/COOKBOOK.md")
CODE_LINES = 300
PAGE_LINES = 40
COLUMNS = 100


def file_names(root: pathlib.Path) -> list[str]:
    """The paths of the files that git tracks or would add; of all files where there is no git."""
    command = ["git", "ls-files", "-co", "--exclude-standard"]
    try:
        listed = subprocess.run(command, cwd=root, capture_output=True, text=True, check=True)
        return [name for name in listed.stdout.splitlines() if (root / name).is_file()]
    except (OSError, subprocess.CalledProcessError):
        names = []
        for folder, folders, files in os.walk(root):
            folders[:] = [name for name in folders if name not in {"out", ".git"}]
            names += [(pathlib.Path(folder) / name).relative_to(root).as_posix() for name in files]
        return sorted(names)


def read_files(root: pathlib.Path) -> Files:
    """The files that are text, by their paths."""
    files = {}
    for name in file_names(root):
        try:
            files[name] = (root / name).read_text(encoding="utf-8")
        except (UnicodeDecodeError, OSError):
            continue
    return files


def is_document(name: str) -> bool:
    return (
        name in TOP_DOCUMENTS
        or (name.startswith("docs/") and name.endswith(".md"))
        or CRATE_PAGE.fullmatch(name) is not None
    )


def documents(files: Files) -> Iterator[tuple[str, str]]:
    """The documents of the repository, with those of its crates."""
    yield from ((name, text) for name, text in files.items() if is_document(name))


def prose(text: str) -> Iterator[tuple[int, str]]:
    """The numbered lines of a document outside its blocks of code."""
    fenced = False
    for number, line in enumerate(text.splitlines(), 1):
        if line.lstrip().startswith("```"):
            fenced = not fenced
        elif not fenced:
            yield number, line


def without_hexadecimal(line: str) -> str:
    """A line of prose without the code spans that hold bytes or hashes alone."""
    return CODE_SPAN.sub(lambda m: "" if HEXADECIMAL.fullmatch(m.group(1)) else m.group(0), line)


def prose_lines(name: str, text: str) -> Iterator[tuple[int, str]]:
    """The numbered lines of a file that are prose: all of a document, the comments of code."""
    suffix = pathlib.PurePosixPath(name).suffix
    is_specs = "specs" in pathlib.PurePosixPath(name).parts
    fenced = False
    for number, line in enumerate(text.splitlines(), 1):
        if suffix in COMMENT_MARKS and not is_specs:
            _, mark, line = line.partition(COMMENT_MARKS[suffix])
            if not mark:
                continue
        elif suffix == ".md" and line.lstrip().startswith("```"):
            fenced = not fenced
        elif fenced and HEXADECIMAL.fullmatch(line):
            continue
        yield number, without_hexadecimal(line)


def label_faults(files: Files) -> Iterator[Fault]:
    for name, text in files.items():
        suffix = pathlib.PurePosixPath(name).suffix
        if suffix in PROSE_SUFFIXES or suffix in COMMENT_MARKS or name == "crates.txt":
            for number, line in prose_lines(name, text):
                for hit in LABEL.finditer(line):
                    yield name, number, f"cites a paper by its label, {hit.group(0)}"


def is_ours(word: str) -> bool:
    """Whether a word of a code span looks like a name or a file of the repository."""
    return (
        word.endswith(FILE_SUFFIXES)
        or "_" in word.strip("_")
        or CAMEL_CASE.fullmatch(word) is not None
    )


def is_known(word: str, words: set[str], names: list[str]) -> bool:
    if not word.endswith(FILE_SUFFIXES):
        return word in words
    stem, dot, suffix = word.rpartition(".")
    parts = ["*" if re.fullmatch(r"[A-Z]{2,}", part) else part for part in stem.split("/")]
    pattern = "/".join(parts).lstrip("*/") + dot + suffix
    if pattern.startswith("."):
        return True
    return any(fnmatch.fnmatchcase("/" + name, "*/" + pattern) for name in names)


def name_faults(files: Files) -> Iterator[Fault]:
    words: set[str] = set()
    for name, text in files.items():
        words.update(WORD.findall(name))
        if not name.endswith(".md"):
            words.update(WORD.findall(text))
    for name, text in documents(files):
        for number, line in prose(text):
            for span in CODE_SPAN.findall(line):
                for word in CODE_WORD.findall(span):
                    if is_ours(word) and not is_known(word, words, list(files)):
                        yield name, number, f"no file has the name {word}"


def member_faults(files: Files) -> Iterator[Fault]:
    """Types of the program that have no variant, field or function of the name that is said."""
    members: dict[str, set[str]] = {}
    for name, text in files.items():
        if name.endswith(".rt"):
            words = set(WORD.findall("".join(re.findall(r"^\s.*\n", text, re.MULTILINE))))
            for kind in {word for declared in DECLARED.findall(text) for word in declared}:
                members.setdefault(kind, set()).update(words)
    for name, text in documents(files):
        for number, line in prose(text):
            for span in CODE_SPAN.findall(line):
                for kind, member in MEMBER.findall(span):
                    if kind in members and member not in members[kind]:
                        yield name, number, f"{kind} has no {member}"


def crate_pages(files: Files) -> Iterator[tuple[str, str, str]]:
    """The pages of crates: the crate, the path, the text."""
    for name, text in files.items():
        page = CRATE_PAGE.fullmatch(name)
        if page:
            yield page.group(1), name, text


def own_name_faults(files: Files) -> Iterator[Fault]:
    for crate, name, text in crate_pages(files):
        folder = f"crates/{crate}/"
        own = [it for path, it in files.items() if path.startswith(folder) and path != name]
        for number, line in prose(text):
            for span in CODE_SPAN.findall(line):
                if CRATE_PATH.fullmatch(span) and folder + span not in files:
                    yield name, number, f"{crate} has no file {span}"
                if HYPHENED.fullmatch(span) and not any(span in it for it in own):
                    yield name, number, f"no file of {crate} has the name {span}"


def page_faults(files: Files) -> Iterator[Fault]:
    code: dict[str, int] = {}
    for name, text in files.items():
        parts = name.split("/")
        if parts[0] == "crates" and parts[2:3] == ["src"] and name.endswith(".rt"):
            code[parts[1]] = code.get(parts[1], 0) + len(text.splitlines())
    for crate, lines in code.items():
        if lines >= CODE_LINES and f"crates/{crate}/README.md" not in files:
            yield f"crates/{crate}", 1, f"has {lines} lines of code, and no README.md"
    for crate, name, text in crate_pages(files):
        lines = text.splitlines()
        if lines[:1] != [f"# {crate}"]:
            yield name, 1, f"doesn't begin with '# {crate}'"
        if len(lines) > PAGE_LINES:
            yield name, PAGE_LINES + 1, f"has {len(lines)} lines, more than {PAGE_LINES}"
        for number, line in enumerate(lines, 1):
            if len(line) > COLUMNS:
                yield name, number, f"has {len(line)} columns"


def anchor(heading: str) -> str:
    """The anchor that a heading of this text has where Markdown is shown."""
    kept = re.sub(r"[^\w\- ]", "", heading.strip().lower())
    return kept.replace(" ", "-")


def anchors(text: str) -> set[str]:
    """The anchors of a document's headings."""
    found = (HEADING.match(line) for _, line in prose(text))
    return {anchor(it.group(1)) for it in found if it}


def link_faults(files: Files) -> Iterator[Fault]:
    for name, text in documents(files):
        folder = pathlib.PurePosixPath(name).parent
        for number, line in prose(text):
            for target in LINK.findall(line):
                if "://" in target:
                    continue
                path, _, heading = target.partition("#")
                page = os.path.normpath(folder / path) if path else name
                there = page in files or any(it.startswith(f"{page}/") for it in files)
                if not there:
                    yield name, number, f"links to {path}, which isn't there"
                elif heading and heading not in anchors(files.get(page, "")):
                    yield name, number, f"links to a heading that {page} hasn't, {heading}"


def contents_faults(files: Files) -> Iterator[Fault]:
    for page in CONTENTS_PAGES:
        lines = [line for _, line in prose(files.get(page, ""))]
        wanted = [f"- [{it[3:]}](#{anchor(it[3:])})" for it in lines if it.startswith("## ")]
        listed = [it for it in lines if it.startswith("- [") and "](#" in it]
        for want in wanted:
            if want not in listed:
                yield page, 1, f"the table of contents lacks {want}"
        if sorted(wanted) == sorted(listed) and wanted != listed:
            yield page, 1, "the table of contents has another order"
        for it in listed:
            if it not in wanted:
                yield page, 1, f"the table of contents has a line too many, {it}"


def runs_of(block: list[str]) -> Iterator[list[str]]:
    """The parts of a quoted block between the lines that stand for others."""
    run: list[str] = []
    for line in [*block, LEFT_OUT]:
        if line != LEFT_OUT:
            run.append(line)
        elif run:
            yield run
            run = []


def stands_in(block: list[str], lines: list[str]) -> bool:
    """Whether the parts of a block stand in a file, in order and each without a gap."""
    begin = 0
    for run in runs_of(block):
        ends = range(begin + len(run), len(lines) + 1)
        end = next((end for end in ends if lines[end - len(run) : end] == run), None)
        if end is None:
            return False
        begin = end
    return True


def quote_faults(files: Files) -> Iterator[Fault]:
    for name, text in documents(files):
        quoted, begun, block = "", 0, list[str]()
        for number, line in enumerate(text.splitlines(), 1):
            if quoted and line.startswith("```"):
                lines = [it.strip() for it in files.get(quoted, "").splitlines()]
                if not stands_in(block, lines):
                    yield name, begun, f"the block isn't what {quoted} has"
                quoted = ""
            elif quoted:
                block.append(line.strip())
            elif found := QUOTE.fullmatch(line):
                quoted, begun, block = found.group(1), number, []


def groups(text: str) -> Iterator[tuple[str, list[str]]]:
    """The groups of crates.txt, with their crates."""
    group, crates = "", []
    for line in [*text.splitlines(), "# "]:
        heading = line.startswith("#")
        if heading and crates:
            yield group, crates
            crates = []
        if heading:
            group = line.removeprefix("#").strip()
        elif line.strip():
            crates.append(line.partition(":")[0].split()[0])


def crate_faults(files: Files) -> Iterator[Fault]:
    for page in ("ARCHITECTURE.md", "README.md"):
        for group, crates in groups(files.get("crates.txt", "")):
            row = f"| {group} | {', '.join(f'`{it}`' for it in crates)} |"
            if row not in files.get(page, ""):
                yield page, 1, f"no row begins {row}"
    named = set(WORD.findall(files.get("ARCHITECTURE.md", "").partition("| program |")[2]))
    for _, crates in groups(files.get("crates.txt", "")):
        for crate in crates:
            if crate not in named:
                yield "ARCHITECTURE.md", 1, f"nothing is said of the crate {crate}"


def today_faults(files: Files) -> Iterator[Fault]:
    for name, text in documents(files):
        marked = False
        for number, line in enumerate(text.splitlines(), 1):
            if line in TODAY_MARKS:
                marked = name == "README.md" and line == TODAY_MARKS[0]
            elif TODAY.search(line) and not marked:
                yield name, number, 'says "today" outside the marks of README.md'


def column_faults(files: Files) -> Iterator[Fault]:
    for name, text in files.items():
        if name.startswith("crates/") and name.endswith((".rt", ".antt")):
            for number, line in enumerate(text.splitlines(), 1):
                if len(line) > COLUMNS and not IMPORT.match(line):
                    yield name, number, f"has {len(line)} columns"


def release_faults(files: Files) -> Iterator[Fault]:
    printed = RELEASE.search(files.get(RELEASE_PAGE, ""))
    newest = NEWEST.search(files.get("CHANGELOG.md", ""))
    if not printed or not newest or printed.group(1) != newest.group(1):
        yield RELEASE_PAGE, 1, "prints another release than the newest of CHANGELOG.md"


def history_faults(files: Files) -> Iterator[Fault]:
    tests = [text for name, text in files.items() if name.startswith("crates/sc_rows/src/")]
    for name, text in files.items():
        if name.startswith("examples/") and name.endswith("/history.txt"):
            if not any(text in test for test in tests):
                yield name, 1, "is no text of a test of sc_rows"


def list_faults(crates: Crates) -> Iterator[Fault]:
    reading = crates.text(refresh_reading.PAGE)
    for fault in refresh_reading.faults(crates):
        yield refresh_reading.PAGE, 1, fault
    edits: list[str] = []
    testing = crates.text(refresh_testing.PAGE)
    tested = refresh_testing.refreshed(crates, testing, edits)
    for fault in edits:
        yield fault.partition(":")[0], 1, fault.partition(": ")[2]
    contributing = crates.text("CONTRIBUTING.md")
    stale = (
        (refresh_reading.PAGE, reading, refresh_reading.refreshed(crates, reading)),
        (refresh_testing.PAGE, testing, tested),
        ("CONTRIBUTING.md", contributing, where.refreshed(crates, contributing)),
    )
    for page, has, wants in stale:
        if has != wants:
            yield page, first_difference(has, wants), "is stale: make docs"


def first_difference(text: str, other: str) -> int:
    """The number of the first line in which two texts differ."""
    lines, others = text.splitlines(), other.splitlines()
    pairs = enumerate(zip(lines, others), 1)
    return next((number for number, (a, b) in pairs if a != b), min(len(lines), len(others)) + 1)


def main() -> int:
    parser = argparse.ArgumentParser(
        description=__doc__, formatter_class=argparse.RawDescriptionHelpFormatter
    )
    here = pathlib.Path(__file__).resolve().parent.parent
    parser.add_argument("root", nargs="?", type=pathlib.Path, default=here, help="the repository")
    root = parser.parse_args().root.resolve()
    files = read_files(root)
    of_files = (
        label_faults,
        name_faults,
        member_faults,
        own_name_faults,
        page_faults,
        link_faults,
        contents_faults,
        quote_faults,
        crate_faults,
        today_faults,
        column_faults,
        release_faults,
        history_faults,
        worked_faults,
        word_faults,
    )
    found = [fault for faults in of_files for fault in faults(files)]
    found += list_faults(Crates(root))
    for name, number, fault in found:
        print(f"{name}:{number}: {fault}")
    return 1 if found else 0


if __name__ == "__main__":
    sys.exit(main())
