#!/usr/bin/env python3
"""Lists the files of the crates that name a variant or a word: what a chore has to touch.

    tools/where.py Head::Concat            where the variant Concat of the enum Head is named
    tools/where.py text_node Node::Text    where a plain word or the variant is named
    tools/where.py --refresh FILE..        rewrites the lists that stand in documents

A variant is found by its own name in Rust (Head::Concat), and in definitions and proofs by the
name under which a file brings the variants of its enum in. Prints a line for each crate, lowest
first, and ends with 1 where no file has any of the names.

A list in a document is a block of code whose first line is '$ tools/where.py NAME..'.
"""
import argparse
import pathlib
import re
import sys
import textwrap
from collections.abc import Iterator

from crate_files import Crates

SUFFIXES = (".rt", ".antt", ".edit")
COMMAND = "$ tools/where.py "
WIDTH = 96
NAME_WIDTH = 12


def sources(crates: Crates, crate: str) -> Iterator[str]:
    """The files of a crate that people write, definitions first."""
    for folder in ("specs", "src", "proofs", "must-fail"):
        for path in crates.files(f"{crate}/{folder}/**/*"):
            if path.endswith(SUFFIXES):
                yield path


def variant_pattern(text: str, kind: str, variant: str) -> re.Pattern[str]:
    """How a file of this text may name a variant of an enum."""
    whole = re.escape(variant) + r"\b"
    ways = [rf"\b{kind}(?:-F)?(?:::|\.){whole}", rf"\b{kind}\.TheVariants\.\{{[^}}]*\b{whole}"]
    for alias in re.findall(rf"\b{kind}\.TheVariants as (\w+)", text):
        ways.append(rf"\b{alias}\.{whole}")
    if re.search(rf"\benum {kind}\b", text):
        ways.append(rf"^\s+{whole}(?=[,({{ ]|$)")
    return re.compile("|".join(ways), re.MULTILINE)


def names(text: str, name: str) -> bool:
    """Whether a text has the name."""
    kind, is_variant, variant = name.partition("::")
    if is_variant:
        return variant_pattern(text, re.escape(kind), variant).search(text) is not None
    return re.search(rf"(?<![\w-]){re.escape(name)}(?![\w-])", text) is not None


def listing(crates: Crates, wanted: list[str]) -> list[str]:
    """The lines that this program prints for some names."""
    lines = []
    for crate in crates.names:
        files = sources(crates, crate)
        found = [it for it in files if any(names(crates.text(it), name) for name in wanted)]
        lines += textwrap.wrap(
            " ".join(it.removeprefix(f"crates/{crate}/") for it in found),
            WIDTH,
            initial_indent=crate.ljust(NAME_WIDTH),
            subsequent_indent=" " * NAME_WIDTH,
            break_long_words=False,
            break_on_hyphens=False,
        )
    return lines


def refreshed(crates: Crates, text: str) -> str:
    """A document with its lists as they are now."""
    lines, skipping = [], False
    for line in text.splitlines():
        if line.startswith(("```", COMMAND)):
            skipping = False
        if not skipping:
            lines.append(line)
        if line.startswith(COMMAND):
            lines += listing(crates, line.removeprefix(COMMAND).split())
            skipping = True
    return "\n".join(lines) + "\n"


def main() -> int:
    parser = argparse.ArgumentParser(
        description=__doc__, formatter_class=argparse.RawDescriptionHelpFormatter
    )
    parser.add_argument("names", nargs="*", metavar="NAME", help="TYPE::VARIANT or a word")
    parser.add_argument("--refresh", nargs="+", type=pathlib.Path, metavar="FILE")
    arguments = parser.parse_args()
    crates = Crates(pathlib.Path(__file__).resolve().parent.parent)
    for page in arguments.refresh or []:
        page.write_text(refreshed(crates, page.read_text(encoding="utf-8")), encoding="utf-8")
    if arguments.refresh:
        return 0
    lines = listing(crates, arguments.names)
    print(*lines, sep="\n", end="\n" if lines else "")
    return 0 if lines else 1


if __name__ == "__main__":
    sys.exit(main())
