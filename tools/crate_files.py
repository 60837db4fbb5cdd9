"""What the tools know of the crates: which stand on which, and how a type is declared."""
import dataclasses
import functools
import pathlib
import re
from collections.abc import Iterator

CAPITAL = re.compile(r"\b[A-Z]\w*")
COMMENT = re.compile(r"//.*")
RUST_USE = re.compile(r"^\s*(?:pub )?use (crate|\w+)((?:::\w+)*)(?:::\{([^}]*)\})?;", re.MULTILINE)
VISIBLE = r"(?:pub(?:\([^)]*\))? )?"


@dataclasses.dataclass(frozen=True, order=True)
class Declared:
    """A type of the program that definitions cite."""

    path: str
    name: str


class Crates:
    """The crates of a repository."""

    def __init__(self, root: pathlib.Path) -> None:
        self.root = root
        lines = (root / "crates.txt").read_text(encoding="utf-8").splitlines()
        self.names = [it.split()[0].rstrip(":") for it in lines if it.strip() and it[0] != "#"]
        self.text = functools.cache(self._text)

    def dependencies(self) -> dict[str, list[str]]:
        """The crates of the repository that each crate stands on directly."""
        lines = [it for it in self.text("crates.txt").splitlines() if it.strip() and it[0] != "#"]
        split = [it.partition(":") for it in lines]
        own = {*self.names}
        return {it[0].split()[0]: [dep for dep in it[2].split() if dep in own] for it in split}

    def longest_chain(self, cost: dict[str, float]) -> list[str]:
        """The chain of crates, each on the one before, whose costs have the highest sum."""
        below, chains = self.dependencies(), dict[str, list[str]]()

        def total(chain: list[str]) -> float:
            return sum(cost.get(it, 0) for it in chain)

        def chain_to(crate: str) -> list[str]:
            if crate not in chains:
                chains[crate] = max(map(chain_to, below[crate]), key=total, default=[]) + [crate]
            return chains[crate]

        return max(map(chain_to, below), key=total)

    def _text(self, path: str) -> str:
        file = self.root / path
        return file.read_text(encoding="utf-8") if file.is_file() else ""

    def files(self, pattern: str) -> list[str]:
        """The paths of the files that fit a pattern, such as 'sc_app/src/**/*.rt', in order."""
        found = sorted((self.root / "crates").glob(pattern))
        return [it.relative_to(self.root).as_posix() for it in found if it.is_file()]

    def block(self, path: str, pattern: str) -> str:
        """The text from what a pattern finds in a file to the brace that closes it."""
        text = self.text(path)
        start = re.search(pattern, text, re.MULTILINE)
        depth = 0
        for place in range(start.start() if start else len(text), len(text)):
            depth += (text[place] == "{") - (text[place] == "}")
            if text[place] in ";}" and depth == 0:
                return text[start.start() : place + 1]
        return ""

    def declaration(self, it: Declared) -> str:
        """The struct or enum as it is written; the empty text where the file has none."""
        return self.block(it.path, rf"^{VISIBLE}(?:struct|enum) {it.name}\b")

    def model(self, it: Declared) -> str:
        """The impl of Model of a type; the empty text where it has none."""
        return self.block(it.path, rf"^impl(?:<[^{{]*>)? Model for {it.name}\b")

    def types_in(self, it: Declared) -> Iterator[Declared]:
        """The types of the repository that a declaration mentions."""
        body = COMMENT.sub("", self.declaration(it)).partition("{")[2]
        for name in sorted(set(CAPITAL.findall(body)) - {it.name}):
            yield from self._resolved(it.path, name)

    def _resolved(self, path: str, name: str) -> Iterator[Declared]:
        """The type that a name stands for in a file, where it is one of the repository's."""
        if self.declaration(Declared(path, name)):
            yield Declared(path, name)
            return
        crate = path.split("/")[1]
        for base, modules, names in RUST_USE.findall(self.text(path)):
            listed = {it.strip() for it in names.split(",")}
            if name in listed or modules.endswith(f"::{name}"):
                for file in self.files(f"{crate if base == 'crate' else base}/src/**/*.rt"):
                    if self.declaration(Declared(file, name)):
                        yield Declared(file, name)
                        return


def ghost_member(block: str, member: str) -> str:
    """The text of a ghost member of an impl, on one line."""
    found = re.search(rf"ghost {member}(?: =|:) \{{(.*?)\}};", block, re.DOTALL)
    return " ".join(found.group(1).split()) if found else ""


def between(page: str, name: str, lines: list[str]) -> str:
    """A page with these lines between the two marks of a name."""
    begin, end = f"<!-- {name} -->", f"<!-- end of {name} -->"
    head, found, rest = page.partition(begin)
    _, closed, tail = rest.partition(end)
    if not (found and closed):
        raise ValueError(f"the page lacks the marks {begin} and {end}")
    return "\n".join([head + begin, "", *lines, "", end + tail])
