"""The definitions of the crates' specs, and which of them a text rests on, by the names it cites.

A definition is an abbreviation, a record, a family of data, or a name with its signature. What it
cites is found by the words of its text: those that its file defines or brings in by its `use`
lines. A word doesn't count where it is the name of a field or is bound there, as a parameter is.
"""
import dataclasses
import functools
import re
from collections.abc import Collection, Iterator

from crate_files import Crates, Declared, ghost_member

USE = re.compile(r"\buse\s+([\w.]+?)(?:\.\{([^}]*)\}| as (\S+?))?;?$", re.MULTILINE)
OPENING = re.compile(r"^(?:abbrev mutual|mutual|module _ .*where)$")
KEYWORDS = re.compile(r"(?:(?:unfoldable|abbrev|pub|record|data) )*")
NAME = re.compile(r"[^\s(){};,.]+")
OTHER = re.compile(r"use |pub mod |mod ")
COMMENT = re.compile(r"(?:^|(?<=\s))(?:--|//).*")
STRING = re.compile(r'"(?:[^"\\]|\\.)*"')
BINDER = re.compile(r"[({]([^(){}:;=,]+) :")
LAMBDA = re.compile(r"λ ((?:[^.=]|\.\d)*)\.(?=\s)")
LET = re.compile(r"\blet ([^\s:=]+)")
CASE = re.compile(r"[\[|]([^\[|↦]*)↦")
FIELD = re.compile(r"^\s+(?:pub )?(\S+) :", re.MULTILINE)
LABEL = re.compile(r"([{;]\s*)[^\s(){};,.]+ =")
WORD = re.compile(r"[^\s(){};,\[\]|]+")
VARIANTS = "TheVariants"


@dataclasses.dataclass(frozen=True, order=True)
class Definition:
    """A definition of a file of specs."""

    path: str
    name: str


@dataclasses.dataclass
class Written:
    """How a definition is written."""

    lines: int = 0
    parts: list[str] = dataclasses.field(default_factory=list)
    constructors: list[str] = dataclasses.field(default_factory=list)


@dataclasses.dataclass
class Scope:
    """What the words of a file stand for: names, modules under the names given to them, the same of
    the kit, and which names are those of constructors."""

    names: dict[str, Definition | Declared] = dataclasses.field(default_factory=dict)
    modules: dict[str, str | Declared] = dataclasses.field(default_factory=dict)
    kit: dict[str, tuple[str, str]] = dataclasses.field(default_factory=dict)
    kit_modules: dict[str, str] = dataclasses.field(default_factory=dict)
    patterns: set[str] = dataclasses.field(default_factory=set)


@dataclasses.dataclass
class Rests:
    """What texts rest on, all the way down to the kit."""

    definitions: set[Definition] = dataclasses.field(default_factory=set)
    types: set[Declared] = dataclasses.field(default_factory=set)
    kit: set[tuple[str, str]] = dataclasses.field(default_factory=set)


class Definitions:
    """The definitions of all crates."""

    def __init__(self, crates: Crates) -> None:
        self.crates = crates
        self.of_file = functools.cache(self._of_file)
        self.scope = functools.cache(self._scope)
        self.cites = functools.cache(self._cites)

    def _of_file(self, path: str) -> dict[str, Written]:
        """The definitions of a file, by name, in order."""
        found: dict[str, Written] = {}
        base, heading, comment, last = 0, "", 0, ""
        for line in self.crates.text(path).splitlines():
            words = line.strip()
            depth = len(line) - len(line.lstrip())
            if words and depth < base:
                base, heading = 0, ""
            if OPENING.match(line):
                base, heading, last = 2, line if line.startswith("module") else "", ""
            elif depth == base and words.startswith("--"):
                comment, last = comment + 1, ""
            elif depth == base and words and not OTHER.match(words):
                name = begun(words, found)
                if name and name not in found:
                    found[name] = Written(comment, [f"{heading}\n"])
                elif name:
                    found[name].parts.append("")
                    found[name].lines += comment
                last, comment = name or last, 0
            elif not words:
                comment = 0
            if words and last:
                found[last].parts[-1] += line + "\n"
                found[last].lines += 1
        for it in found.values():
            it.constructors = constructors(it.parts[0])
        return found

    def defined(self, path: str) -> dict[str, Definition]:
        """What the names of a file stand for: a constructor for its family of data."""
        names = {}
        for name, written in self.of_file(path).items():
            names[name] = Definition(path, name)
            names.update((it, Definition(path, name)) for it in written.constructors)
        return names

    def _scope(self, path: str) -> Scope:
        """What the words of a file stand for."""
        scope = Scope()
        if path.endswith(".antt"):
            scope.names.update(self.defined(path))
            for written in self.of_file(path).values():
                scope.patterns.update(written.constructors)
        for module, listed, alias in USE.findall(self.crates.text(path)):
            parts = module.split(".")
            ours = parts[0] == "Rattle" and parts[1] in self.crates.names
            if ours and not listed:
                scope.modules[alias or parts[-1]] = declared(parts) or specs_path(parts)
            elif not listed:
                scope.kit_modules[alias or parts[-1]] = module
            for item in filter(None, (it.strip() for it in listed.split(","))):
                name, _, other = item.partition(" as ")
                if ours:
                    self._note(scope, parts, name, other or name)
                else:
                    scope.kit[other or name] = (module, name)
                if name[0].isupper():
                    scope.patterns.add(other or name)
        return scope

    def _note(self, scope: Scope, parts: list[str], name: str, word: str) -> None:
        kind = declared(parts)
        if kind:
            scope.names[word] = kind
            scope.patterns |= {word} if VARIANTS in parts else set()
            return
        path = specs_path(parts)
        target = self.defined(path).get(name)
        if target:
            scope.names[word] = target
            scope.patterns |= {word} if name != target.name else set()

    def modules(self, path: str) -> set[str]:
        """The files of specs that a file brings something in from."""
        found = (it[0].split(".") for it in USE.findall(self.crates.text(path)))
        return {specs_path(it) for it in found if self.is_specs(it)}

    def is_specs(self, parts: list[str]) -> bool:
        """Whether a module is a file of definitions of one of the crates."""
        ours = len(parts) > 3 and parts[1] in self.crates.names and parts[2] == "specs"
        return ours and parts[3] not in ("declared", "contracts")

    def unknown(self) -> Iterator[str]:
        """The names that files of specs bring in and that this module finds in no file."""
        for path in self.crates.files("*/specs/**/*.antt"):
            known = self.scope(path).names
            for module, listed, _ in USE.findall(self.crates.text(path)):
                if self.is_specs(module.split(".")):
                    for item in filter(None, (it.strip() for it in listed.split(","))):
                        if item.split(" as ")[-1] not in known:
                            yield f"{path}: no definition of {item} is found in {module}"

    def _cites(self, it: Definition) -> Rests:
        """What a definition cites, not what these cite in turn."""
        found = Rests()
        for part in self.of_file(it.path)[it.name].parts:
            self.note_words(part, self.scope(it.path), found, it.name)
        found.definitions.discard(it)
        return found

    def note_words(self, text: str, scope: Scope, found: Rests, name: str = "") -> None:
        """Adds to what was found what the words of a text stand for."""
        text = STRING.sub('""', COMMENT.sub("", text))
        bound = bound_words(text, name, scope)
        for word in WORD.findall(LABEL.sub(r"\1", text)):
            first, *rest = word.split(".")
            if first in bound or not first:
                continue
            if rest and first in scope.kit_modules:
                found.kit.add((scope.kit_modules[first], rest[0]))
            target = scope.names.get(first)
            module = scope.modules.get(first)
            if isinstance(module, str) and rest:
                target = self.defined(module).get(rest[0])
            elif module:
                target = module
            if isinstance(target, Definition):
                found.definitions.add(target)
            elif target:
                found.types.add(target)
        words = {*WORD.findall(text)}
        for word, item in scope.kit.items():
            if word not in bound and words.issuperset(filter(None, word.split("◌"))):
                found.kit.add(item)

    def view(self, kind: Declared) -> str:
        """What values of a type are seen as, and by which view; of a type without one nothing."""
        model = self.crates.model(kind)
        return "\n".join(ghost_member(model, it) for it in ("Value", "view"))

    def rests_on(self, text: str, path: str) -> Rests:
        """What a text of a file cites, and what that cites in turn, down to the kit."""
        found, waiting = Rests(), Rests()
        self.note_words(text, self.scope(path), waiting)
        while waiting.definitions or waiting.types:
            more = Rests()
            found.kit |= waiting.kit
            found.definitions |= waiting.definitions
            found.types |= waiting.types
            for it in waiting.definitions:
                cited = self.cites(it)
                more.definitions |= cited.definitions
                more.types |= cited.types
                more.kit |= cited.kit
            for kind in waiting.types:
                self.note_words(self.view(kind), self.scope(kind.path), more)
                more.types.update(self.crates.types_in(kind))
            more.definitions -= found.definitions
            more.types -= found.types
            waiting = more
        found.kit |= waiting.kit
        return found


def begun(line: str, known: Collection[str]) -> str:
    """The definition whose signature, or of which a further equation, begins with a line."""
    keywords = KEYWORDS.match(line)
    start = NAME.match(line, keywords.end() if keywords else 0)
    name = start.group() if start else ""
    has_signature = keywords and keywords.group() or line[len(name) :].startswith(" :")
    return name if has_signature or name in known else ""


def declared(parts: list[str]) -> Declared | None:
    """The type of the program that a module of specs is about, where it is about one."""
    if len(parts) < 5 or parts[3] not in ("declared", "contracts"):
        return None
    modules = [it for it in parts[4:] if it[0].islower()]
    types = [it for it in parts[4:] if it[0].isupper() and not it.startswith("The")]
    path = f"crates/{parts[1]}/src/{'/'.join(modules) or 'lib'}.rt"
    return Declared(path, types[0]) if types else None


def specs_path(parts: list[str]) -> str:
    """The file of a module of definitions."""
    return f"crates/{parts[1]}/specs/{'/'.join(parts[3:])}.antt"


def constructors(text: str) -> list[str]:
    """The constructors of a family of data; of another definition none."""
    head, _, body = text.strip().partition("\n")
    return FIELD.findall("\n" + body) if re.match(r"(?:pub )?data ", head) else []


def bound_words(text: str, name: str, scope: Scope) -> set[str]:
    """The words that a part of a definition binds: parameters, fields, and what patterns name."""
    places = [it.split(" : ")[0] for it in BINDER.findall(text) + LAMBDA.findall(text)]
    places += CASE.findall(text) + LET.findall(text)
    head, _, body = text.strip().partition("\n")
    if re.match(r"(?:pub )?record ", head):
        places += FIELD.findall("\n" + body)
    left, equals, _ = text.partition(" =")
    if name and equals and left.strip().startswith(name) and " : " not in left:
        places.append(left.partition(name)[2])
    words = {it for place in places for it in WORD.findall(place)}
    return {it for it in words if it not in scope.patterns and "." not in it}
