"""Reads scripts and fault plans, and tells the fault of each: docs/FORMATS.md once more, in another
language.

It shares no code and no table with the crates. `script_of` and `plan_of` take bytes and give what
was read, or raise a Fault with the number of the line and the kind. Lines are taken in order, and
in a line the tests stand in the order of the document, so the first one that fails names the fault.
"""
import re
from dataclasses import dataclass, field

from fuzzing.exprs import Type, type_size
from fuzzing.grammar import (
    ACTIONS,
    DEFINITIONS,
    HEADS,
    LONGEST_LINE,
    Fault,
    calls_in,
    form_of,
    test_limits,
    test_shape,
    text_of,
    tokens_of,
    words_in,
)
from fuzzing.meaning import Action, Node
from fuzzing.row_types import IllTyped, row_type, type_of, typed
from fuzzing.values import Expr, lines

MOST_PARTITIONS, MOST_NODES, MOST_ACTIONS, LARGEST_TYPE = 1_024, 256, 64, 256
MOST_PLAN_LINES, LARGEST_NUMBER = 256, 1_000_000
KINDS = {"fail": 3, "late": 4, "twice": 3, "drop": 2, "lose": 3, "evict": 2}
# By how many numbers two lines of a plan of one kind are told apart.
TOLD_APART = {"late": 3, "lose": 1}


@dataclass
class Read:
    """A script as far as it was read: its nodes and its actions, in order."""

    numbers: dict[str, int] = field(default_factory=dict)
    nodes: list[Node] = field(default_factory=list)
    types: list[Type] = field(default_factory=list)
    partitions: list[int] = field(default_factory=list)
    actions: list[Action] = field(default_factory=list)

    def inputs(self) -> list[str]:
        """The inputs that are named, each once."""
        return list(dict.fromkeys(node.input for node in self.nodes if node.input))


def variables_of(word: str) -> tuple[str, ...]:
    return ("a", "b") if word in ("reduce", "reduceByKey") else ("x",)


def partitions_of(word: str, count: int, parents: list[int]) -> int:
    """The number of partitions of a definition, from its number and those of its parents."""
    if word == "union":
        return sum(parents)
    if word == "coalesce":
        return min(count, parents[0])
    return count if "i" in DEFINITIONS[word] else parents[0]


def nodes_of(read: Read, shape: str, args: list[Expr]) -> list[int | None]:
    """The numbers of the nodes that a line names, None for one that isn't known."""
    return [read.numbers.get(arg.name) for kind, arg in zip(shape, args) if kind == "w"]


def test_counts(read: Read, word: str, shape: str, args: list[Expr], is_definition: bool) -> None:
    """The limits of numbers of partitions, definitions and actions."""
    counts = [arg for kind, arg in zip(shape, args) if kind == "i"]
    if not all(1 <= count <= MOST_PARTITIONS for count in counts):
        raise Fault("Limit")
    parents = nodes_of(read, shape, args)
    if word == "union" and None not in parents:
        if sum(read.partitions[parent] for parent in parents) > MOST_PARTITIONS:
            raise Fault("Limit")
    if len(read.nodes) == MOST_NODES if is_definition else len(read.actions) == MOST_ACTIONS:
        raise Fault("Limit")


def test_names(word: str, shape: str, args: list[Expr], parents: list[int | None]) -> None:
    """The nodes of a line and the words of its expressions."""
    known = ("true", "false", *variables_of(word))
    used = [it for kind, arg in zip(shape, args) if kind == "e" for it in words_in(arg)]
    if None in parents or not all(it in known for it in used):
        raise Fault("UnknownName")


def define(read: Read, name: str, word: str, args: list[Expr], parents: list[int]) -> None:
    """Adds a definition whose names are known, if it has a type that isn't too large."""
    shape = DEFINITIONS[word]
    try:
        kind = row_type(word, [read.types[parent] for parent in parents], args)
    except IllTyped:
        raise Fault("IllTyped") from None
    if type_size(kind) > LARGEST_TYPE:
        raise Fault("Limit")
    count = next((arg for place, arg in zip(shape, args) if place == "i"), 1)
    expr = next((arg for place, arg in zip(shape, args) if place == "e"), 0)
    literals = tuple(args[1:]) if shape == "il" else ()
    node = Node(word, tuple(parents), count, expr, literals, args[0] if word == "text" else "")
    read.numbers[name] = len(read.nodes)
    read.nodes.append(node)
    read.types.append(kind)
    read.partitions.append(partitions_of(word, count, [read.partitions[it] for it in parents]))


def act(read: Read, word: str, args: list[Expr], node: int) -> None:
    """Adds an action whose names are known, if it has a type."""
    kind = read.types[node]
    try:
        typed(word != "reduce" or type_of(args[1], {"a": kind, "b": kind}) == kind)
    except IllTyped:
        raise Fault("IllTyped") from None
    expr, folder = args[1] if word == "reduce" else 0, args[1] if word == "save" else ""
    read.actions.append(Action(word, node, expr, folder))


def read_line(read: Read, line: str) -> None:
    """One line of a script that isn't skipped, behind those that were read."""
    tokens, is_whole = tokens_of(line)
    test_limits(line, tokens)
    if not is_whole:
        raise Fault("Syntax")
    name, word, args = form_of(tokens)
    table = ACTIONS if name is None else DEFINITIONS
    if word not in table or any(it.head not in HEADS for arg in args for it in calls_in(arg)):
        raise Fault("UnknownName")
    shape = table[word]
    test_shape(shape, args)
    test_counts(read, word, shape, args, name is not None)
    if name in read.numbers:
        raise Fault("Twice")
    parents = nodes_of(read, shape, args)
    test_names(word, shape, args, parents)
    if name is None:
        act(read, word, args, parents[0])
    else:
        define(read, name, word, args, parents)


def is_skipped(line: str) -> bool:
    return line.strip(" \t")[:1] in ("", "#")


def script_of(content: bytes) -> Read:
    """A script that has no fault."""
    read = Read()
    for number, line in enumerate(lines(text_of(content)), 1):
        if not is_skipped(line):
            try:
                read_line(read, line)
            except Fault as fault:
                raise Fault(fault.kind, number) from None
    return read


def plan_line(line: str, executors: int, before: list[tuple]) -> tuple:
    """One line of a plan that isn't skipped, behind those before it."""
    if len(line.encode()) > LONGEST_LINE:
        raise Fault("Limit")
    kind, *words = re.split("[ \t]+", line.strip(" \t"))
    if kind not in KINDS:
        raise Fault("UnknownName")
    if len(words) != KINDS[kind] or not all(re.fullmatch("[0-9]+", word) for word in words):
        raise Fault("Syntax")
    numbers = [int(word) for word in words]
    is_told_early = kind == "lose" and numbers[2] < numbers[1]
    is_unknown = kind in ("drop", "lose", "evict") and numbers[0] >= executors
    if max(numbers) > LARGEST_NUMBER or is_told_early or is_unknown:
        raise Fault("Limit")
    if len(before) == MOST_PLAN_LINES:
        raise Fault("Limit")
    apart = TOLD_APART.get(kind, len(numbers))
    if any(it[0] == kind and list(it[1 : 1 + apart]) == numbers[:apart] for it in before):
        raise Fault("Twice")
    return (kind, *numbers)


def plan_of(content: bytes, executors: int) -> list[tuple]:
    """The lines of a plan that has no fault."""
    found: list[tuple] = []
    for number, line in enumerate(lines(text_of(content)), 1):
        if not is_skipped(line):
            try:
                found.append(plan_line(line, executors, found))
            except Fault as fault:
                raise Fault(fault.kind, number) from None
    return found
