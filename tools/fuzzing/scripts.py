"""Random scripts and inputs, with what the scripts mean.

A script is made line by line, and each line is kept with its meaning. One whose rows, texts or type
grow too large is taken back.
"""
import random
from dataclasses import dataclass, field, replace

from fuzzing.exprs import Exprs, Type, depth_of, is_keyed, is_pair, type_size, written
from fuzzing.meaning import Action, Node, Outcome, Streams, outcome_of, streams_of
from fuzzing.values import Call, Expr, TooLarge, Word

ODD_NAMES = ("x", "a", "text", "map", "collect", "true", "_1", "if", "count")
WORDS = ("a", "b", "c", "to", "be", "k1", "k2", "1", "-7", "é", "Aa", "BB", "x,y", "")
BLANKS = (" ", " ", "  ", "\t", "")
LINE_ENDS = ("\n", "\n", "\n", "\r\n", "\r")
LARGEST_TYPE = 40
MOST_PARTITIONS = 24
LONGEST_LINE = 3_000
DEEPEST = 30
# How an operation is written, by what stands behind its parents: E an expression, N a number.
SHAPES = {
    "map": "E",
    "filter": "E",
    "flatMap": "E",
    "mapValues": "E",
    "flatMapValues": "E",
    "union": "",
    "coalesce": "N",
    "repartition": "N",
    "cache": "",
    "reduceByKey": "NE",
    "groupByKey": "N",
    "sortByKey": "N",
    "cogroup": "N",
    "join": "N",
}
FOLDERS = ("out", "o2", "o3", "o4", "above/one", "above/two", "é")
BY_KEY = ("reduceByKey", "groupByKey", "sortByKey", "cogroup", "join")
OPERATIONS = ("text", "parallelize", "map", "coalesce", "repartition", "repartition", *SHAPES)
MET = ("union", "cogroup", "join")


def is_short(line: str, expr: Expr) -> bool:
    """Whether a line with an expression keeps the limits of lines."""
    return len(line.encode()) <= LONGEST_LINE and depth_of(expr) <= DEEPEST


def random_input(rng: random.Random) -> bytes:
    """A small file."""
    text = ""
    for _ in range(rng.choice((0, 1, 4, 8, 12))):
        words = (rng.choice(WORDS) + rng.choice(BLANKS) for _ in range(rng.randint(0, 4)))
        text += "".join(words) + rng.choice(LINE_ENDS)
    return (text + rng.choice(("", "last one"))).encode()


@dataclass
class Script:
    """A script that is being made: its lines, and what stands behind each name."""

    rng: random.Random
    risk: float
    inputs: dict[str, bytes]
    lines: list[str] = field(default_factory=list)
    named: list[str] = field(default_factory=list)
    names: list[str] = field(default_factory=list)
    types: list[Type] = field(default_factory=list)
    streams: list[Streams] = field(default_factory=list)
    outcomes: list[Outcome] = field(default_factory=list)
    # The directories that are there when the script begins.
    there: list[str] = field(default_factory=list)

    def __post_init__(self) -> None:
        self.exprs = Exprs(self.rng, self.risk)
        self.saves = self.rng.choice((0, 0, 0.2, 0.5))
        if self.saves and self.rng.random() < 0.3:
            self.there = [self.rng.choice(FOLDERS)]
        self.usual_count = self.rng.choice((1, 2, 2, 3, 4))

    def count(self) -> int:
        """A number of partitions, mostly the same one, so that shuffles are skipped."""
        is_usual = self.rng.random() < 0.6
        return self.usual_count if is_usual else self.rng.choice((1, 2, 3, 4, 5, 7))

    def pick(self, fits: list[bool]) -> int | None:
        """The number of a node that fits, mostly of a late one."""
        found = [number for number, fit in enumerate(fits) if fit]
        late = found[-3:] if self.rng.random() < 0.8 else found
        return self.rng.choice(late) if late else None

    def parents(self, operation: str) -> tuple[int, ...] | None:
        """Nodes that an operation can read."""
        if operation in BY_KEY:
            first = self.pick([is_keyed(kind) for kind in self.types])
        else:
            first = self.pick(["Values" not in operation or is_pair(kind) for kind in self.types])
        if first is None or operation not in MET:
            return None if first is None else (first,)
        kind = self.types[first]
        if operation == "union":
            return first, self.pick([other == kind for other in self.types])
        return first, self.pick([is_keyed(it) and it[1] == kind[1] for it in self.types])

    def source(self, operation: str) -> tuple[Node, Type, str]:
        """A source, the type of its rows, and its arguments."""
        count = self.count()
        if operation == "text":
            name = self.rng.choice(sorted(self.inputs))
            return Node("text", count=count, input=name), "Text", f"{written(name)} {count}"
        kind = self.rng.choice(("Int", "Int", "Text"))
        make = self.exprs.number if kind == "Int" else self.exprs.text
        literals = tuple(make() for _ in range(self.rng.choice((1, 4, 8, 12, 20))))
        node = Node("parallelize", count=count, literals=literals)
        return node, kind, " ".join([str(count), *map(written, literals)])

    def made_type(self, operation: str, kinds: list[Type]) -> Type:
        """The type of the rows of an operation that reads rows of these types. Where it is free to
        choose it is a random one."""
        kind = kinds[0]
        if operation in ("map", "flatMap"):
            return self.exprs.keyed_type() if self.rng.random() < 0.7 else self.exprs.type()
        if "Values" in operation:
            return ("Pair", kind[1], self.exprs.type(1))
        if operation == "groupByKey":
            return ("Pair", kind[1], ("List", kind[2]))
        if operation == "cogroup":
            return ("Pair", kind[1], ("Pair", ("List", kind[2]), ("List", kinds[1][2])))
        if operation == "join":
            return ("Pair", kind[1], ("Pair", kind[2], kinds[1][2]))
        return kind

    def expr(self, operation: str, kind: Type, made: Type) -> Expr:
        """The expression of an operation from rows of one type to rows of another."""
        if operation == "reduceByKey":
            return self.folding(kind[2])
        by_value = "Values" in operation
        scope, wanted = {"x": kind[2] if by_value else kind}, made[2] if by_value else made
        if operation in ("map", "flatMap") and is_keyed(wanted) and self.rng.random() < 0.8:
            rows = [self.exprs.row(wanted, scope) for _ in range(1 if operation == "map" else 2)]
            return rows[0] if operation == "map" else Call("list", tuple(rows))
        if operation == "filter":
            wanted = "Bool"
        elif operation.startswith("flatMap"):
            wanted = ("List", wanted)
        return self.exprs.of(wanted, scope, self.rng.randint(1, 3))

    def folding(self, kind: Type) -> Expr:
        """An expression that puts two values of a type together."""
        if self.rng.random() < 0.7:
            return self.exprs.fold(kind, Word("a"), Word("b"))
        return self.exprs.of(kind, {"a": kind, "b": kind}, self.rng.randint(1, 3))

    def operated(self, operation: str) -> tuple[Node, Type, str] | None:
        """An operation on nodes, the type of its rows, and its arguments."""
        parents = self.parents(operation)
        if parents is None:
            return None
        kinds = [self.types[parent] for parent in parents]
        made, shape = self.made_type(operation, kinds), SHAPES[operation]
        count, expr = self.count(), 0
        if "E" in shape:
            expr = self.expr(operation, kinds[0], made)
        behind = [{"E": written(expr), "N": str(count)}[letter] for letter in shape]
        words = " ".join([*(self.names[parent] for parent in parents), *behind])
        return Node(operation, parents, count, expr), made, words

    def operation(self) -> str:
        """An operation: often one by key where there are rows for it, and one that makes such rows
        where there are none."""
        if not self.names:
            return self.rng.choice(("text", "parallelize", "parallelize"))
        if self.rng.random() < 0.5:
            has_keys = any(map(is_keyed, self.types))
            return self.rng.choice(BY_KEY if has_keys else ("map", "flatMap"))
        return self.rng.choice(OPERATIONS)

    def define(self) -> None:
        """One definition more, if what was made for it is small enough."""
        operation = self.operation()
        made = self.operated(operation) if operation in SHAPES else self.source(operation)
        if made is None or type_size(made[1]) > LARGEST_TYPE or not is_short(made[2], made[0].expr):
            return
        node, kind, words = made
        try:
            streams = streams_of(node, self.streams, self.inputs)
        except TooLarge:
            return
        if len(streams) > MOST_PARTITIONS:
            return
        free = [name for name in ODD_NAMES if name not in self.names]
        name = self.rng.choice(free) if free and self.rng.random() < 0.1 else f"n{len(self.names)}"
        self.lines.append(f"{name} = {operation} {words}")
        self.names.append(name)
        self.types.append(kind)
        self.streams.append(streams)
        if node.input and node.input not in self.named:
            self.named.append(node.input)

    def act(self) -> None:
        """One action more, likewise."""
        node = self.pick([True] * len(self.names))
        name = self.rng.choice(("collect", "collect", "count", "reduce", "reduce"))
        kind, expr, folder = self.types[node], 0, ""
        if self.saves and self.rng.random() < self.saves:
            name, folder = "save", self.rng.choice(FOLDERS)
        if name == "reduce":
            expr = self.folding(kind)
        try:
            outcome = outcome_of(Action(name, node, expr, folder), self.streams[node])
        except TooLarge:
            return
        if not is_short(written(expr), expr):
            return
        behind = {"reduce": [written(expr)], "save": [written(folder)]}.get(name, [])
        self.lines.append(" ".join([name, self.names[node], *behind]))
        if folder in self.there + [it.folder for it in self.outcomes if it.folder]:
            outcome = replace(outcome, text=None, is_taken=True)
        self.outcomes.append(outcome)


def random_script(rng: random.Random) -> Script:
    """A script of some definitions and actions."""
    inputs = {f"in{number}.txt": random_input(rng) for number in range(rng.randint(1, 3))}
    script = Script(rng, rng.choice((0, 0, 0, 0.3, 0.8)), inputs)
    for _ in range(rng.choice((3, 8, 12, 16, 24))):
        script.define()
        if script.names and rng.random() < 0.12:
            script.act()
        if rng.random() < 0.05:
            script.lines.append(rng.choice(("", "# what comes next", "\t", "  # = (")))
    for _ in range(rng.randint(1, 3)):
        script.act()
    return script
