"""Random expressions of a type, and how they are written in a script.

A type is 'Int', 'Bool' or 'Text', or a tuple: ('Pair', T, U) or ('List', T). What may raise is
guarded, but for a share of it that is the risk.
"""
import random
from collections.abc import Iterator
from dataclasses import dataclass

from fuzzing.values import HALF, Call, Expr, Word

Type = str | tuple
NUMBERS = (0, 1, 2, 3, 5, 7, 10, -1, -2, -7, 31, 1000, 2**31, -(2**32), HALF - 1, -HALF)
TEXTS = ("", "a", "b", "ab", "b a", "k", "Aa", "BB", " two  words ", "a,b,,c", "7", "-12", "x\ty")
ODD_TEXTS = ("é", "𝄞", "\u2028", 'say "hi"', "\\n", "two\nlines", "9223372036854775808", "-")
SEPARATORS = (",", " ", "a", "é")
KEYS = ("Int", "Text")


def depth_of(expr: Expr) -> int:
    """How deep the parentheses of an expression nest."""
    return 1 + max(map(depth_of, expr.args)) if isinstance(expr, Call) else 0


def type_size(kind: Type) -> int:
    """How many constructors a type is written with."""
    return 1 if isinstance(kind, str) else 1 + sum(type_size(part) for part in kind[1:])


def is_pair(kind: Type) -> bool:
    return kind[0] == "Pair"


def is_keyed(kind: Type) -> bool:
    """Whether rows of the type stand under a key of numbers or texts."""
    return is_pair(kind) and kind[1] in KEYS


def written_text(text: str) -> str:
    for plain, escape in (("\\", "\\\\"), ('"', '\\"'), ("\n", "\\n"), ("\t", "\\t")):
        text = text.replace(plain, escape)
    return f'"{text}"'


def written(expr: Expr) -> str:
    """An expression as it stands in a script."""
    if isinstance(expr, Word):
        return expr.name
    if isinstance(expr, Call):
        return f"({' '.join([expr.head, *map(written, expr.args)])})"
    return written_text(expr) if isinstance(expr, str) else str(expr)


@dataclass
class Exprs:
    """Makes expressions over variables of some types, whose parts are found too."""

    rng: random.Random
    risk: float

    def number(self) -> int:
        return self.rng.choice(NUMBERS[: 10 if self.rng.random() < 0.8 else len(NUMBERS)])

    def text(self) -> str:
        return self.rng.choice(TEXTS if self.rng.random() < 0.8 else ODD_TEXTS)

    def type(self, depth: int = 2) -> Type:
        """A random type of rows."""
        kind = self.rng.choice(("Int", "Text", "Text", "Bool", "Pair", "Pair", "List"))
        if kind in ("Pair", "List") and depth:
            return (kind, *(self.type(depth - 1) for _ in range(2 if kind == "Pair" else 1)))
        return "Int" if kind in ("Pair", "List") else kind

    def keyed_type(self) -> Type:
        return ("Pair", self.rng.choice(KEYS), self.type(1))

    def known(self, scope: dict[str, Type]) -> Iterator[tuple[Expr, Type]]:
        """The variables and the parts of those that are pairs."""
        found: list[tuple[Expr, Type]] = [(Word(name), kind) for name, kind in scope.items()]
        while found:
            expr, kind = found.pop(0)
            yield expr, kind
            if is_pair(kind):
                found += [(Call("fst", (expr,)), kind[1]), (Call("snd", (expr,)), kind[2])]

    def key(self, kind: Type, scope: dict[str, Type]) -> Expr:
        """A key of numbers or texts, of which rows have few."""
        known = [(expr, its) for expr, its in self.known(scope) if its in KEYS or its[0] == "List"]
        expr, its = self.rng.choice(known) if known else (self.number(), "Int")
        if its == kind == "Text":
            return expr
        if its != "Int":
            expr = Call("len", (self.cut(expr) if its == "Text" else expr,))
        number = Call("%", (expr, self.rng.choice((2, 3, 5, 11))))
        return number if kind == "Int" else Call("text", (number,))

    def row(self, kind: Type, scope: dict[str, Type]) -> Expr:
        """A pair of a key that some rows share and any value."""
        return Call("pair", (self.key(kind[1], scope), self.of(kind[2], scope, 2)))

    def fold(self, kind: Type, a: Expr, b: Expr) -> Expr:
        """Two values of a type put together, mostly so that order and brackets are seen."""
        if is_pair(kind):
            parts = [tuple(Call(head, (it,)) for it in (a, b)) for head in ("fst", "snd")]
            return Call("pair", tuple(self.fold(its, *both) for its, both in zip(kind[1:], parts)))
        if kind == ("List", "Int"):
            return Call("list", (Call("-", (Call("sum", (a,)), Call("len", (b,)))), 1))
        if kind[0] == "List":
            return Call("if", (Call("<=", (Call("len", (a,)), Call("len", (b,)))), b, a))
        if kind == "Text":
            return Call("concat", ("<", Call("concat", (a, Call("concat", (b, ">"))))))
        if kind == "Bool":
            return Call(self.rng.choice(("==", "or", "and")), (a, Call("not", (b,))))
        if self.rng.random() < 0.3:
            return Call("+", (Call("*", (a, 3)), b))
        return Call(self.rng.choice("--+" if self.rng.random() > self.risk else "/%"), (a, b))

    def of(self, kind: Type, scope: dict[str, Type], depth: int) -> Expr:
        """An expression of a type."""
        known = [expr for expr, its in self.known(scope) if its == kind]
        if known and self.rng.random() < (0.5 if depth else 0.95):
            return self.rng.choice(known)
        if depth and self.rng.random() < 0.1:
            test = self.of("Bool", scope, depth - 1)
            return Call("if", (test, *(self.of(kind, scope, depth - 1) for _ in range(2))))
        if is_pair(kind):
            return Call("pair", tuple(self.of(part, scope, max(depth - 1, 0)) for part in kind[1:]))
        if kind[0] == "List":
            return self.items(kind, scope, max(depth - 1, 0))
        if depth == 0:
            literals = {"Int": self.number, "Text": self.text, "Bool": self.truth}
            return literals[kind]()
        makers = {"Int": self.int_call, "Text": self.text_call, "Bool": self.bool_call}
        return makers[kind](scope, depth - 1)

    def truth(self) -> Expr:
        return Word(self.rng.choice(("true", "false")))

    def cut(self, text: Expr) -> Expr:
        if self.rng.random() < 0.6:
            return Call("words", (text,))
        return Call("cut", (text, self.rng.choice(SEPARATORS)))

    def items(self, kind: Type, scope: dict[str, Type], depth: int) -> Expr:
        """A list: of words or pieces of a text, or item by item."""
        if kind[1] == "Text" and self.rng.random() < 0.7:
            text = self.of("Text", scope, depth)
            return self.cut(text)
        count = self.rng.randint(1, 3)
        return Call("list", tuple(self.of(kind[1], scope, depth) for _ in range(count)))

    def any_list(self, item: Type, scope: dict[str, Type], depth: int) -> Expr:
        """A list of items of this type, or one that is known whatever its items are."""
        known = [expr for expr, its in self.known(scope) if its[0] == "List"]
        if item == "Text" and known and self.rng.random() < 0.6:
            return self.rng.choice(known)
        return self.of(("List", item), scope, depth)

    def item(self, kind: Type, scope: dict[str, Type], depth: int) -> Expr:
        """An item of a list, with a guard for one that may not be there."""
        items = self.of(("List", kind), scope, depth)
        place = self.rng.choice((0, 0, 0, 1, 2, -1))
        taken = Call("nth", (items, place))
        if self.rng.random() < self.risk:
            return taken
        is_there = Call("<", (max(place, 0), Call("len", (items,))))
        safe = Call("nth", (items, max(place, 0)))
        return Call("if", (is_there, safe, self.of(kind, scope, 0)))

    def int_call(self, scope: dict[str, Type], depth: int) -> Expr:
        way = self.rng.choice(("sign", "sign", "divide", "divide", "len", "nth", "sum", "int"))
        if way == "sign":
            sign = self.rng.choice("+-*")
            return Call(sign, tuple(self.of("Int", scope, depth) for _ in range(2)))
        if way == "divide":
            is_risky = self.rng.random() < self.risk
            by = self.of("Int", scope, 0) if is_risky else self.rng.choice((2, 3, 3, -1, 10))
            return Call(self.rng.choice("/%"), (self.of("Int", scope, depth), by))
        if way == "len":
            return Call("len", (self.any_list("Text", scope, depth),))
        if way == "nth":
            return self.item("Int", scope, depth)
        if way == "sum":
            return Call("sum", (self.of(("List", "Int"), scope, depth),))
        if self.rng.random() < self.risk:
            return Call("int", (self.of("Text", scope, depth),))
        return Call("int", (Call("text", (self.of("Int", scope, depth),)),))

    def text_call(self, scope: dict[str, Type], depth: int) -> Expr:
        way = self.rng.choice(("text", "concat", "concat", "nth"))
        if way == "nth":
            return self.item("Text", scope, depth)
        if way == "concat":
            return Call("concat", tuple(self.of("Text", scope, depth) for _ in range(2)))
        kinds = [its for _, its in self.known(scope)] or ["Int"]
        return Call("text", (self.of(self.rng.choice(kinds), scope, depth),))

    def bool_call(self, scope: dict[str, Type], depth: int) -> Expr:
        head = self.rng.choice(("==", "<", "<=", "<", "and", "or", "not"))
        if head == "not":
            return Call("not", (self.of("Bool", scope, depth),))
        kind = "Bool" if head in ("and", "or") else self.rng.choice(KEYS)
        return Call(head, tuple(self.of(kind, scope, depth) for _ in range(2)))
