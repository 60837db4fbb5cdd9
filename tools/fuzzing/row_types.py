"""The types of expressions and of the rows of definitions, or IllTyped where there is none.

It is docs/FORMATS.md once more, in another language, for `fuzzing.reader`.
"""
from fuzzing.exprs import Type, is_keyed, is_pair
from fuzzing.values import Call, Expr, Word

LISTS = ("list", "len", "nth", "sum")


class IllTyped(Exception):
    """An expression or a line has no type."""


def typed(is_right: bool) -> None:
    if not is_right:
        raise IllTyped


def head_type(head: str, kinds: list[Type]) -> Type:
    """The type of a head's value, from those of its arguments."""
    one, two = kinds[0], kinds[1] if len(kinds) > 1 else None
    if head in ("+", "-", "*", "/", "%"):
        typed(one == two == "Int")
        return "Int"
    if head in ("==", "<", "<="):
        typed(one == two and one in (("Int", "Bool", "Text") if head == "==" else ("Int", "Text")))
        return "Bool"
    if head in ("and", "or", "not"):
        typed(set(kinds) == {"Bool"})
        return "Bool"
    if head == "if":
        typed(one == "Bool" and two == kinds[2])
        return two
    if head == "pair":
        return ("Pair", one, two)
    if head in ("fst", "snd"):
        typed(is_pair(one))
        return one[1 if head == "fst" else 2]
    return list_type(head, kinds, one, two) if head in LISTS else text_type(head, one, two)


def list_type(head: str, kinds: list[Type], one: Type, two: Type | None) -> Type:
    """That of a head that makes or takes a list."""
    if head == "list":
        typed(all(kind == one for kind in kinds))
        return ("List", one)
    typed(one[0] == "List")
    if head == "len":
        return "Int"
    if head == "nth":
        typed(two == "Int")
        return one[1]
    typed(one[1] == "Int")
    return "Int"


def text_type(head: str, one: Type, two: Type | None) -> Type:
    """That of a head that makes or takes a text."""
    if head == "text":
        return "Text"
    typed(one == "Text" and two in (None, "Text"))
    return {"words": ("List", "Text"), "cut": ("List", "Text"), "int": "Int"}.get(head, "Text")


def type_of(expr: Expr, scope: dict[str, Type]) -> Type:
    """The type of an expression over variables of these types."""
    if isinstance(expr, Word):
        return scope[expr.name] if expr.name in scope else "Bool"
    if isinstance(expr, Call):
        return head_type(expr.head, [type_of(arg, scope) for arg in expr.args])
    return "Text" if isinstance(expr, str) else "Int"


def row_type(word: str, kinds: list[Type], args: list[Expr]) -> Type:
    """The type of the rows of a definition whose parents have rows of these types."""
    if word == "text":
        return "Text"
    if word == "parallelize":
        return "Int" if isinstance(args[1], int) else "Text"
    kind = kinds[0]
    if word in ("coalesce", "repartition", "cache"):
        return kind
    if word == "union":
        typed(kind == kinds[1])
        return kind
    if word in ("map", "filter", "flatMap"):
        return each_type(word, kind, type_of(args[1], {"x": kind}))
    typed(is_pair(kind))
    if word in ("mapValues", "flatMapValues"):
        made = type_of(args[1], {"x": kind[2]})
        return ("Pair", kind[1], each_type(word.replace("Values", ""), kind[2], made))
    typed(is_keyed(kind))
    if word == "groupByKey":
        return ("Pair", kind[1], ("List", kind[2]))
    if word in ("cogroup", "join"):
        other = kinds[1]
        typed(is_pair(other) and other[1] == kind[1])
        both = (kind[2], other[2]) if word == "join" else (("List", kind[2]), ("List", other[2]))
        return ("Pair", kind[1], ("Pair", *both))
    typed(word == "sortByKey" or type_of(args[2], dict.fromkeys("ab", kind[2])) == kind[2])
    return kind


def each_type(word: str, kind: Type, made: Type) -> Type:
    """The type of the rows of map, filter or flatMap, whose expression is of type made."""
    if word == "filter":
        typed(made == "Bool")
        return kind
    if word == "flatMap":
        typed(made[0] == "List")
        return made[1]
    return made
