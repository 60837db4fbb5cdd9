"""Values, texts, keys and expressions on plain Python data, as docs/MEANING.md has them.

A number is an int, a truth value a bool, a text a str, a pair a tuple of two and a list a list. An
expression is an int, a str, a Word or a Call. Nothing is refused here but texts that would grow
past what a comparison is for (TooLarge).
"""
import re
from collections.abc import Callable
from dataclasses import dataclass

Value = int | bool | str | tuple | list
Env = dict[str, Value]
LARGEST_TEXT = 20_000
HALF, WHOLE = 2**63, 2**64


class Raised(Exception):
    """A raise of an expression: DivideByZero, NotANumber or OutOfRange."""


class TooLarge(Exception):
    """A value or a partition is larger than is worth comparing."""


@dataclass(frozen=True)
class Word:
    """A word of an expression: x, a, b, true or false."""

    name: str


@dataclass(frozen=True)
class Call:
    """A head with its arguments."""

    head: str
    args: tuple["Expr", ...]


Expr = int | str | Word | Call


def wrapped(number: int) -> int:
    """A number in 64 bits with a sign."""
    return (number + HALF) % WHOLE - HALF


def bounded(text: str) -> str:
    if len(text) > LARGEST_TEXT:
        raise TooLarge
    return text


def printed(value: Value) -> str:
    if isinstance(value, bool):
        return "true" if value else "false"
    if isinstance(value, tuple):
        return bounded(f"({printed(value[0])},{printed(value[1])})")
    if isinstance(value, list):
        return bounded(f"CompactBuffer({', '.join(map(printed, value))})")
    return str(value)


def divided(a: int, b: int) -> tuple[int, int]:
    """The quotient, truncated toward zero, and the remainder, with the sign of what is divided."""
    if b == 0:
        raise Raised("DivideByZero")
    quotient, remainder = divmod(abs(a), abs(b))
    return (quotient if (a < 0) == (b < 0) else -quotient), (-remainder if a < 0 else remainder)


def in_order(value: int | str) -> tuple[int, int | bytes]:
    """Where a key stands among others: numbers by size, and before texts, which go by bytes."""
    return (1, value.encode()) if isinstance(value, str) else (0, value)


def item(items: list, place: int) -> Value:
    if not 0 <= place < len(items):
        raise Raised("OutOfRange")
    return items[place]


def number_of(text: str) -> int:
    if not re.fullmatch("-?[0-9]+", text):
        raise Raised("NotANumber")
    digits = text.lstrip("-0")[:20] or "0"
    number = -int(digits) if text.startswith("-") else int(digits)
    if not -HALF <= number < HALF:
        raise Raised("OutOfRange")
    return number


def lines(text: str) -> list[str]:
    """The lines of a text, of which the last need not end."""
    found = re.split("\r\n|\r|\n", text)
    return found[:-1] if found[-1] == "" else found


HEADS: dict[str, Callable[..., Value]] = {
    "+": lambda a, b: wrapped(a + b),
    "-": lambda a, b: wrapped(a - b),
    "*": lambda a, b: wrapped(a * b),
    "/": lambda a, b: wrapped(divided(a, b)[0]),
    "%": lambda a, b: divided(a, b)[1],
    "==": lambda a, b: a == b,
    "<": lambda a, b: in_order(a) < in_order(b),
    "<=": lambda a, b: in_order(a) <= in_order(b),
    "not": lambda a: not a,
    "pair": lambda a, b: (a, b),
    "fst": lambda a: a[0],
    "snd": lambda a: a[1],
    "list": lambda *items: list(items),
    "len": len,
    "nth": item,
    "sum": lambda items: wrapped(sum(items)),
    "words": lambda text: [it for it in re.split("[ \t]", text) if it],
    "cut": lambda text, at: text.split(at),
    "int": number_of,
    "text": printed,
    "concat": lambda a, b: bounded(a + b),
}


def value_of(expr: Expr, env: Env) -> Value:
    """The value of an expression, or its first raise from the left."""
    if isinstance(expr, Word):
        return env[expr.name] if expr.name in env else expr.name == "true"
    if not isinstance(expr, Call):
        return expr
    if expr.head in ("and", "or", "if"):
        test = value_of(expr.args[0], env)
        if expr.head == "if":
            return value_of(expr.args[1 if test else 2], env)
        return value_of(expr.args[1], env) if test == (expr.head == "and") else test
    return HEADS[expr.head](*[value_of(it, env) for it in expr.args])


def hash_of(key: int | str) -> int:
    """Java's hash of a text or a number, as 32 bits without a sign."""
    if isinstance(key, str):
        units, bits = key.encode("utf-16-le"), 0
        for low, high in zip(units[::2], units[1::2]):
            bits = (31 * bits + low + 256 * high) % 2**32
        return bits
    bits = key % WHOLE
    return (bits ^ (bits >> 32)) % 2**32


def bucket_of(key: int | str, count: int) -> int:
    """The bucket of a key: the remainder of its hash, with a sign, that isn't negative."""
    bits = hash_of(key)
    return (bits - 2**32 if bits >= 2**31 else bits) % count


def bounds_of(keys: list[Value], count: int) -> list[Value]:
    """The keys at the ends of even parts of all keys in order, but the last end, each once."""
    keys = sorted(keys, key=in_order)
    ends = [-(-part * len(keys) // count) - 1 for part in range(1, count)] if keys else []
    return list(dict.fromkeys(keys[end] for end in ends))
