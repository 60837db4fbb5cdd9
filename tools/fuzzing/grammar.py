"""The lines of scripts: their tokens, their form and the arguments of each table.

It is docs/FORMATS.md once more, in another language, for `fuzzing.reader`.
"""
import re
from dataclasses import dataclass

from fuzzing.values import HALF, Call, Expr, Word

MOST_BYTES, LONGEST_LINE, DEEPEST, LONGEST_WORD = 65_536, 4_096, 32, 64
# A token of a line and where it may end. A WORD and a SIGN take all that they can; a STRING has no
# character but those of its escapes behind a backslash.
TOKEN = re.compile(
    r"""(?P<PAREN>[()])
      | (?:(?<=[ \t])(?P<EQUALS>=)(?=[ \t])
         | (?P<INT>-?[0-9]+)
         | (?P<STRING>"(?:[^"\\]|\\[nt\\"])*")
         | (?P<WORD>[A-Za-z_][A-Za-z0-9_]*)
         | (?P<SIGN>==|<=|[+\-*/%<]))(?=[ \t()]|\Z)""",
    re.VERBOSE | re.DOTALL,
)
BLANKS = re.compile(r"[ \t]*")
ESCAPES = {"n": "\n", "t": "\t", "\\": "\\", '"': '"'}
# What stands behind an operation or an action: w a node, i a number of partitions, e an expression,
# f the name of a file, d that of a directory, l literals.
DEFINITIONS = {
    "text": "fi",
    "parallelize": "il",
    "map": "we",
    "filter": "we",
    "flatMap": "we",
    "mapValues": "we",
    "flatMapValues": "we",
    "union": "ww",
    "coalesce": "wi",
    "repartition": "wi",
    "cache": "w",
    "reduceByKey": "wie",
    "groupByKey": "wi",
    "sortByKey": "wi",
    "cogroup": "wwi",
    "join": "wwi",
}
ACTIONS = {"collect": "w", "count": "w", "reduce": "we", "save": "wd"}
HEADS = {
    **dict.fromkeys(("+", "-", "*", "/", "%", "==", "<", "<=", "and", "or", "pair"), 2),
    **dict.fromkeys(("nth", "cut", "concat"), 2),
    **dict.fromkeys(("not", "fst", "snd", "len", "sum", "words", "int", "text"), 1),
    "if": 3,
    "list": None,
}


class Fault(Exception):
    """Why a script or a plan is refused."""

    def __init__(self, kind: str, line: int = 0) -> None:
        super().__init__(line, kind)
        self.line, self.kind = line, kind


@dataclass(frozen=True)
class Token:
    """A token: its kind, and how it is written."""

    kind: str
    text: str


def text_of(content: bytes) -> str:
    """The text of a script or a plan, whose length is tested first."""
    if len(content) > MOST_BYTES:
        raise Fault("Limit")
    try:
        return content.decode()
    except UnicodeDecodeError:
        raise Fault("NotText") from None


def tokens_of(line: str) -> tuple[list[Token], bool]:
    """The tokens of a line as far as they go, and whether they are the whole line."""
    tokens, at = [], BLANKS.match(line).end()
    while at < len(line):
        found = TOKEN.match(line, at)
        if found is None:
            return tokens, False
        tokens.append(Token(found.lastgroup, found.group()))
        at = BLANKS.match(line, found.end()).end()
    return tokens, True


def test_limits(line: str, tokens: list[Token]) -> None:
    """The limits of a line and of its tokens."""
    if len(line.encode()) > LONGEST_LINE:
        raise Fault("Limit")
    depth = 0
    for token in tokens:
        if token.kind == "PAREN":
            depth = depth + 1 if token.text == "(" else max(0, depth - 1)
        is_long = token.kind == "WORD" and len(token.text) > LONGEST_WORD
        is_wide = token.kind == "INT" and not -HALF <= int(token.text) < HALF
        if depth > DEEPEST or is_long or is_wide:
            raise Fault("Limit")


def string_of(token: Token) -> str:
    return re.sub(r"\\(.)", lambda it: ESCAPES[it.group(1)], token.text[1:-1], flags=re.DOTALL)


def args_of(tokens: list[Token], is_inner: bool = False) -> list[Expr]:
    """The arguments at the front of some tokens, which they leave: up to the end, or to the
    parenthesis that closes them."""
    args: list[Expr] = []
    while tokens:
        token = tokens.pop(0)
        if token.text == ")":
            if is_inner:
                return args
            raise Fault("Syntax")
        if token.text == "(":
            if not tokens or tokens[0].kind not in ("WORD", "SIGN"):
                raise Fault("Syntax")
            head = tokens.pop(0).text
            args.append(Call(head, tuple(args_of(tokens, True))))
        elif token.kind == "INT":
            args.append(int(token.text))
        elif token.kind == "STRING":
            args.append(string_of(token))
        elif token.kind == "WORD":
            args.append(Word(token.text))
        else:
            raise Fault("Syntax")
    if is_inner:
        raise Fault("Syntax")
    return args


def form_of(tokens: list[Token]) -> tuple[str | None, str, list[Expr]]:
    """The name that a line defines, if it does, its operation or action, and the arguments."""
    name = None
    if len(tokens) > 1 and tokens[1].kind == "EQUALS":
        if tokens[0].kind != "WORD" or len(tokens) == 2:
            raise Fault("Syntax")
        name = tokens[0].text
        tokens = tokens[2:]
    if not tokens or tokens[0].kind != "WORD":
        raise Fault("Syntax")
    return name, tokens[0].text, args_of(tokens[1:])


def calls_in(arg: Expr) -> list[Call]:
    """An expression and all in it that have a head."""
    if not isinstance(arg, Call):
        return []
    return [arg, *(it for inner in arg.args for it in calls_in(inner))]


def is_formed(call: Call) -> bool:
    """Whether a head has as many arguments as it takes."""
    count = len(call.args)
    if call.head == "list":
        return count > 0
    if call.head == "cut" and not (
        count == 2 and isinstance(call.args[1], str) and len(call.args[1]) == 1
    ):
        return False
    return count == HEADS[call.head]


def is_name(arg: Expr) -> bool:
    return isinstance(arg, str) and arg != "" and "\0" not in arg


def fits(kind: str, arg: Expr) -> bool:
    """Whether an argument is what a place of this kind takes."""
    if kind == "w":
        return isinstance(arg, Word)
    if kind == "i":
        return isinstance(arg, int)
    if kind == "f":
        return is_name(arg)
    if kind == "d":
        return is_name(arg) and not arg.endswith("/")
    return all(map(is_formed, calls_in(arg)))


def test_shape(shape: str, args: list[Expr]) -> None:
    """The number and the kinds of the arguments."""
    if shape == "il":
        is_one_kind = {type(it) for it in args[1:]} in ({int}, {str})
        if not (is_one_kind and isinstance(args[0], int)):
            raise Fault("Syntax")
    elif len(args) != len(shape) or not all(map(fits, shape, args)):
        raise Fault("Syntax")


def words_in(arg: Expr) -> list[str]:
    if isinstance(arg, Word):
        return [arg.name]
    return [it for inner in arg.args for it in words_in(inner)] if isinstance(arg, Call) else []
