"""Spoiled cases: the bytes of a valid script, plan or input flipped, cut, doubled or spliced.

What may come of such a case is found by `fuzzing.reader`, which reads the spoiled bytes by the
document, and, where it refuses none, by the meaning of the script that they have become.
"""
import random
import re
from collections.abc import Callable

from fuzzing.cases import Case, random_case
from fuzzing.grammar import ACTIONS, DEFINITIONS, HEADS, Fault
from fuzzing.meaning import Outcome, Streams, outcome_of, streams_of
from fuzzing.reader import Read, plan_of, script_of
from fuzzing.values import TooLarge

ODD_BYTES = b'()="\\# \t\r\n\0\x1b\x7f\x80\xc3\xed\xff-+*/%<_09xa,'
ODD_PIECES = (
    *(b"(", b")", b"=", b" = ", b'"', b"\\", b"#", b"\r", b"\r\n", b"\n\n", b"\0", b"-", b"(x)"),
    *(b"\xef\xbb\xbf", b"\xe2\x80\xa8", b"\xc2\x85", b"\xc2\xa0", b"\xed\xa0\x80", b"\xc0\xaf"),
    *(b"0", b"-1", b"1024", b"1025", b"9223372036854775807", b"9223372036854775808", b"1000001"),
    *(b"00000000000000000000001", b"true", b"x", b"a", b"map", b"union", b"reduce", b"list"),
    *(b"(pair x x)", b"(list x)", b"(not x)", b"w" * 65, b"(" * 33, b" " * 4_096),
)
TOKEN = re.compile(rb'"(?:[^"\\\n]|\\.)*"|[A-Za-z0-9_]+|[^ \t]')
NUMBERS = (b"0", b"1", b"2", b"7", b"1024", b"1025", b"-1", b"1000000", b"1000001", b"9" * 19)
# Words, and those that may stand for them.
ALIKE = (
    (re.compile(rb"\(([^ ()]+) "), tuple(head.encode() for head in HEADS)),
    (re.compile(rb"= ([A-Za-z]+) "), tuple(word.encode() for word in DEFINITIONS)),
    (re.compile(rb"(?m)^([a-z]+) n"), tuple(word.encode() for word in ACTIONS)),
    (re.compile(rb"\b(n[0-9]+)\b"), tuple(b"n%d" % number for number in range(16))),
    (re.compile(rb" (-?[0-9]+)\b"), NUMBERS),
)
LONGEST_NAME = 255

Spoiler = Callable[[random.Random, bytes, bytes], bytes]


class Unjudged(Exception):
    """Paths of the case lead where nothing is promised, or out of its folder."""


def stretch(rng: random.Random, content: bytes) -> tuple[int, int]:
    """Where a piece of some bytes begins and ends: mostly a short one."""
    begin = rng.randint(0, len(content))
    longest = rng.choice((1, 4, 16, 64, len(content)))
    return begin, min(len(content), begin + rng.randint(0, longest))


def flipped(rng: random.Random, content: bytes, other: bytes) -> bytes:
    """One byte is another one."""
    if not content:
        return other[:1]
    at, byte = rng.randrange(len(content)), rng.choice((*ODD_BYTES, *ODD_BYTES, 256))
    changed = byte if byte < 256 else content[at] ^ (1 << rng.randrange(8))
    return content[:at] + bytes([changed]) + content[at + 1 :]


def cut(rng: random.Random, content: bytes, other: bytes) -> bytes:
    begin, end = stretch(rng, content)
    return content[:begin] + (b"" if rng.random() < 0.2 else content[end:])


def doubled(rng: random.Random, content: bytes, other: bytes) -> bytes:
    begin, end = stretch(rng, content)
    return content[:end] + content[begin:end] * rng.choice((1, 1, 1, 2, 70)) + content[end:]


def spliced(rng: random.Random, content: bytes, other: bytes) -> bytes:
    """A piece of another file of the kind, or something odd, stands in."""
    begin, end = stretch(rng, content)
    from_, to = stretch(rng, other)
    piece = other[from_:to] if rng.random() < 0.4 else rng.choice(ODD_PIECES)
    return content[:begin] + piece + content[end if rng.random() < 0.3 else begin :]


def kind_of(token: bytes) -> str:
    """What a token looks like: a text, a number, a word, or anything else."""
    first = token[:1].decode("latin-1")
    return '"' if first == '"' else "7" if first.isdigit() else "w" if first.isalpha() else "("


def with_another_token(rng: random.Random, content: bytes, other: bytes) -> bytes:
    """A token stands where another did, mostly one of its kind, so that more than the grammar is
    broken."""
    found = list(TOKEN.finditer(content))
    if not found:
        return content + rng.choice(ODD_PIECES)
    place = rng.choice(found)
    pieces = [it.group() for it in found + list(TOKEN.finditer(other))] + list(ODD_PIECES)
    alike = [it for it in pieces if kind_of(it) == kind_of(place.group())]
    piece = rng.choice(alike if rng.random() < 0.8 else pieces)
    return content[: place.start()] + piece + content[place.end() :]


def with_another_word(rng: random.Random, content: bytes, other: bytes) -> bytes:
    """A word that the tables have, a node or a number stands where one that fits as well did, so
    that types, names and counts are broken and not the shape of a line."""
    by_place: dict[tuple[int, int], tuple[bytes, ...]] = {}
    for pattern, words in ALIKE:
        by_place |= {it.span(1): words for it in pattern.finditer(content)}
    if not by_place:
        return flipped(rng, content, other)
    begin, end = rng.choice(sorted(by_place))
    was, words = content[begin:end], by_place[begin, end]
    return content[:begin] + rng.choice(alike(was, words)) + content[end:]


def alike(word: bytes, words: tuple[bytes, ...]) -> list[bytes]:
    """The words of a table that take what one of it takes; of a word that takes nothing all, and of
    a node that is called as a word of another table."""
    shapes = {**DEFINITIONS, **ACTIONS, **{head: count or 2 for head, count in HEADS.items()}}
    shape = shapes.get(word.decode(errors="replace"))
    found = [it for it in words if shape is None or shapes.get(it.decode()) == shape]
    return found or list(words)


def with_moved_lines(rng: random.Random, content: bytes, other: bytes) -> bytes:
    """A line goes, comes twice, or stands elsewhere."""
    kept = content.splitlines(keepends=True)
    if not kept:
        return other
    line = kept.pop(rng.randrange(len(kept)))
    for _ in range(rng.randint(0, 2)):
        kept.insert(rng.randint(0, len(kept)), line)
    return b"".join(kept)


SPOILERS: tuple[Spoiler, ...] = (
    *(flipped, cut, doubled, spliced, with_moved_lines),
    *(with_another_token,) * 2,
    *(with_another_word,) * 6,
)


def spoiled(rng: random.Random, content: bytes, other: bytes) -> bytes:
    for _ in range(rng.choice((1, 1, 1, 2, 3, 6))):
        content = rng.choice(SPOILERS)(rng, content, other)
    return content


def is_plain(path: str) -> bool:
    """Whether a path is a name in the folder of the run, or leads down in it."""
    parts = path.split("/")
    is_short = all(len(part.encode()) <= LONGEST_NAME for part in parts)
    return is_short and not {"", ".", ".."} & set(parts)


def under(path: str, other: str) -> bool:
    return path.startswith(f"{other}/")


def test_paths(case: Case, read: Read) -> None:
    """That nothing is read or saved but plain paths, of which none lies under another."""
    saved = {action.folder for action in read.actions if action.folder}
    stand = [*case.files, *case.script.there]
    inputs = read.inputs()
    if not all(map(is_plain, (*saved, *inputs))) or any("/" in it for it in inputs):
        raise Unjudged
    if saved & set(inputs) or any(under(one, two) for one in saved for two in (*saved, *stand)):
        raise Unjudged
    if any(under(one, two) for one in stand for two in saved):
        raise Unjudged


def refusal_of_inputs(case: Case, read: Read) -> tuple[int, str] | None:
    """How the first input is refused that isn't there or isn't text."""
    for name in read.inputs():
        if name in case.script.there:
            return 5, f"input: {name}: failed\n"
        if name not in case.files:
            return 5, f"input: {name}: missing\n"
        try:
            case.files[name].decode()
        except UnicodeDecodeError:
            return 15, f"not text: {name}\n"
    return None


def outcomes_of(case: Case, read: Read) -> list[Outcome]:
    """What the actions give."""
    streams: list[Streams] = []
    for node in read.nodes:
        streams.append(streams_of(node, streams, case.files))
    taken, found = [*case.script.there, *case.files], []
    for action in read.actions:
        is_taken = action.folder != "" and action.folder in taken
        if is_taken:
            found.append(Outcome(folder=action.folder, is_taken=True))
        else:
            found.append(outcome_of(action, streams[action.node]))
        taken.append(action.folder)
    return found


def judge(case: Case, executors: int) -> None:
    """Puts into a case what its files are to give, by the reader and by the meaning."""
    try:
        read = script_of(case.files["job.spark"])
    except Fault as fault:
        case.refusal = 3, f"script: line {fault.line}: {fault.kind}\n"
        return
    test_paths(case, read)
    try:
        case.plan = plan_of(case.files["plan.txt"], executors)
    except Fault as fault:
        case.refusal = 4, f"plan: line {fault.line}: {fault.kind}\n"
        return
    case.refusal = refusal_of_inputs(case, read)
    if case.refusal is None:
        try:
            case.script.outcomes = outcomes_of(case, read)
        except TooLarge:
            case.is_large = True


def mutated_case(seed: int) -> Case:
    """The spoiled case of a seed, or Unjudged where it isn't to be run."""
    rng = random.Random(f"mutated {seed}")
    case, other = (random_case(rng.randrange(1 << 32)) for _ in range(2))
    while case.refusal:
        case = random_case(rng.randrange(1 << 32))
    if "plan.txt" not in case.files:
        case.files["plan.txt"] = b""
        case.words += ["--plan", "plan.txt"]
    for _ in range(rng.choice((1, 1, 1, 2))):
        names = ["job.spark"] * 7 + ["plan.txt"] * 3 + sorted(case.script.inputs)
        name = rng.choice(names)
        base = case.files[name]
        if name == "plan.txt" and not base:
            base = b"fail 0 0 0\nlate 0 1 0 2\ntwice 1 0 0\ndrop 0 3\nlose 0 4 6\nevict 0 2\n"
        case.files[name] = spoiled(rng, base, other.files.get(name, base))
    judge(case, case.limits["executors"])
    return case
