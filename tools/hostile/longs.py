"""Inputs that are so long that several threads find their lines, each those of a part."""
import random
import re
import resource
from collections.abc import Iterator

from hostile.runs import NOBODY, Place, differs

EXECUTORS = "1", "4", "64"
# Bytes that are worth a thread, and bytes that are drawn anew before they come again.
PART, BLOCK = 1 << 20, 20_000
# What lines are made of: ends of each kind, characters of one to four bytes, and nothing.
PIECES = (
    (b"\n", b"a\n", b"abcdefg\n"),
    (b"\r\n", b"ab\r\n", b"a\n"),
    (b"\r", b"a\r", b"\n"),
    (b"\r\n", b"\n", b"\r", b"\n\r"),
    ("é€😀".encode(), "é\n".encode(), "€\r\n".encode(), b"a\r"),
    (b"abcdefghijklmnopqrstuvwxyz" * 40, b"\n"),
    (b"x" * 700_000, b"\n", b"\r\n"),
)
# What may stand where a text is cut.
AT_CUTS = (b"\r\n", b"\n\r", b"\r\r\n", b"\n\n", b"\r", b"\n", b"\r\n\r\n", "😀\n€\r\né".encode())
NO_TEXT = b"\xff", b"\x80", b"\xc0\xaf", b"\xe2\x82\n", b"\xed\xa0\x80", b"\xf0\x9f\x98", b"\xf5"
END = re.compile(rb"\r\n|\r|\n")


def lines_of(text: bytes) -> list[bytes]:
    """The lines of a text; an unended last one counts."""
    lines = END.split(text)
    return lines[:-1] if not lines[-1] else lines


def long_text(rng: random.Random) -> bytes:
    """A text of some megabytes, with ends of lines about its middle and the middles of its halves
    and quarters."""
    size, pieces = rng.randint(2 * PART - 2, 5 * PART), rng.choice(PIECES)
    block = bytearray()
    while len(block) < min(size, BLOCK):
        block += rng.choice(pieces)
    text = bytes(block * (size // len(block) + 1))[:size]
    for eighth in rng.sample(range(1, 8), rng.randint(0, 7)):
        piece = rng.choice(AT_CUTS)
        at = size * eighth // 8 - rng.randint(0, len(piece))
        text = text[:at].decode(errors="ignore").encode() + piece + text[at + len(piece) :]
    return text.decode(errors="ignore").encode()


def a_long_input_has_its_lines_however_many_find_them(place: Place) -> Iterator[str]:
    """With ends of each kind, also where it is cut."""
    place.put("job.spark", 'l = text "in.txt" 5\ncount l\ncollect l\n')
    for seed in range(place.rounds):
        text = long_text(random.Random(seed))
        lines = lines_of(text)
        place.put("in.txt", text)
        out = b"%d\n" % len(lines) + b"".join(line + b"\n" for line in lines)
        for executors in EXECUTORS:
            ended = place.run("run", "job.spark", "--executors", executors)
            yield from differs(f"seed {seed}, {executors} executors", ended, 0, out)


def a_long_input_that_is_no_text_is_told(place: Place) -> Iterator[str]:
    """Wherever the bytes stand that are none, also where they are one only together with those
    behind the place where it is cut."""
    place.put("job.spark", 'l = text "in.txt" 5\ncount l\n')
    for seed in range(place.rounds):
        rng = random.Random(seed)
        text, bad = long_text(rng), rng.choice(NO_TEXT)
        at = len(text) * rng.randint(0, 8) // 8 - rng.randint(0, len(bad))
        text = text[: max(at, 0)] + bad + text[max(at, 0) :]
        place.put("in.txt", text)
        for executors in EXECUTORS:
            ended = place.run("run", "job.spark", "--executors", executors)
            yield from differs(f"seed {seed}, {executors}", ended, 15, b"", b"not text: in.txt\n")


def a_long_input_is_read_where_no_thread_can_be_made(place: Place) -> Iterator[str]:
    """And where the stack of each is small."""
    place.put("job.spark", 'l = text "in.txt" 5\ncount l\n')
    place.put("in.txt", b"a\r\nb\rc\n" * PART)
    for executors in EXECUTORS:
        words = "run", "job.spark", "--executors", executors
        for threads in (1, 2, 3, 5):
            around = {"limits": {resource.RLIMIT_NPROC: threads}, "user": NOBODY}
            ended = place.run(*words, **around)
            yield from differs(f"{threads} threads, {executors}", ended, 0, b"%d\n" % (3 * PART))
        ended = place.run(*words, limits={resource.RLIMIT_STACK: 512 * 1024})
        yield from differs(f"stack, {executors}", ended, 0, b"%d\n" % (3 * PART))
