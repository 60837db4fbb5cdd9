"""Outputs that are closed, and limits of the system on memory, files and threads."""
import itertools
import os
import resource
import shutil
import signal
from collections.abc import Iterator

from hostile.runs import NOBODY, Ended, Place, differs
from hostile.saves import parts_of, saving, wrong_abort, wrong_end, wrong_parts

WORD_COUNT = """l = text "in.txt" 2
w = flatMap l (words x)
p = map w (pair x 1)
c = reduceByKey p 2 (+ a b)
collect c
count c
"""
TEXT = b"(b,2)\n(a,1)\n2\n"
FULL = b"write failed\n"
KIB = 1_024
NEAR, FAR = 32 * KIB, 400 * KIB
LONG_ROWS = " ".join(str(number) for number in range(10_000, 10_064))
LONG_TEXT = LONG_ROWS.replace(" ", "\n").encode() + b"\n"


def word_count(place: Place) -> None:
    place.put("in.txt", "b a\nb\n")
    place.put("job.spark", WORD_COUNT)


def a_closed_output_takes_nothing(place: Place) -> Iterator[str]:
    """The text that can't be written is told, nothing lands in a file that was saved, and a run
    without a text needs no output."""
    word_count(place)
    place.put("saving.spark", 'l = text "in.txt" 2\nsave l "out"\n')
    place.put("both.spark", 'l = text "in.txt" 2\nsave l "both"\ncollect l\n')

    def close() -> None:
        os.close(1)

    yield from differs("closed", place.run("run", "job.spark", before=close), 12, b"", FULL)
    yield from differs("no text", place.run("run", "saving.spark", before=close), 0)
    yield from differs("saved", place.run("run", "both.spark", before=close), 12, b"", FULL)
    for name in ("out", "both"):
        yield from wrong_parts(place.folder / name, [b"b a\n", b"b\n"])
    if (place.folder / "in.txt").read_bytes() != b"b a\nb\n":
        yield "the input was written to"


def a_closed_error_leaves_the_status(place: Place) -> Iterator[str]:
    word_count(place)

    def close() -> None:
        os.close(2)

    for words, status, out in (
        (("run", "job.spark"), 0, TEXT),
        (("run", "in.txt"), 3, b""),
        (("run", "nothing"), 5, b""),
        ((), 2, b""),
    ):
        yield from differs(f"{words}", place.run(*words, before=close), status, out)


def a_closed_input_is_not_missed(place: Place) -> Iterator[str]:
    """Nor are all three: then the text that can't be written is missed, and what is saved isn't."""
    word_count(place)
    place.put("saving.spark", 'l = text "in.txt" 2\nsave l "out"\n')
    place.put("both.spark", 'l = text "in.txt" 2\nsave l "both"\ncollect l\nsave l "last"\n')

    def close_all() -> None:
        os.closerange(0, 3)

    ended = place.run("run", "job.spark", before=lambda: os.close(0))
    yield from differs("the input", ended, 0, TEXT)
    yield from differs("all", place.run("run", "saving.spark", before=close_all), 0)
    yield from differs("all, and a text", place.run("run", "both.spark", before=close_all), 12)
    for name in ("out", "both"):
        yield from wrong_parts(place.folder / name, [b"b a\n", b"b\n"])
    if (place.folder / "last").exists():
        yield "a save behind the text is begun"


def deepest() -> str:
    """A script whose nodes stand behind one another as often as they may, each with an expression
    that nests as deep as it may."""
    around = f"{'(- 0 ' * 32}x{')' * 32}"
    maps = "".join(f"n{it + 1} = map n{it} {around}\n" for it in range(255))
    return f"n0 = parallelize 2 1 2\n{maps}collect n255\n"


def a_small_or_an_endless_stack_is_enough(place: Place) -> Iterator[str]:
    """From 512 KiB on, also for the deepest script."""
    place.put("deep.spark", deepest())
    for size in (512 * KIB, KIB * KIB, 8 * KIB * KIB, resource.RLIM_INFINITY):
        for executors in ("1", "4"):
            words = "run", "deep.spark", "--executors", executors
            ended = place.run(*words, limits={resource.RLIMIT_STACK: size})
            yield from differs(f"{size} bytes, {executors} executors", ended, 0, b"1\n2\n")


def a_pipe_that_nobody_reads_takes_nothing(place: Place) -> Iterator[str]:
    """Also where the signal of it isn't ignored by whoever starts the program."""
    word_count(place)
    for way in (signal.SIG_DFL, signal.SIG_IGN):
        read, write = os.pipe()
        os.close(read)
        ended = place.run(
            "run", "job.spark", stdout=write, before=lambda: signal.signal(signal.SIGPIPE, way)
        )
        os.close(write)
        yield from differs(f"{way.name}", ended, 12, b"", FULL)


def a_few_open_files_are_enough(place: Place) -> Iterator[str]:
    """Eight, and without a save four: those of the standard and one more. However many executors
    there are, one file is open at a time."""
    word_count(place)
    for count in (8, 4):
        for executors in ("1", "4", "64"):
            words = "run", "job.spark", "--executors", executors
            ended = place.run(*words, limits={resource.RLIMIT_NOFILE: count})
            yield from differs(f"{words}", ended, 0, TEXT)
    place.put("saving.spark", saving(16))
    ended = place.run("run", "saving.spark", limits={resource.RLIMIT_NOFILE: 8})
    yield from differs("saved", ended, 0)
    yield from wrong_parts(place.folder / "out", parts_of(16))


def where_no_thread_can_be_made_the_text_is_the_same(place: Place) -> Iterator[str]:
    """The user of the run may have one thread, or one or two more. Executors that get none work one
    after the other."""
    word_count(place)
    place.put("plan.txt", "drop 0 1\nlate 0 1 0 3\ntwice 0 0 0\n")
    place.put("saving.spark", saving(16))
    lines = b"(k1,515)\n(k11,627)\n(k2,419)\n(k6,758)\n4\n"
    for threads in (1, 2, 3):
        around = {"limits": {resource.RLIMIT_NPROC: threads}, "user": NOBODY}
        for executors in ("1", "2", "4", "64"):
            words = "run", "job.spark", "--plan", "plan.txt", "--executors", executors
            ended = place.run(*words, **around)
            yield from differs(f"{threads} threads, {executors} executors", ended, 0, TEXT)
        ended = place.run("gen", "--seed", "1", "--size", "4", "--executors", "4", **around)
        yield from differs(f"gen, {threads} threads", ended, 0, lines)
        ended = place.run("run", "saving.spark", "--executors", "4", **around)
        yield from differs(f"saved, {threads} threads", ended, 0)
        yield from wrong_parts(place.folder / "out", parts_of(16))
        shutil.rmtree(place.folder / "out", ignore_errors=True)


def a_file_that_may_not_grow_is_a_device_fault(place: Place) -> Iterator[str]:
    """Of each attempt at a part, up to the limit. Where whoever starts the program leaves the
    signal of it to the system, that ends the run instead."""
    place.put("saving.spark", f'l = parallelize 2 {LONG_ROWS}\nsave l "out"\n')
    limits = [b"task limit: stage 0 attempt 0 partition %d\n" % part for part in (0, 1)]
    for way in (signal.SIG_IGN, signal.SIG_DFL):
        ended = place.run("run", "saving.spark", **not_growing(way))
        if is_killed(ended, way):
            yield from wrong_end(place.folder / "out", [LONG_TEXT[:192], LONG_TEXT[192:]])
        else:
            if ended.status != 6 or ended.err not in limits or ended.out:
                yield f"{way.name}: {ended.shown()}"
            yield from wrong_abort(place.folder / "out")
        shutil.rmtree(place.folder / "out", ignore_errors=True)


def an_output_that_may_not_grow_takes_some_first_bytes(place: Place) -> Iterator[str]:
    place.put("printing.spark", f"l = parallelize 2 {LONG_ROWS}\ncollect l\n")
    for way in (signal.SIG_IGN, signal.SIG_DFL):
        with (place.scratch / "output").open("w+b") as output:
            ended = place.run("run", "printing.spark", stdout=output.fileno(), **not_growing(way))
            output.seek(0)
            took = output.read()
        if not is_killed(ended, way):
            yield from differs(way.name, ended, 12, b"", FULL)
        if took != LONG_TEXT[:100]:
            yield f"{way.name}: {took[-20:]!r} is the end of {len(took)} bytes"


def an_output_that_takes_some_bytes_has_these(place: Place) -> Iterator[str]:
    """However many of the text they are. The error has as much room."""
    word_count(place)
    for executors, size in itertools.product(("1", "4"), range(len(TEXT) + 1)):
        with (place.scratch / "output").open("w+b") as output:
            words = "run", "job.spark", "--executors", executors
            around = not_growing(signal.SIG_IGN, size)
            ended = place.run(*words, stdout=output.fileno(), **around)
            output.seek(0)
            took = output.read()
        is_whole = size == len(TEXT)
        yield from differs(f"{size} bytes", ended, *((0,) if is_whole else (12, b"", FULL[:size])))
        if took != TEXT[:size]:
            yield f"{size} bytes: {took!r} is written"


def not_growing(way: signal.Handlers, size: int = 100) -> dict:
    """No file may have more than so many bytes, and the signal of it is treated so."""
    return {
        "limits": {resource.RLIMIT_FSIZE: size},
        "before": lambda: signal.signal(signal.SIGXFSZ, way),
    }


def is_killed(ended: Ended, way: signal.Handlers) -> bool:
    return way == signal.SIG_DFL and ended.status == -signal.SIGXFSZ


def sizes(place: Place) -> Iterator[int]:
    """Kibibytes of memory: from the least in which a run without words comes to its end, close
    together where a small run needs them, and then up to much more."""
    least = next((it for it in range(2 * KIB, 99 * KIB, KIB) if is_enough(place, it)), None)
    if least is None:
        raise RuntimeError("no memory is enough")
    yield from range(least, least + NEAR, NEAR // (4 * place.rounds))
    yield from range(least + NEAR, least + FAR, 50 * KIB)


def is_enough(place: Place, memory: int) -> bool:
    return place.run(memory=memory).status == 2


def is_want(ended: Ended) -> bool:
    return ended.status == 13 and ended.err == b"out of memory\n"


def little_memory_is_told(place: Place) -> Iterator[str]:
    """From what a run without words needs, up to where all goes: each run ends as ever or wants
    memory, behind the texts of some actions."""
    word_count(place)
    place.put("in.txt", "b a\nb\n" * 50_000)
    text = b"(b,100000)\n(a,50000)\n2\n"
    for size in sizes(place):
        for executors in ("1", "4"):
            ended = place.run("run", "job.spark", "--executors", executors, memory=size)
            if not (is_want(ended) and ended.out in (b"", text[:-2])):
                yield from differs(f"{size} KiB, {executors} executors", ended, 0, text)


def little_memory_in_a_save_is_told(place: Place) -> Iterator[str]:
    """What stands then is what a save may leave."""
    place.put("in.txt", "7\n" * 200_000)
    place.put("saving.spark", 'l = text "in.txt" 8\nm = map l (concat x "!")\nsave m "out"\n')
    parts = [b"7!\n" * 25_000] * 8
    for size in sizes(place):
        ended = place.run("run", "saving.spark", "--executors", "4", memory=size)
        if is_want(ended) and not ended.out:
            yield from wrong_end(place.folder / "out", parts)
        else:
            yield from differs(f"{size} KiB", ended, 0)
            yield from wrong_parts(place.folder / "out", parts)
        shutil.rmtree(place.folder / "out", ignore_errors=True)
