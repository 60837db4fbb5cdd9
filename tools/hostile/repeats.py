"""Runs that are the same whatever threads do meanwhile, again and again."""
import itertools
import pathlib
import shutil
import subprocess
from collections import Counter
from collections.abc import Iterator

from hostile.runs import Place, differs
from hostile.saves import wrong_parts

SEED, SIZE = 7, 100_000
MOST = 10
FOUR = "l = parallelize 4 1 2 3 4\n"
PARTS = [b"1\n", b"2\n", b"3\n", b"4\n"]
# Small actions, of which a script has as many as it may, with their texts. The odd numbers lie in
# the bucket of 1, and the even ones in that of 0.
KEYED = f"{FOUR}p = map l (pair (% x 2) x)\nc = reduceByKey p 2 (+ a b)\n"
SMALL = {"collect c\n": b"(0,6)\n(1,4)\n", "count l\n": b"4\n", "reduce l (+ a b)\n": b"10\n"}
JOBS, RUNS = 64, 27
SOURCE = pathlib.Path(__file__).resolve().parents[1] / "run_again.c"
# How many kibibytes of memory the last run may have beyond those of the first.
MORE = 1024


def draws(number: int) -> Iterator[int]:
    """What the generator draws, by docs/FORMATS.md."""
    while True:
        number = (number * 1_103_515_245 + 12_345) % 2_147_483_648
        yield number // 65_536


def generated() -> bytes:
    """What the workload of the seed and the size prints."""
    drawn, sums = draws(SEED), Counter()
    for _ in range(SIZE):
        key, value = next(drawn) % 16, next(drawn) % 1_000
        sums[f"k{key}"] += value
    rows = "".join(f"({key},{sums[key]})\n" for key in sorted(sums))
    return f"{rows}{SIZE}\n".encode()


def what_is_generated_is_the_same_with_one_executor_and_with_four(place: Place) -> Iterator[str]:
    """As the definition of the generator has it."""
    wanted = generated()
    words = "gen", "--seed", str(SEED), "--size", str(SIZE), "--executors"
    for executors, _ in itertools.product(("1", "4"), range(min(place.rounds, MOST))):
        yield from differs(f"{executors} executors", place.run(*words, executors), 0, wanted)


def a_slow_attempt_may_get_a_copy(place: Place) -> Iterator[str]:
    """Of four, one whose report is told last. The text and the parts are the same."""
    place.put("plan.txt", "late 0 0 0 9\n")
    place.put("printing.spark", f"{FOUR}collect l\n")
    place.put("saving.spark", f'{FOUR}save l "out"\n')
    for executors, _ in itertools.product(("2", "4"), range(place.rounds)):
        words = "--plan", "plan.txt", "--speculation", "--executors", executors
        ended = place.run("run", "printing.spark", *words)
        yield from differs(f"printed, {executors} executors", ended, 0, b"".join(PARTS))
        ended = place.run("run", "saving.spark", *words)
        yield from differs(f"saved, {executors} executors", ended, 0)
        yield from wrong_parts(place.folder / "out", PARTS)
        shutil.rmtree(place.folder / "out", ignore_errors=True)


def a_hundred_thousand_jobs_leave_no_thread_and_no_memory_behind(place: Place) -> Iterator[str]:
    """In one process, which runs a script of 64 small jobs by four executors again and again. What
    a thread that ended leaves to the next one stands from the first run on."""
    library, seen = place.scratch / "run_again.so", place.scratch / "seen"
    command = ["cc", "-O1", "-shared", "-fPIC", "-fno-builtin", SOURCE, "-o", library]
    subprocess.run(command, check=True)
    actions = list(itertools.islice(itertools.cycle(SMALL.items()), JOBS))
    place.put("small.spark", KEYED + "".join(line for line, _ in actions))
    runs = RUNS * place.rounds
    told = {"TIMES": str(runs), "SEEN": str(seen), "LD_PRELOAD": str(library)}
    ended = place.run("run", "small.spark", "--executors", "4", told=told)
    yield from differs(f"{runs} runs", ended, 0, b"".join(text for _, text in actions) * runs)
    noted = [tuple(map(int, line.split())) for line in seen.read_text().splitlines()]
    if len(noted) != runs:
        yield f"{len(noted)} runs are noted, not {runs}"
    for number, (status, threads, files, standing, memory) in enumerate(noted, 1):
        if (status, threads, files, standing) != (0, 1, *noted[0][2:4]):
            counts = f"{threads} threads, {files} files, {standing} stand"
            yield f"run {number}: status {status}, {counts}"
        if memory > noted[0][4] + MORE:
            yield f"run {number}: {memory} kibibytes, and {noted[0][4]} behind the first"
