#!/usr/bin/env python3
"""Runs random scripts under random fault plans, and compares with the plain meaning.

    tools/fuzz.py PROGRAM [--seed SEED] [--count COUNT] [--times TIMES] [--executors LEAST MOST]
                  [--saving] [--surviving] [--counted] [--told] [--mutate] [--keep FOLDER] [--show]

PROGRAM is a built one, such as crates/spark_run/out/spark_run. A case is made of each of the seeds
SEED, SEED + 1 and so on: a script with inputs, a plan, and words that set executors and limits, the
same ones whenever the seed is the same. tools/fuzzing/ makes it, and says without the program what
it means. Must hold:

- status 0: the standard output is exactly the text of all actions;
- status 9: exactly the driver's fault that the meaning has, behind the texts before it;
- status 10: exactly where an action saves to a directory that is there, as it stood;
- each saved directory has exactly the parts of the meaning and _SUCCESS, and beside these there is
  nothing but the empty directory of a save that was aborted;
- an abort: the texts of some actions, whole, and a cause. Of status 6 that is a raise, or as many
  'fail' lines of the partition as failures are allowed; of 7 as many wipes and losses as attempts
  of a stage are; of 8 a 'lose' line of each executor;
- where the plan leaves the first action no way to its text at all: that abort;
- words, a script, a plan or an input that was spoiled: exactly its refusal, and nothing printed;
- no other status, no signal, and no run of more than LIMIT seconds.

With --mutate the script, the plan or an input is spoiled: its bytes are flipped, cut, doubled or
spliced. tools/fuzzing/reader.py then says by the document which fault of which line comes, or what
the script has become, which must print what it means. No such run may take more than a second of
the processor. One whose text would be too large to compare has to end with a status of a run, if it
ends within LIMIT seconds, and one that would leave its folder isn't run.

With --surviving no action raises or is refused, and the limits leave room for what the plan does:
it spares an executor, it has fewer losses than attempts of a stage may fail, and of each partition
fewer 'fail' lines than failures are allowed. Each such run has to end with 0.

Each case is run TIMES times (1), with LEAST to MOST executors where these are said, and with
--saving only where it saves under a plan that says something. With --counted PROGRAM ends its
standard error with a line such as '0 given up, 3 jobs', which says what became of its jobs: none
may be given up. The built program has no such line; a scratch one that prints the length of `run`'s
`gave_up` does. With --told PROGRAM is spark_story: of its standard error the lines that begin with
two blanks aren't compared, but they too have to count the jobs, and none that was given up.

Prints a paragraph for each run that differs, with its seed, and at the end how many runs ended
with which status, and the sums of what was counted. Ends with 1 where one differs. With --keep the
files of such a case are left in FOLDER/SEED, and with --show each run is printed, whatever comes.
"""
import argparse
import pathlib
import re
import shlex
import sys
from collections import Counter
from collections.abc import Iterator
from dataclasses import dataclass, field

from fuzzing.cases import Case, random_case
from fuzzing.mutations import Unjudged, mutated_case
from fuzzing.runs import NO_END, Folders, Ran, put_files, run, without_counts, without_told

MOST_SECONDS = 1
RAN = (0, 6, 7, 8, 9, 10)
SHOWN = 600
ABORTS = {
    6: re.compile(r"task limit: stage (\d+) attempt (\d+) partition (\d+)\n"),
    7: re.compile(r"stage limit: stage (\d+)\n"),
    8: re.compile(r"no executor\n"),
}


def saved_by(case: Case, done: int) -> Folders:
    """The directories that stand behind the first actions."""
    saved: Folders = {name: {"old": b"old"} for name in case.script.there}
    for outcome in case.script.outcomes[:done]:
        if outcome.folder:
            parts = {f"part-{n:05}": part.encode() for n, part in enumerate(outcome.parts)}
            saved[outcome.folder] = {"_SUCCESS": b"", **parts}
    return saved


def wrong_folders(case: Case, ran: Ran, texts: list[str]) -> str:
    """What is wrong with the directories that stand, behind actions that have these texts."""
    outcomes = case.script.outcomes
    least = len(outcomes) if ran.status == 0 else 0
    for done in range(least, len(texts) + 1):
        if ran.out != "".join(texts[:done]):
            continue
        want = saved_by(case, done)
        begun = outcomes[done].folder if done < len(outcomes) else ""
        if ran.saved == want or (begun and ran.saved == {begun: {}, **want}):
            return ""
    return f"these directories stand: {ran.saved}"


def texts_of(case: Case) -> list[str]:
    """The texts of the actions before the first that has none."""
    texts = []
    for outcome in case.script.outcomes:
        if outcome.text is None:
            break
        texts.append(outcome.text)
    return texts


def wrong_abort(case: Case, ran: Ran, texts: list[str], raises: bool) -> str:
    """What is wrong with an abort."""
    told = ABORTS[ran.status].fullmatch(ran.err)
    if told is None:
        return "the error isn't that of the status"
    done = range(min(len(texts) + 1, len(case.script.outcomes)))
    if ran.out not in ("".join(texts[:number]) for number in done):
        return "the text isn't that of some actions"
    if ran.status == 6 and not (raises and ran.out == "".join(texts)):
        stage, _, partition = map(int, told.groups())
        if case.fails_at(stage, partition) < case.limits["task-failures"]:
            return "neither a raise nor the plan explains that the task's limit was reached"
    if ran.status == 7 and case.losses() < case.limits["stage-attempts"]:
        return "the plan doesn't explain that the stage's limit was reached"
    if ran.status == 8 and not case.loses_all():
        return "the plan leaves an executor"
    return ""


def wrong(case: Case, ran: Ran) -> str:
    """What is wrong with a run, in words, or nothing."""
    if case.refusal is not None:
        is_told = (ran.status, ran.err, ran.out) == (*case.refusal, "")
        return wrong_folders(case, ran, []) if is_told else f"the refusal isn't {case.refusal}"
    if case.is_large:
        return "" if ran.status in (*RAN, NO_END) else "no script that has no fault ends so"
    texts, outcomes = texts_of(case), case.script.outcomes
    last = outcomes[len(texts)] if len(texts) < len(outcomes) else None
    doom = case.doom() if outcomes and not outcomes[0].is_taken else None
    if doom not in (None, (ran.status, ran.err)):
        return f"it isn't aborted with {doom}"
    if ran.status in ABORTS:
        is_raised = last is not None and last.fault is None
        return wrong_abort(case, ran, texts, is_raised) or wrong_folders(case, ran, texts)
    status, err = 0, ""
    if last is not None:
        if last.is_taken:
            status, err = 10, f"output exists: {last.folder}\n"
        elif last.fault is None:
            return "the status isn't 6, and an action raises"
        else:
            status, err = 9, f"driver: action {len(texts)}: {last.fault}\n"
    if (ran.status, ran.err) != (status, err):
        return f"the status isn't {status} with the error {err!r}"
    if ran.out != "".join(texts):
        return f"the text isn't {''.join(texts)!r}"
    return wrong_folders(case, ran, texts)


def shown(case: Case) -> str:
    """A case as it can be read, and typed again."""
    parts = [f"$ spark_run run {shlex.join(case.words)}"]
    for name in sorted(case.files):
        content = case.files[name]
        is_plain = name in ("job.spark", "plan.txt") and b"\r" not in content
        parts.append(f"-- {name}\n{content.decode() if is_plain else content}")
    return "\n".join(parts)


def words_of_main() -> argparse.Namespace:
    parser = argparse.ArgumentParser(
        description=__doc__, formatter_class=argparse.RawDescriptionHelpFormatter
    )
    parser.add_argument("program", type=pathlib.Path)
    parser.add_argument("--seed", type=int, default=0)
    parser.add_argument("--count", type=int, default=100)
    parser.add_argument("--times", type=int, default=1)
    parser.add_argument("--executors", type=int, nargs=2, metavar=("LEAST", "MOST"))
    parser.add_argument("--saving", action="store_true", help="only cases that save under a plan")
    parser.add_argument("--surviving", action="store_true", help="only plans to be survived")
    parser.add_argument("--counted", action="store_true", help="PROGRAM counts what was given up")
    parser.add_argument("--told", action="store_true", help="PROGRAM is spark_story")
    parser.add_argument("--mutate", action="store_true")
    parser.add_argument("--keep", type=pathlib.Path)
    parser.add_argument("--show", action="store_true")
    return parser.parse_args()


def tell(seed: int, case: Case, ran: Ran, found: str) -> None:
    """Prints a case and how it ended."""
    print(f"seed {seed}: status {ran.status}: {found or 'as it should be'}\n{shown(case)}")
    print(f"-- standard output\n{ran.out[:SHOWN]}\n-- standard error\n{ran.err[:SHOWN]}")


def cases(words: argparse.Namespace) -> Iterator[tuple[int, Case]]:
    """The cases that the words ask for, each with its seed."""
    for seed in range(words.seed, words.seed + words.count):
        executors, surviving = words.executors, words.surviving
        try:
            case = mutated_case(seed) if words.mutate else random_case(seed, executors, surviving)
        except Unjudged:
            continue
        if not words.saving or (case.plan and case.saves()):
            yield seed, case


@dataclass
class Tally:
    """How the runs ended: by their status, those that were refused by their fault, what was counted
    of their jobs, the seconds that the longest took, and how many differ."""

    by_status: Counter[int] = field(default_factory=Counter)
    by_fault: Counter[str] = field(default_factory=Counter)
    jobs: Counter[str] = field(default_factory=Counter)
    longest: float = 0
    differ: int = 0

    def add(self, ran: Ran, differs: bool) -> None:
        self.by_status[ran.status] += 1
        if ran.status in (3, 4):
            self.by_fault[re.sub(": line [0-9]+:", "", ran.err.strip())] += 1
        self.longest = max(self.longest, ran.elapsed)
        self.differ += differs

    def lines(self) -> Iterator[str]:
        ends = (f"{status}: {self.by_status[status]}" for status in sorted(self.by_status))
        yield f"by status {', '.join(ends)}"
        if self.by_fault:
            yield ", ".join(f"{it}: {self.by_fault[it]}" for it in sorted(self.by_fault))
        if self.jobs:
            yield ", ".join(f"{number} {what}" for what, number in self.jobs.items())
        told = f"{self.by_status.total()} runs, {self.differ} differ"
        yield f"{told}, the longest took {self.longest:.1f} seconds"


def tried(words: argparse.Namespace, case: Case, jobs: Counter[str]) -> tuple[Ran, str]:
    """A run of a case, and what is wrong with it. Adds what it counts."""
    ran, found = run(words.program.resolve(), case), ""
    if words.told or words.counted:
        ran, counts = without_told(ran) if words.told else without_counts(ran)
        jobs.update(counts or {})
        is_silent = counts is None and (ran.status in RAN or words.counted)
        if is_silent or (counts and counts["given up"]):
            found = "a job was given up, or nothing is told of it"
    found = wrong(case, ran) or found
    if words.surviving and ran.status:
        found = found or "it isn't 0, and the limits leave room for what the plan does"
    if words.mutate and not case.is_large and ran.seconds > MOST_SECONDS:
        found = found or f"it took {ran.seconds:.1f} seconds"
    return ran, found


def main() -> int:
    words = words_of_main()
    tally, seeds = Tally(), set()
    for seed, case in cases(words):
        seeds.add(seed)
        for _ in range(words.times):
            ran, found = tried(words, case, tally.jobs)
            tally.add(ran, bool(found))
            if found or words.show:
                tell(seed, case, ran, found)
            if found and words.keep:
                put_files(case, words.keep / str(seed))
    last = words.seed + words.count - 1
    print(f"{len(seeds)} cases of the seeds {words.seed} to {last}", *tally.lines(), sep="\n")
    return 1 if tally.differ else 0


if __name__ == "__main__":
    sys.exit(main())
