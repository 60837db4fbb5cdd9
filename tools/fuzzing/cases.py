"""Random cases: a script with its inputs, a fault plan and the words of a run, and what may come.

A few cases have one fault that refuses the run: in its words, its script, its plan or an input.
"""
import random
from collections.abc import Sequence
from dataclasses import dataclass, field

from fuzzing.scripts import Script, random_script

PlanLine = tuple[str | int, ...]
PLAN_KINDS = ("fail", "fail", "late", "late", "twice", "drop", "drop", "lose", "evict")
SCRIPT_FAULTS = (
    ("unknown = sample 3", "UnknownName"),
    ("unknown = map nowhere x", "UnknownName"),
    ("take 3", "UnknownName"),
    ("unknown =", "Syntax"),
    ('unknown=text "in0.txt" 1', "Syntax"),
    ('unknown = text "" 1', "Syntax"),
    ('unknown = parallelize 1 1 "a"', "Syntax"),
    ("unknown = parallelize 0 1", "Limit"),
    ("unknown = parallelize 1 9223372036854775808", "Limit"),
    ("unknown = filter {} 7", "IllTyped"),
    ('unknown = map {} (+ 1 "a")', "IllTyped"),
    ("unknown = map {} a", "UnknownName"),
    ("unknown = repartition {} 1025", "Limit"),
    ("reduce {} (+ x x)", "UnknownName"),
    ("{} = parallelize 1 1", "Twice"),
    ("count {} # all", "Syntax"),
    ('save {} ""', "Syntax"),
    ('save {} "out/"', "Syntax"),
    ("save {} out", "Syntax"),
)
PLAN_FAULTS = (
    ("crash 0 1", "UnknownName"),
    ("drop 0", "Syntax"),
    ("drop 0 +1", "Syntax"),
    ("drop {} 1", "Limit"),
    ("lose 0 5 4", "Limit"),
    ("fail 0 0 1000001", "Limit"),
)
BAD_WORDS = (
    ("--executors", "65"),
    ("--executors=0",),
    ("--cache", "0"),
    ("--task-failures=x",),
    ("--speculation=x",),
    ("--speculation", "--speculation"),
)


@dataclass
class Case:
    """What a run gets, and the status and error of its refusal, if it has a fault. What the actions
    of a large one give isn't known."""

    script: Script
    limits: dict[str, int]
    plan: list[PlanLine]
    words: list[str] = field(default_factory=list)
    files: dict[str, bytes] = field(default_factory=dict)
    refusal: tuple[int, str] | None = None
    is_large: bool = False

    def fails_at(self, stage: int, partition: int) -> int:
        """How many attempts at a partition fail by the plan."""
        return sum(line[:3] == ("fail", stage, partition) for line in self.plan)

    def losses(self) -> int:
        """How often outputs may be missed by the plan: once by a wipe, and once by its telling."""
        return sum({"drop": 1, "lose": 2}.get(str(line[0]), 0) for line in self.plan)

    def saves(self) -> bool:
        """Whether an action saves."""
        return any(outcome.folder for outcome in self.script.outcomes)

    def told_losses(self) -> list[str | int]:
        """At how many reports the executors are told lost that the plan loses."""
        return [line[3] for line in self.plan if line[0] == "lose"]

    def loses_all(self) -> bool:
        return len(self.told_losses()) == self.limits["executors"]

    def survives(self) -> bool:
        """Whether the limits leave room for all that the plan does: an executor is spared, there
        are fewer losses than attempts of a stage may fail, and of each partition fewer attempts
        fail than may."""
        failing = {line[1:3] for line in self.plan if line[0] == "fail"}
        is_failed = any(self.fails_at(*it) >= self.limits["task-failures"] for it in failing)
        return not (self.loses_all() or is_failed or self.losses() >= self.limits["stage-attempts"])

    def doom(self) -> tuple[int, str] | None:
        """The abort that has to come at the first action, where this can be told from the plan: all
        executors are lost before they get a task, or nothing goes wrong but that the first task
        fails as often as it may."""
        if self.loses_all() and not any(self.told_losses()):
            return 8, "no executor\n"
        fails = self.fails_at(0, 0)
        first = all(("fail", 0, 0, nth) in self.plan for nth in range(self.limits["task-failures"]))
        if first and fails == len(self.plan):
            return 6, "task limit: stage 0 attempt 0 partition 0\n"
        return None


def random_line(rng: random.Random, executors: int) -> PlanLine:
    """A line of a plan."""
    kind = rng.choice(PLAN_KINDS)
    place = (rng.randint(0, 5), rng.choice((0, 0, 1, 1, 2, 3)), rng.choice((0, 0, 0, 1, 2)))
    executor, after = rng.randrange(executors), rng.randint(0, 16)
    if kind in ("fail", "twice"):
        return (kind, *place)
    if kind == "late":
        return (kind, *place, rng.choice((1, 1, 2, 3, 6, 20)))
    return (kind, executor, after, *([after + rng.choice((0, 0, 1, 4))] if kind == "lose" else []))


def random_plan(rng: random.Random, executors: int) -> list[PlanLine]:
    """A plan of some lines, of which no two say the same: now and then with one partition that
    fails again and again, with one store that is wiped again and again, or without survivors."""
    lines = [random_line(rng, executors) for _ in range(rng.choice((0, 0, 1, 2, 4, 8)))]
    way = rng.random()
    if way < 0.15:
        stage, partition = rng.choice((0, 0, 1, 2)), rng.choice((0, 0, 1))
        failing = [("fail", stage, partition, nth) for nth in range(rng.randint(1, 5))]
        lines = failing + (lines if rng.random() < 0.5 else [])
    elif way < 0.25:
        executor, step = rng.randrange(executors), rng.randint(1, 3)
        lines += [("drop", executor, after) for after in range(1, 14, step)]
    elif way < 0.3:
        told = rng.choice((0, 0, 2, 5, 9))
        lines += [("lose", executor, told, told) for executor in range(executors)]
    said: dict[PlanLine, PlanLine] = {}
    for line in lines:
        said.setdefault(line[: {"lose": 2, "late": 4}.get(str(line[0]), len(line))], line)
    return list(said.values())


def surviving_script(rng: random.Random) -> Script:
    """A script each of whose actions has a text, so nothing that they read raises."""
    script = random_script(rng)
    while not script.outcomes or any(outcome.text is None for outcome in script.outcomes):
        script = random_script(rng)
    return script


def spare(rng: random.Random, case: Case) -> None:
    """Takes out of a case's plan the lines for which the limits leave no room. Where none is left
    another plan is made."""
    lines, case.plan = case.plan, []
    while not case.plan:
        for line in lines:
            case.plan.append(line)
            if not case.survives():
                case.plan.pop()
        lines = random_plan(rng, case.limits["executors"])


def plan_text(rng: random.Random, plan: list[PlanLine]) -> str:
    """A plan as it is written, with a comment here and there."""
    written = [" ".join(map(str, line)) for line in plan]
    for place in range(len(written), -1, -1):
        if rng.random() < 0.05:
            written.insert(place, rng.choice(("# what goes wrong", "", " \t")))
    return "".join(f"{line}\n" for line in written)


def random_limits(rng: random.Random, executors: Sequence[int] | None) -> dict[str, int]:
    """The limits of a run, with so many executors at least and at most where that is said."""
    number = rng.randint(*executors) if executors else rng.choice((1, 2, 2, 2, 3, 4, 8))
    limits = {"executors": number, "task-failures": 4}
    limits |= {"stage-attempts": 4, "cache": 64}
    for name, numbers in (
        ("task-failures", (1, 2, 3, 5)),
        ("stage-attempts", (1, 2, 3, 8)),
        ("cache", (1, 2, 3)),
    ):
        if rng.random() < 0.3:
            limits[name] = rng.choice(numbers)
    return limits


def add_fault(rng: random.Random, case: Case, executors: int) -> None:
    """Spoils a case at one place, which is told."""
    way = rng.choice(("words", "script", "script", "script", "plan", "plan", "input", "text"))
    named = case.script.named
    if way == "words":
        case.words += rng.choice(BAD_WORDS)
        case.refusal = (2, "usage\n")
    elif way == "script":
        line, kind = rng.choice(SCRIPT_FAULTS)
        case.script.lines.append(line.format(case.script.names[0]))
        case.refusal = (3, f"script: line {len(case.script.lines)}: {kind}\n")
    elif way == "plan" and "plan.txt" in case.files:
        line, kind = rng.choice(PLAN_FAULTS)
        number = case.files["plan.txt"].count(b"\n") + 1
        case.files["plan.txt"] += line.format(executors).encode()
        case.refusal = (4, f"plan: line {number}: {kind}\n")
    elif way == "input" and named:
        name = rng.choice(named)
        del case.files[name]
        case.refusal = (5, f"input: {name}: missing\n")
    elif way == "text" and named:
        name = rng.choice(named)
        case.files[name] += b"\xff"
        case.refusal = (15, f"not text: {name}\n")


def random_case(
    seed: int, executors: Sequence[int] | None = None, surviving: bool = False
) -> Case:
    """The case of a seed, with so many executors at least and at most where that is said, and one
    that has to end with 0 under a plan where that is wanted."""
    rng = random.Random(seed)
    script = surviving_script(rng) if surviving else random_script(rng)
    limits = random_limits(rng, executors)
    case = Case(script, limits, random_plan(rng, limits["executors"]), files=dict(script.inputs))
    if surviving:
        spare(rng, case)
    usual = {"executors": 2, "task-failures": 4, "stage-attempts": 4, "cache": 64}
    for name, number in limits.items():
        if number != usual[name] or rng.random() < 0.1:
            joint = rng.random() < 0.3
            case.words += [f"--{name}={number}"] if joint else [f"--{name}", str(number)]
    if rng.random() < 0.2:
        case.words.append("--speculation")
    if case.plan or rng.random() < 0.2:
        case.files["plan.txt"] = plan_text(rng, case.plan).encode()
        case.words += ["--plan", "plan.txt"]
    if rng.random() < 0.06 and not surviving:
        add_fault(rng, case, limits["executors"])
    case.words.insert(0 if rng.random() < 0.7 else len(case.words), "job.spark")
    line_end = rng.choice(("\n", "\n", "\n", "\r\n", "\r"))
    case.files["job.spark"] = "".join(line + line_end for line in script.lines).encode()
    return case
