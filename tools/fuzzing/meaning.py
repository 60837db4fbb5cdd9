"""What a script means, on plain lists: docs/MEANING.md once more, in another language.

tools/fuzz.py compares the program with it. It shares no code and no data with the crates, and looks
at no stage, executor or plan. Every operation by key is a shuffle here. Scripts are taken as they
are checked already: nothing is refused but partitions that would grow past what a comparison is for
(TooLarge).
"""
from collections.abc import Callable, Iterator
from dataclasses import dataclass

from fuzzing.values import (
    Expr,
    Raised,
    TooLarge,
    Value,
    bounds_of,
    bucket_of,
    in_order,
    lines,
    printed,
    value_of,
)

Fold = Callable[[Value, Value], Value]
Rows = list[Value]
MOST_ROWS = 1_000


@dataclass(frozen=True)
class Node:
    """A definition: its operation, the numbers of its parents, and what else it takes."""

    operation: str
    parents: tuple[int, ...] = ()
    count: int = 1
    expr: Expr = 0
    literals: tuple[int | str, ...] = ()
    input: str = ""


@dataclass(frozen=True)
class Action:
    """collect, count, reduce or save of a node: reduce by an expression over a and b, and save to a
    directory."""

    name: str
    node: int
    expr: Expr = 0
    folder: str = ""


@dataclass(frozen=True)
class Stream:
    """The rows of a partition, and the raise that ended them, if one did."""

    rows: Rows
    raised: str = ""


Streams = list[Stream]


@dataclass(frozen=True)
class Outcome:
    """What an action gives: a text, a fault of the driver, or neither where a partition raises. A
    save has its directory, and the text of each part where it isn't refused."""

    text: str | None = None
    fault: str | None = None
    folder: str = ""
    parts: tuple[str, ...] = ()
    is_taken: bool = False


def fold_by(expr: Expr) -> Fold:
    return lambda a, b: value_of(expr, {"a": a, "b": b})


def folded(fold: Fold, rows: Rows) -> Rows:
    """Rows put together from the left: one row, or none of none."""
    together = rows[:1]
    for row in rows[1:]:
        together = [fold(together[0], row)]
    return together


def under_keys(rows: Rows) -> dict[Value, Rows]:
    """Each key in order of first appearance, with its values in order."""
    under: dict[Value, Rows] = {}
    for key, value in rows:
        under.setdefault(key, []).append(value)
    return under


def combined(fold: Fold, rows: Rows) -> Rows:
    """Each key with its values put together, row after row."""
    under: dict[Value, Value] = {}
    for key, value in rows:
        under[key] = fold(under[key], value) if key in under else value
    return list(under.items())


def met(operation: str, left: Rows, right: Rows) -> Rows:
    """What rows give where they meet: the keys of the left side, then the new ones of the right."""
    lefts, rights = under_keys(left), under_keys(right)
    keys = dict.fromkeys([*lefts, *rights])
    if operation == "cogroup":
        return [(key, (lefts.get(key, []), rights.get(key, []))) for key in keys]
    return [(k, (v, w)) for k in keys for v in lefts.get(k, []) for w in rights.get(k, [])]


def given(operation: str, row: Value, expr: Expr) -> Rows:
    """The rows that an operation row by row gives of one."""
    by_value = operation.endswith("Values")
    value = value_of(expr, {"x": row[1] if by_value else row})
    if operation == "filter":
        return [row] if value else []
    values = value if operation.startswith("flatMap") else [value]
    return [(row[0], it) for it in values] if by_value else list(values)


def each_of(node: Node, stream: Stream) -> Stream:
    """An operation row by row over a stream, up to the first raise."""
    rows: Rows = []
    for row in stream.rows:
        try:
            rows += given(node.operation, row, node.expr)
        except Raised as why:
            return Stream(rows, str(why))
    return Stream(rows, stream.raised)


def joined(streams: Streams) -> Stream:
    """Streams one behind another, up to the first raise."""
    rows: Rows = []
    for stream in streams:
        rows = rows + stream.rows
        if stream.raised:
            return Stream(rows, stream.raised)
    return Stream(rows)


def slices(items: list, count: int) -> Iterator[list]:
    """A list in even slices."""
    for part in range(count):
        yield items[part * len(items) // count : (part + 1) * len(items) // count]


def dealt(sides: list[Rows], count: int, bucket: Callable[[int, int, Value], int]) -> list[Rows]:
    """The rows of each bucket, from the map sides in order."""
    buckets: list[Rows] = [[] for _ in range(count)]
    for part, rows in enumerate(sides):
        for place, row in enumerate(rows):
            buckets[bucket(part, place, row)].append(row)
    return buckets


def side_of(node: Node, stream: Stream) -> Rows:
    """The map side of a partition, which is nothing but its raise where there is one."""
    by_key = node.operation == "reduceByKey"
    rows = combined(fold_by(node.expr), stream.rows) if by_key else stream.rows
    if stream.raised:
        raise Raised(stream.raised)
    return rows


def reduce_side(node: Node, rows: Rows) -> Stream:
    """What a shuffle of one parent makes of the rows of a bucket."""
    if node.operation == "reduceByKey":
        try:
            return Stream(combined(fold_by(node.expr), rows))
        except Raised as why:
            return Stream([], str(why))
    if node.operation == "groupByKey":
        return Stream(list(under_keys(rows).items()))
    return Stream(rows)


def sorted_parts(sides: list[Rows], count: int) -> Streams:
    """The rows in the order of their keys, in as many partitions as there are ranges."""
    bounds = [in_order(it) for it in bounds_of([row[0] for rows in sides for row in rows], count)]
    parts = dealt(
        sides, len(bounds) + 1, lambda m, k, row: sum(it < in_order(row[0]) for it in bounds)
    )
    return [Stream(sorted(rows, key=lambda row: in_order(row[0]))) for rows in parts]


def shuffled(node: Node, parents: list[Streams]) -> Streams:
    """A shuffle of one parent or of two. Where a map side raises, each partition does."""
    try:
        sides = [[side_of(node, stream) for stream in parent] for parent in parents]
    except Raised as why:
        return [Stream([], str(why))] * (1 if node.operation == "sortByKey" else node.count)
    count = node.count
    if node.operation == "sortByKey":
        return sorted_parts(sides[0], count)
    if node.operation == "repartition":
        return [Stream(rows) for rows in dealt(sides[0], count, lambda m, k, row: (m + k) % count)]
    by_hash = [dealt(side, count, lambda m, k, row: bucket_of(row[0], count)) for side in sides]
    if len(by_hash) == 2:
        return [Stream(met(node.operation, *both)) for both in zip(*by_hash)]
    return [reduce_side(node, rows) for rows in by_hash[0]]


def made_of(node: Node, parents: list[Streams], inputs: dict[str, bytes]) -> Streams:
    """The streams of a node, from those of its parents."""
    if node.operation == "text":
        return [Stream(list(it)) for it in slices(lines(inputs[node.input].decode()), node.count)]
    if node.operation == "parallelize":
        return [Stream(list(it)) for it in slices(list(node.literals), node.count)]
    if node.operation == "union":
        return parents[0] + parents[1]
    if node.operation == "cache":
        return parents[0]
    if node.operation == "coalesce":
        return [joined(run) for run in slices(parents[0], min(node.count, len(parents[0])))]
    if node.operation in ("map", "filter", "flatMap", "mapValues", "flatMapValues"):
        return [each_of(node, stream) for stream in parents[0]]
    return shuffled(node, parents)


def streams_of(node: Node, before: list[Streams], inputs: dict[str, bytes]) -> Streams:
    """The streams of a node, from those of the nodes before it."""
    streams = made_of(node, [before[parent] for parent in node.parents], inputs)
    if sum(len(stream.rows) for stream in streams) > MOST_ROWS:
        raise TooLarge
    return streams


def result_of(action: Action, stream: Stream) -> Rows:
    """What an action makes of a partition."""
    rows = folded(fold_by(action.expr), stream.rows) if action.name == "reduce" else stream.rows
    if stream.raised:
        raise Raised(stream.raised)
    return rows


def outcome_of(action: Action, streams: Streams) -> Outcome:
    """What an action gives, from the streams of its node."""
    try:
        results = [result_of(action, stream) for stream in streams]
    except Raised:
        return Outcome(folder=action.folder)
    rows = [row for result in results for row in result]
    if action.name == "save":
        parts = ("".join(f"{printed(row)}\n" for row in result) for result in results)
        return Outcome("", folder=action.folder, parts=tuple(parts))
    if action.name == "collect":
        return Outcome("".join(f"{printed(row)}\n" for row in rows))
    if action.name == "count":
        return Outcome(f"{len(rows)}\n")
    try:
        whole = folded(fold_by(action.expr), rows)
    except Raised as why:
        return Outcome(fault=str(why))
    return Outcome(f"{printed(whole[0])}\n") if whole else Outcome(fault="EmptyCollection")
