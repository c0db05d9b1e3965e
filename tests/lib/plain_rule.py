"""The out-of-date rule of docs/rules/out-of-date.md, written from its words: what an edge asks, and what comes of it.

An edge is a generator in Python's sense: it yields requests, is sent replies, and returns what it ends with.
"""
from __future__ import annotations

from collections.abc import Iterable
from typing import Any, Generator, List, NamedTuple, Tuple, Union

from lib import plain_depfiles

Request = Tuple[Any, ...]
Reply = Tuple[Any, ...]
Stamps = List[int]


class Made(NamedTuple):
    """An input that another edge makes: its stamp, and whether it changed."""

    stamp: int
    changed: bool


class Source(NamedTuple):
    """An input that nothing makes: its number in the image, and its path."""

    file: int
    path: bytes


Input = Union[Made, Source]


class Facts(NamedTuple):
    """What the rule is told of an edge."""

    outputs: tuple[bytes, ...]
    named: tuple[Input, ...]
    order_only: tuple[Input, ...]
    is_phony: bool = False
    command: bytes = b""
    depfile: bytes = b""
    restat: bool = False
    generator: bool = False


class Fails(Exception):
    """The edge fails, and why."""


class End(NamedTuple):
    """The edge ended well: whether its command ran, and of each output its stamp, and whether it changed."""

    ran: bool
    outputs: list[Made]


Asking = Generator[Request, Reply, Any]


def stamp(path: bytes) -> Asking:
    reply = yield "stat", path
    if reply[0] == "fault":
        raise Fails(("stat fault",))
    return reply[1]


def stamps(paths: Iterable[bytes]) -> Asking:
    found = []
    for path in paths:
        found.append((yield from stamp(path)))
    return found


def asked_inputs(inputs: Iterable[Input]) -> Asking:
    """Returns the stamps of inputs. A source is asked for, and must exist."""
    found = []
    for given in inputs:
        if isinstance(given, Source):
            found.append((yield from stamp(given.path)))
            if found[-1] == 0:
                raise Fails(("missing input", given.file))
        else:
            found.append(given.stamp)
    return found


def order_only_sources(facts: Facts) -> list[Input]:
    """Returns the order-only sources that are no named inputs too, since each is asked for once."""
    return [given for given in facts.order_only if isinstance(given, Source) and given not in facts.named]


def is_changed(facts: Facts) -> bool:
    return any(isinstance(given, Made) and given.changed for given in facts.named)


def entry_of(reply: Reply) -> tuple[bytes, int, tuple[bytes, ...]] | None:
    if reply[0] == "fault":
        raise Fails(("record fault",))
    return reply[1:] if reply[0] == "entry" else None


def command_edge(facts: Facts) -> Asking:
    yield from asked_inputs(order_only_sources(facts))
    named = yield from asked_inputs(facts.named)
    old = yield from stamps(facts.outputs)
    entry = entry_of((yield "recall", facts.outputs[0]))
    recorded = yield from stamps(entry[2] if entry else ())
    mark = entry[1] if facts.restat and entry else min(old)
    is_dirty = (0 in old or is_changed(facts) or 0 in recorded
                or (not facts.generator and (entry is None or entry[0] != facts.command))
                or max(named + recorded, default=0) > mark)
    if not is_dirty:
        return End(False, [Made(found, False) for found in old])
    reply = yield "run", facts.command, facts.outputs
    if reply != ("exit", 0):
        raise Fails(reply)
    paths = (yield from depfile_paths(facts.depfile)) if facts.depfile else ()
    swept = yield from stamps(paths)
    reply = yield "keep", facts.outputs[0], facts.command, max(named + swept, default=0), paths
    if reply[0] == "fault":
        raise Fails(("record fault",))
    new = yield from stamps(facts.outputs)
    return End(True, [Made(now, not facts.restat or now != before) for before, now in zip(old, new)])


def depfile_paths(path: bytes) -> Asking:
    reply = yield "deps", path
    if reply[0] == "fault":
        raise Fails(("depfile fault",))
    found = plain_depfiles.read(reply[1] if reply[0] == "bytes" else b"")
    if isinstance(found, tuple):
        raise Fails(("depfile malformed", *found))
    return tuple(found)


def phony_edge(facts: Facts) -> Asking:
    if not facts.named and not facts.order_only:
        found = yield from stamps(facts.outputs)
        return End(False, [Made(now, now == 0) for now in found])
    yield from asked_inputs(order_only_sources(facts))
    named = yield from asked_inputs(facts.named)
    return End(False, [Made(max(named, default=0), is_changed(facts))] * len(facts.outputs))


def edge(facts: Facts) -> Asking:
    return phony_edge(facts) if facts.is_phony else command_edge(facts)
