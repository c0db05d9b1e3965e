"""Two edges in a chain, the first one restat, run step by step as `compile` wrote them.

The source is newer than what is recorded of the first edge, whose command leaves its output as it was: so it runs, and
the second edge stays clean. In the next run both are clean. Each turn is one of the lowest edge that hasn't ended.
"""
from __future__ import annotations

from collections.abc import Iterator

from lib.image import Image
from lib.plain_machine import ActiveEdge, Ended, Reply, Request, Value

MANIFEST = """rule gen
  command = sh gen.sh
  restat = 1
rule use
  command = cat $in > $out
build mid: gen src
build out: use mid
"""
STAMPS = {b"src": 50, b"mid": 30, b"out": 40}
FIRST: list[Request] = [
    ("stat", b"src"), ("stat", b"mid"), ("recall", b"mid"), ("run", b"sh gen.sh", (b"mid",)),
    ("keep", b"mid", b"sh gen.sh", 50, ()), ("stat", b"mid"), ("stat", b"out"), ("recall", b"out")]
SECOND: list[Request] = [
    ("stat", b"src"), ("stat", b"mid"), ("recall", b"mid"), ("stat", b"out"), ("recall", b"out")]


class World:
    """Files that no command changes, and a record."""

    def __init__(self) -> None:
        self.record = {b"mid": (b"sh gen.sh", 20, ()), b"out": (b"cat mid > out", 30, ())}
        self.asked: list[Request] = []

    def reply(self, request: Request) -> Reply:
        self.asked.append(request)
        word, name, *rest = request
        if word == "stat":
            return "stamp", STAMPS[name]
        if word == "recall":
            return "entry", *self.record[name]
        if word == "keep":
            command, basis, paths = rest
            self.record[name] = (command, basis, paths)
            return ("kept",)
        return "exit", 0


def turn(active_edge: ActiveEdge, world: World) -> bool:
    """Does a step of an edge, with its reply if it asks; returns whether the edge goes on."""
    try:
        if active_edge.step() == "asked" and active_edge.asked:
            active_edge.hear(world.reply(active_edge.asked))
    except Ended:
        return False
    return True


def ran(image: Image, world: World) -> list[bool]:
    """Runs all edges, and which of them ran their commands."""
    slots: list[Value | None] = [None] * len(image.slots)
    active_edges = [ActiveEdge(image, number, slots) for number in range(len(image.edges))]
    left = list(range(len(active_edges)))
    while left:
        if not turn(active_edges[left[0]], world):
            left.pop(0)
    return [active_edge.ran for active_edge in active_edges]


def faults(image: Image) -> Iterator[str]:
    """Yields what two runs, one after the other, ask or run differently."""
    world = World()
    for wanted, runs in ((FIRST, [True, False]), (SECOND, [False, False])):
        world.asked.clear()
        found = ran(image, world)
        if (world.asked, found) != (wanted, runs):
            yield f"restat chain: {world.asked}, ran {found}; wanted {wanted}, ran {runs}"
