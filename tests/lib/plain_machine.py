"""A plain machine for images, with any number of edges.

docs/rules/image.md has the instructions, docs/rules/machine.md the events.

Each count is a scan, and a value is a pair of its kind and what it holds: `("P", (paths, swept))` are paths of which so
many were swept. Requests and replies are tuples that begin with their names.
"""
from __future__ import annotations

from collections.abc import Iterator
from typing import Any, NamedTuple, Tuple

from lib import plain_depfiles
from lib.image import Code, Image, code_of

LONGEST_TEXT = 1_048_576
MOST_VALUES = 64
Value = Tuple[str, Any]
Request = Tuple[Any, ...]
Reply = Tuple[Any, ...]
Cause = Tuple[Any, ...]


class Wrong(Exception):
    """What an image that the verifier accepts never comes to."""


class Failed(Exception):
    """The edge fails, and why."""


class Ended(Exception):
    """The edge ended well."""


def popped(stack: list[Value], kinds: str) -> list[Any]:
    """Removes the values on top; returns what they hold, the topmost last."""
    found = stack[len(stack) - len(kinds):] if kinds else []
    if "".join(kind for kind, _ in found) != kinds:
        raise Wrong(f"{kinds} wanted, {stack} there")
    del stack[len(stack) - len(kinds):]
    return [held for _, held in found]


CALCULATIONS = {
    "Older": ("SS", "S", min), "Newer": ("SS", "S", max), "Before": ("SS", "F", lambda a, b: a < b),
    "Same": ("SS", "F", lambda a, b: a == b), "IsMissing": ("S", "F", lambda a: a == 0),
    "Or": ("FF", "F", lambda a, b: a or b), "Not": ("F", "F", lambda a: not a), "Zero": ("", "S", lambda: 0),
    "NoPaths": ("", "Q", lambda: ()), "Join": ("TT", "T", lambda a, b: a + b),
    "Equal": ("TT", "F", lambda a, b: a == b)}


class ActiveEdge:
    """An edge that has begun and not ended."""

    def __init__(self, image: Image, number: int, slots: list[Value | None]) -> None:
        self.image, self.number, self.slots = image, number, slots
        self.edge = image.edges[number]
        self.code: Code = code_of(image, self.edge)
        self.place = 0
        self.stack: list[Value] = []
        self.holding = self.ran = False
        self.asked: Request | None = None

    def instr(self) -> tuple[str, Any]:
        if self.place >= len(self.code):
            raise Wrong("a place outside the code")
        return self.code[self.place]

    def is_at_take(self) -> bool:
        return self.code[self.place][0] == "Take"

    def question(self) -> Request | None:
        """Returns what the instruction at this place asks, or None if it asks nothing."""
        name, operand = self.instr()
        files, outputs = self.image.files, self.edge.outputs
        if name in ("Stat", "Need"):
            return "stat", files[operand]
        if name == "Recall":
            return "recall", files[outputs[0]]
        if name == "Sweep":
            (_, _, (paths, swept)) = popped(self.stack[:], "SFP")
            return ("stat", paths[swept]) if swept < len(paths) else None
        if name == "Run":
            if not self.holding:
                raise Wrong("no place held")
            return "run", *popped(self.stack[:], "T"), tuple(files[file] for file in outputs)
        if name == "Deps":
            return "deps", *popped(self.stack[:], "T")
        if name == "Keep":
            return "keep", files[outputs[0]], *popped(self.stack[:], "TSQ")
        return None

    def on(self, *values: Value, place: int | None = None) -> None:
        """Goes on with more values, at the next place or at another."""
        self.stack += values
        if len(self.stack) > MOST_VALUES:
            raise Wrong("too many values")
        self.place = self.place + 1 if place is None else place
        self.asked = None

    def step(self) -> str:
        """Makes a step, and what came of it: moved, took, released or asked."""
        name, operand = self.instr()
        question = self.question()
        if question is not None:
            self.asked = question
            return "asked"
        if name in ("Take", "Release"):
            if self.holding == (name == "Take"):
                raise Wrong(f"{name} while a place is held: {self.holding}")
            self.holding = name == "Take"
            self.on()
            return "took" if self.holding else "released"
        self.act(name, operand)
        return "moved"

    def act(self, name: str, operand: Any) -> None:
        """Makes an instruction that asks nothing."""
        stack = self.stack
        if name in CALCULATIONS:
            takes, leaves, calculated = CALCULATIONS[name]
            found = calculated(*popped(stack, takes))
            if name == "Join" and len(found) > LONGEST_TEXT:
                raise Failed(("text too long",))
            self.on((leaves, found))
        elif name == "End":
            self.end()
        elif name == "Flag":
            self.on(("F", bool(operand)))
        elif name == "Text":
            self.on(("T", self.image.texts[operand]))
        elif name == "Load":
            value = self.slots[operand]
            if value is None:
                raise Wrong("a slot that isn't set")
            self.on(value)
        elif name == "Store":
            if self.image.slots[operand].owner != self.number or not stack:
                raise Wrong("a slot of another edge, or nothing to store")
            self.slots[operand] = stack.pop()
            self.on()
        elif name == "Drop":
            stack.pop()
            self.on()
        elif name == "Swap":
            stack[-2:] = stack[:-3:-1]
            self.on()
        elif name == "Sweep":
            stamp, missing, (paths, _) = popped(stack, "SFP")
            self.on(("S", stamp), ("F", missing), ("Q", paths))
        else:
            self.jump(name, operand)

    def jump(self, name: str, operand: int) -> None:
        goes = name == "Jump" or popped(self.stack, "F")[0]
        if goes and not self.place < operand < len(self.code):
            raise Wrong("a jump to nowhere")
        self.on(place=operand if goes else None)

    def end(self) -> None:
        own = [slot for slot, item in enumerate(self.image.slots) if item.owner == self.number]
        if self.holding or self.stack or any(self.slots[slot] is None for slot in own):
            raise Wrong("values left, a place held, or a slot unset at the end")
        raise Ended

    def hear(self, reply: Reply) -> bool:
        """Hears a reply to what was asked; false where it doesn't fit."""
        name, operand = self.instr()
        word, *rest = reply
        if word == "fault" and name != "Run":
            raise Failed({"Recall": ("record fault",), "Keep": ("record fault",), "Deps": ("depfile fault",)}.get(
                name, ("stat fault",)))
        if name in ("Stat", "Need", "Sweep") and word == "stamp":
            self.hear_stamp(name, operand, rest[0])
        elif name == "Recall" and word in ("entry", "none"):
            command, basis, paths = rest if word == "entry" else (b"", 0, ())
            self.on(("P", (tuple(paths), 0)), ("S", basis), ("T", command), ("F", word == "entry"))
        elif name == "Run" and word in ("exit", "signal", "not started"):
            if reply != ("exit", 0):
                raise Failed(reply)
            popped(self.stack, "T")
            self.ran = True
            self.on()
        elif name == "Deps" and word in ("bytes", "none"):
            self.hear_depfile(rest[0] if word == "bytes" else b"")
        elif name == "Keep" and word == "kept":
            popped(self.stack, "TSQ")
            self.on()
        else:
            return False
        return True

    def hear_stamp(self, name: str, operand: int, stamp: int) -> None:
        if name == "Sweep":
            newest, missing, (paths, swept) = popped(self.stack, "SFP")
            left = ("S", max(newest, stamp)), ("F", missing or stamp == 0), ("P", (paths, swept + 1))
            self.on(*left, place=self.place)
            return
        if name == "Need" and stamp == 0:
            raise Failed(("missing input", operand))
        self.on(("S", stamp))

    def hear_depfile(self, data: bytes) -> None:
        paths = plain_depfiles.read(data)
        if isinstance(paths, tuple):
            raise Failed(("depfile malformed", *paths))
        popped(self.stack, "T")
        self.on(("P", (tuple(paths), 0)))


class Outcome(NamedTuple):
    """How an edge came out, and what goes with it: a cause, or the edge that it waited for."""

    word: str
    of: Any = None

    def has_succeeded(self) -> bool:
        return self.word in ("Clean", "Ran")

    def is_unsuccessful(self) -> bool:
        return self.word in ("Failed", "Skipped", "Stopped")


Event = Tuple[Any, ...]
Mark = Tuple[Any, ...]


class Machine:
    """An image that is run: of each edge its outcome, its active edge, or nothing if it has not begun."""

    def __init__(self, image: Image, jobs: int, keep: int, targets: list[int]) -> None:
        self.image, self.jobs, self.keep = image, jobs, keep
        self.slots: list[Value | None] = [None] * len(image.slots)
        wanted: set[int] = set()
        ahead = list(targets or image.defaults)
        while ahead:
            number = ahead.pop()
            if number not in wanted:
                wanted.add(number)
                ahead += image.edges[number].waits
        self.edges: list[Outcome | ActiveEdge | None] = [
            None if number in wanted else Outcome("NotWanted") for number in range(len(image.edges))]

    def has_ended(self) -> bool:
        return all(isinstance(edge, Outcome) for edge in self.edges)

    def is_spent(self) -> bool:
        failures = sum(1 for edge in self.edges if isinstance(edge, Outcome) and edge.word == "Failed")
        return 0 < self.keep <= failures

    def is_free(self, number: int) -> bool:
        """Checks whether an edge may take a place."""
        holders = [self.image.edges[other].pool for other, edge in enumerate(self.edges)
                   if isinstance(edge, ActiveEdge) and edge.holding]
        pool = self.image.edges[number].pool
        depth = 0 if pool is None else self.image.pools[pool].depth
        return len(holders) < self.jobs and not self.is_spent() and (depth == 0 or holders.count(pool) < depth)

    def events(self) -> Iterator[Event]:
        """Yields the events that are enabled, except for replies."""
        for number, edge in enumerate(self.edges):
            if edge is None:
                waits = [(wait, self.edges[wait]) for wait in self.image.edges[number].waits]
                if all(isinstance(other, Outcome) and other.has_succeeded() for _, other in waits):
                    yield "start", number
                yield from (("skip", number, wait) for wait, other in waits
                            if isinstance(other, Outcome) and other.is_unsuccessful())
                if self.is_spent():
                    yield "stop", number
            elif isinstance(edge, ActiveEdge) and edge.asked is None:
                if edge.is_at_take() and self.is_spent():
                    yield "stop", number
                if not edge.is_at_take() or self.is_free(number):
                    yield "step", number

    def awaiting(self) -> list[int]:
        """Returns the edges that await a reply."""
        return [number for number, edge in enumerate(self.edges) if isinstance(edge, ActiveEdge) and edge.asked]

    def apply(self, event: Event) -> Mark | None:
        """Does an event and gives its mark; nothing where it isn't enabled."""
        word, number, *rest = event
        edge = self.edges[number] if number < len(self.edges) else Outcome("outside")
        if word != "reply" and event not in self.events():
            return None
        if word == "start":
            self.edges[number] = ActiveEdge(self.image, number, self.slots)
            return "Started", number
        if word == "skip":
            self.edges[number] = Outcome("Skipped", rest[0])
            return "Skipped", number, rest[0]
        if word == "stop":
            self.edges[number] = Outcome("Stopped")
            return "Stopped", number
        if not isinstance(edge, ActiveEdge) or (word == "reply" and edge.asked is None):
            return None
        return self.turn(number, edge, rest[0] if word == "reply" else None)

    def turn(self, number: int, edge: ActiveEdge, reply: Reply | None) -> Mark | None:
        """Does a step of an edge that runs, or gives it a reply."""
        try:
            if reply is None:
                return edge.step().capitalize(), number
            return ("Answered", number) if edge.hear(reply) else None
        except Ended:
            self.edges[number] = Outcome("Ran" if edge.ran else "Clean")
            return "Ended", number, edge.ran
        except Failed as failed:
            self.edges[number] = Outcome("Failed", failed.args[0])
            return "Failed", number, failed.args[0]
