"""Compares random runs of an image in different orders by `replay IMG TRACE TRACE2`, and with the plain machine.

The images are one in three of those of the suite machine: of random manifests as the program compiles them, random
ones, and damaged ones that are accepted. Each runs twice to its end with any number of failures allowed, in two random
orders, in which each edge gets the same replies. The answer must be `same`, and the plain machine's two states must be
the same too. Then the second run is changed: one edge gets other replies, or the run is cut, or one of its events is
changed, or its jobs, or it has a target. The answer must be that of the plain machine's states, the place of the first
event that isn't enabled, counted through both traces, or 134.
"""
from __future__ import annotations

import functools
import pathlib
import random
from collections.abc import Iterator
from typing import Tuple

from lib import damaged_images, plain_reader, programs, traces
from lib.image import Image
from lib.plain_machine import ActiveEdge, Event, Machine, Outcome, Reply
from lib.random_replies import Replies
from lib.suite import Case, Setting
from suites import machine

COUNT = 60  # manifests
EACH = 3  # one image of this many is tried
SAME, DIFFERENT, APART = (0, b"same\n", b""), (1, b"different\n", b""), (2, b"", b"plan: 134 TracesDiffer\n")
Answer = Tuple[int, bytes, bytes]


class Order:
    """A run of an image to its end, in its own order. A reply depends on the edge and on how many it got before."""

    def __init__(self, image: Image, jobs: int, seed: int, order: int, other: int | None = None) -> None:
        self.image, self.jobs, self.seed, self.other = image, jobs, seed, other
        self.random = random.Random(f"{seed} {order}")
        self.machine = opened(image, jobs)
        self.heard = [0] * len(image.edges)
        self.events: list[Event] = []

    def reply(self, number: int) -> Reply:
        edge = self.machine.edges[number]
        assert isinstance(edge, ActiveEdge) and edge.asked
        turned = 1 if number == self.other else 0
        replies = Replies(hash((self.seed, number, self.heard[number], turned)), 12)
        self.heard[number] += 1
        texts = [self.image.texts[value] for name, value in edge.code if name == "Text" and value is not None]
        return replies.reply(edge.asked, replies.random.choice(texts or [b""]))

    def go(self) -> None:
        while not self.machine.has_ended():
            choices = [*self.machine.events(), *(("reply", number) for number in self.machine.awaiting())]
            word, number, *rest = self.random.choice(choices)
            event: Event = (word, number, self.reply(number)) if word == "reply" else (word, number, *rest)
            assert self.machine.apply(event) is not None
            self.events.append(event)


def opened(image: Image, jobs: int) -> Machine:
    return Machine(image, jobs, 0, [])


def alike(one: Outcome | ActiveEdge | None, other: Outcome | ActiveEdge | None) -> bool:
    """Checks whether two edges have the same outcome; a skipped edge may name any edge."""
    if not isinstance(one, Outcome) or not isinstance(other, Outcome):
        return False
    return one.word == other.word and (one.word == "Skipped" or one.of == other.of)


def answer(image: Image, jobs: int, first: list[Event], second: list[Event]) -> Answer:
    """Returns what the plain machine says of two lists of events."""
    machines = opened(image, jobs), opened(image, jobs)
    place = 0
    for machine, events in zip(machines, (first, second)):
        for event in events:
            if machine.apply(event) is None:
                return 2, b"", f"plan: 110 NotEnabled at event {place}\n".encode()
            place += 1
    one, other = machines
    same = all(map(alike, one.edges, other.edges)) and one.slots == other.slots
    return SAME if same else DIFFERENT


def pairs(image: Image, jobs: int, seed: int) -> Iterator[tuple[str, str, str, Answer]]:
    """Yields what two traces are, both traces, and the answer that is wanted."""
    one, other = Order(image, jobs, seed, 1), Order(image, jobs, seed, 2)
    one.go()
    other.go()
    text = functools.partial(traces.text, jobs, 0)
    first, second = text(one.events), text(other.events)
    if answer(image, jobs, one.events, other.events) != SAME:
        raise AssertionError("two orders end otherwise in the plain machine")
    yield "two orders", first, second, SAME
    yield "the first trace twice", first, first, SAME
    if not image.edges:
        return
    turned = Order(image, jobs, seed, 3, one.random.randrange(len(image.edges)))
    turned.go()
    cut = other.events[:other.random.randrange(len(other.events))] if other.events else []
    for name, events in (("other replies", turned.events), ("a run that is cut", cut)):
        yield name, first, text(events), answer(image, jobs, one.events, events)
    if one.events:
        events = traces.changed(one.events, len(image.edges), one.random)
        yield "an event changed in the second", second, text(events), answer(image, jobs, other.events, events)
        yield "an event changed in the first", text(events), second, answer(image, jobs, events, other.events)
    yield "other jobs", first, traces.text(jobs % 64 + 1, 0, other.events), APART
    yield "a target", first, text(other.events, [0]), APART


def fault(program: str, data: bytes, seed: int, folder: pathlib.Path) -> str:
    """Returns how the program's answers differ from those that are wanted, or an empty text."""
    image = plain_reader.read(data)
    assert not isinstance(image, str)
    jobs = random.Random(seed).choice((1, 2, 3, 64))
    (folder / "plan.img").write_bytes(data)
    for told, first, second, wanted in pairs(image, jobs, seed):
        (folder / "one.trace").write_text(first)
        (folder / "other.trace").write_text(second)
        done = programs.run([program, "replay", "plan.img", "one.trace", "other.trace"], folder)
        found = (done.returncode, done.stdout, done.stderr)
        if found != wanted:
            return f"{told}: {found}, wanted {wanted}\n{first}\n{second}"
    return ""


def cases(setting: Setting) -> Iterator[Case]:
    """Yields the images that are tried."""
    images = machine.images(setting.program, setting.counted(COUNT), setting.seed)
    for place, (name, data) in enumerate(images):
        if place % EACH == 0 and damaged_images.answer(data).startswith("ok "):
            yield Case(name, functools.partial(fault, setting.program, data, setting.seed))
