"""Goes through random runs of images with `replay`, along with the plain machine of lib/plain_machine.py.

The images are those of random manifests as the program compiles them, random ones, and some that are cut at each length
and have each bit turned, a compiled chain of two edges among them. Each image that is accepted runs three times on the
plain machine: always the first event that is enabled, or the last, or any, with random options, targets and replies. In
each state the run must have ended, have an event or await a reply, and its events must stay within the image's budget
and the bytes of dependencies. `replay` must then print the status lines and outcomes of that run. If one event of the
trace is changed, it must refuse the first event that isn't enabled.
"""
from __future__ import annotations

import functools
import itertools
import pathlib
import random
from collections.abc import Iterator

from lib import damaged_images, plain_reader, plain_verifier, programs, random_builds, random_images, traces
from lib.image import Image
from lib.plain_machine import ActiveEdge, Cause, Event, Machine, Mark, Outcome
from lib.random_replies import Replies
from lib.suite import Case, Setting

ORDERS = ("first", "last", "any")
COUNT = 150  # manifests


class Walk:
    """A run of an image to its end."""

    def __init__(self, image: Image, order: str, seed: int) -> None:
        self.random, self.replies = random.Random(seed), Replies(seed, 12)
        self.image, self.order = image, order
        self.jobs, self.keep = self.random.choice((1, 2, 3, 64)), self.random.choice((0, 1, 1, 2))
        edges = range(len(image.edges))
        self.targets = self.random.sample(edges, self.random.randint(0, min(2, len(edges))))
        self.machine = self.opened()
        self.events: list[Event] = []
        self.marks: list[Mark] = []

    def opened(self) -> Machine:
        return Machine(self.image, self.jobs, self.keep, self.targets)

    def reply(self, number: int) -> Event:
        edge = self.machine.edges[number]
        assert isinstance(edge, ActiveEdge) and edge.asked
        if edge.asked[0] == "deps" and self.replies.one_in(20):
            return "reply", number, ("bytes", b"no colon here\n")
        texts = [self.image.texts[value] for name, value in edge.code if name == "Text" and value is not None]
        return "reply", number, self.replies.reply(edge.asked, self.random.choice(texts or [b""]))

    def choices(self) -> list[Event]:
        return [*self.machine.events(), *(("hear", number) for number in self.machine.awaiting())]

    def chosen(self) -> Event:
        """Returns an event that is enabled."""
        choices = self.choices()
        if not choices:
            raise AssertionError("the run is stuck")
        place = {"first": 0, "last": -1}.get(self.order, self.random.randrange(len(choices)))
        word, *rest = choices[place]
        return self.reply(rest[0]) if word == "hear" else (word, *rest)

    def go(self) -> None:
        room = plain_verifier.budget(self.image)
        while not self.machine.has_ended():
            event = self.chosen()
            room -= 1
            if event[0] == "reply" and event[2][0] == "entry":
                room += sum(len(path) + 4 for path in event[2][3])
            if event[0] == "reply" and event[2][0] == "bytes":
                room += len(event[2][1])
            mark = self.machine.apply(event)
            assert mark is not None and room >= 0, f"{event}: {mark}, room {room}"
            self.events.append(event)
            self.marks.append(mark)
        self.orderly()

    def orderly(self) -> None:
        """Checks that no edge starts twice, or before those that it waits for succeeded."""
        begun: set[int] = set()
        well: set[int] = set()
        for word, number, *rest in self.marks:
            if word == "Started":
                assert number not in begun and well >= set(self.image.edges[number].waits), f"start of {number}"
                begun.add(number)
            elif word == "Ended":
                well.add(number)

    def trace(self, events: list[Event]) -> str:
        return traces.text(self.jobs, self.keep, events, self.targets)


class Teller:
    """Tells what `replay` must print of a run."""

    def __init__(self, image: Image, machine: Machine, marks: list[Mark]) -> None:
        self.image, self.machine, self.marks = image, machine, marks
        self.total = sum(1 for number, edge in enumerate(machine.edges)
                         if edge != Outcome("NotWanted") and self.is_command(number))

    def is_command(self, number: int) -> bool:
        return self.image.edges[number].sort == 0

    def name(self, number: int) -> bytes:
        return self.image.files[self.image.edges[number].outputs[0]]

    def cause(self, cause: Cause) -> bytes:
        word, *rest = cause
        if word == "missing input":
            return b"missing input " + self.image.files[rest[0]]
        after = f" {rest[0]} at {rest[1]}" if word == "depfile malformed" else "".join(f" {one}" for one in rest)
        return f"{word}{after}".encode()

    def lines(self) -> Iterator[bytes]:
        """Yields the status lines."""
        count = 0
        for word, number, *rest in self.marks:
            tells = word in ("Ended", "Failed", "Skipped", "Stopped") and self.is_command(number)
            count += tells
            if word == "Ended" and rest[0]:
                yield f"[{count}/{self.total}] ".encode() + self.image.texts[self.image.edges[number].label]
            elif word == "Failed":
                yield b"FAILED " + self.name(number) + b": " + self.cause(rest[0])
            elif tells and word == "Skipped":
                yield b"SKIPPED " + self.name(number) + b": needs " + self.name(rest[0])
            elif tells and word == "Stopped":
                yield b"STOPPED " + self.name(number)

    def outcomes(self) -> Iterator[bytes]:
        for number, edge in enumerate(self.machine.edges):
            assert isinstance(edge, Outcome)
            after = b""
            if edge.word == "Failed":
                after = b" " + self.cause(edge.of)
            elif edge.word == "Skipped":
                after = f" {edge.of}".encode()
            yield b"%d %s %s%s" % (number, self.name(number), edge.word.encode(), after)

    def text(self) -> bytes:
        return b"".join(one + b"\n" for one in itertools.chain(self.lines(), self.outcomes()))

    def status(self) -> int:
        return 1 if any(isinstance(edge, Outcome) and edge.is_unsuccessful() for edge in self.machine.edges) else 0


def refused_at(walk: Walk, events: list[Event]) -> int | None:
    """Returns the place of the first event that isn't enabled, if there is one."""
    machine = walk.opened()
    return next((place for place, event in enumerate(events) if machine.apply(event) is None), None)


def traced(walk: Walk) -> Iterator[tuple[str, tuple[int, bytes, bytes]]]:
    """Yields the trace of a run, and one with an event changed, each with what `replay` must answer."""
    teller = Teller(walk.image, walk.machine, walk.marks)
    yield walk.trace(walk.events), (teller.status(), teller.text(), b"")
    if walk.events:
        others = traces.changed(walk.events, len(walk.image.edges), walk.random)
        place = refused_at(walk, others)
        if place is not None:
            yield walk.trace(others), (2, b"", f"plan: 110 NotEnabled at event {place}\n".encode())


def fault(program: str, data: bytes, order: str, seed: int, folder: pathlib.Path) -> str:
    """Returns how `replay` of a run differs from the plain machine, or an empty text."""
    image = plain_reader.read(data)
    assert not isinstance(image, str)
    walk = Walk(image, order, seed)
    walk.go()
    (folder / "plan.img").write_bytes(data)
    for trace, wanted in traced(walk):
        (folder / "run.trace").write_text(trace)
        done = programs.run([program, "replay", "plan.img", "run.trace"], folder)
        found = (done.returncode, done.stdout, done.stderr)
        if found != wanted:
            return f"{found}, wanted {wanted}\n{trace}"
    return ""


def images(program: str, count: int, seed: int) -> Iterator[tuple[str, bytes]]:
    """Yields images by their names, accepted or not."""
    turned = damaged_images.named(damaged_images.TURNED)
    turned += damaged_images.chains(damaged_images.compiled_chain(program))
    yield from ((case.name, case.data) for one in turned for case in (one, *damaged_images.changed(one)))
    yield from ((f"random image {number}", data) for number, data in enumerate(random_images.images(4 * count, seed)))
    manifests = ((number, random_builds.Writer(number).manifest()[2]) for number in range(seed, seed + count))
    yield from ((f"manifest {number}", programs.compiled(program, text)) for number, text in manifests)


def cases(setting: Setting) -> Iterator[Case]:
    """Yields the runs of the images that are accepted."""
    for name, data in images(setting.program, setting.counted(COUNT), setting.seed):
        if damaged_images.answer(data).startswith("ok "):
            for seed, order in enumerate(ORDERS, setting.seed):
                yield Case(f"{name}, {order}", functools.partial(fault, setting.program, data, order, seed))
