"""Goes through runs of a chain of two edges by `replay`, in each of which one reply is a failure, and one without.

The chain is that of lib/chain.py, as the program compiles it: the first edge's command leaves its output as it was, so
the second edge stays clean. Eight questions are asked; in the next run none leads to a command. If one of the first six
is answered by a failure, the first edge fails and the second is skipped. If one of the last two is, the second edge
fails after the first edge's line.
"""
from __future__ import annotations

import functools
import pathlib
from collections.abc import Iterator
from typing import Callable, Tuple

from lib import chain, damaged_images, plain_reader, programs, traces
from lib.image import Image
from lib.plain_machine import ActiveEdge, Event, Machine, Reply
from lib.suite import Case, Setting

# What fails instead of each reply, and the cause that is then printed of its edge.
FAILURES: dict[str, tuple[Reply, str]] = {
    "stat": (("fault",), "stat fault"), "recall": (("fault",), "record fault"), "run": (("exit", 1), "exit 1"),
    "keep": (("fault",), "record fault")}
LINE = "[1/2] sh gen.sh\n"
Told = Tuple[int, str]  # a status, and what was printed


def events_of(image: Image, world: chain.World, failing: int) -> list[Event]:
    """Returns the events of a run in which one question is answered by a failure: its number counts from 1."""
    machine = Machine(image, 1, 0, [])
    events: list[Event] = []
    while not machine.has_ended():
        event = next(iter(machine.events()), None)
        if event is None:
            number = machine.awaiting()[0]
            edge = machine.edges[number]
            assert isinstance(edge, ActiveEdge) and edge.asked
            reply = world.reply(edge.asked)
            event = "reply", number, FAILURES[edge.asked[0]][0] if len(world.asked) == failing else reply
        assert machine.apply(event) is not None, event
        events.append(event)
    return events


def replayed(program: str, data: bytes, folder: pathlib.Path, events: list[Event]) -> Told:
    """Returns the status of a replay, and what it printed."""
    programs.write({"plan.img": data, "run.trace": traces.text(1, 0, events)}, folder)
    done = programs.run([program, "replay", "plan.img", "run.trace"], folder)
    return done.returncode, (done.stdout + done.stderr).decode()


def wanted(failing: int) -> Told:
    """Returns what a replay must print if the question of this number is answered by a failure."""
    cause = FAILURES[chain.FIRST[failing - 1][0]][1]
    if failing <= 6:
        return 1, f"FAILED mid: {cause}\nSKIPPED out: needs mid\n0 mid Failed {cause}\n1 out Skipped 0\n"
    return 1, f"{LINE}FAILED out: {cause}\n0 mid Ran\n1 out Failed {cause}\n"


def difference(found: object, right: object) -> str:
    """Returns what was found if it is not right, or an empty text."""
    return "" if found == right else f"{found}, wanted {right}"


def without_failure(replay: Callable[[pathlib.Path, list[Event]], Told], image: Image,
                    folder: pathlib.Path) -> Iterator[str]:
    """Yields what is wrong with a run without a failure, with its questions, and with the next run."""
    world = chain.World()
    yield difference(replay(folder, events_of(image, world, 0)), (0, f"{LINE}0 mid Ran\n1 out Clean\n"))
    yield difference(len(world.asked), len(chain.FIRST))
    yield difference(replay(folder, events_of(image, world, 0)), (0, "0 mid Clean\n1 out Clean\n"))


def with_failure(replay: Callable[[pathlib.Path, list[Event]], Told], image: Image, failing: int,
                 folder: pathlib.Path) -> str:
    """Returns what is wrong with a run in which the question of this number is answered by a failure."""
    return difference(replay(folder, events_of(image, chain.World(), failing)), wanted(failing))


def cases(setting: Setting) -> Iterator[Case]:
    """Yields two runs without a failure, and one for each question."""
    data = damaged_images.compiled_chain(setting.program)
    image = plain_reader.read(data)
    assert not isinstance(image, str), image
    replay = functools.partial(replayed, setting.program, data)
    yield Case("without a failure", functools.partial(without_failure, replay, image))
    for failing in range(1, len(chain.FIRST) + 1):
        yield Case(f"failure {failing}", functools.partial(with_failure, replay, image, failing))
