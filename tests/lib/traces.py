"""Writes traces of runs, as docs/rules/replay.md describes them."""
from __future__ import annotations

import random
from collections.abc import Iterable, Sequence

from lib.image import hexed
from lib.plain_machine import Event, Reply


def reply_words(reply: Reply) -> str:
    """Returns the words of a reply."""
    word, *rest = reply
    if word == "entry":
        command, basis, paths = rest
        return " ".join(["entry", str(basis), hexed(command), *map(hexed, paths)])
    if word == "bytes":
        return f"bytes {hexed(rest[0])}"
    return " ".join([word.replace(" ", ""), *map(str, rest)])


def line(event: Event) -> str:
    """Returns the line of an event."""
    word, number, *rest = event
    after = [reply_words(rest[0])] if word == "reply" else [str(wait) for wait in rest]
    return " ".join([word, str(number), *after])


def text(jobs: int, keep: int, events: Iterable[Event], targets: Iterable[int] = ()) -> str:
    """Returns a whole trace."""
    head = [f"plan-trace 1 j {jobs} k {keep}", *(f"target {edge}" for edge in targets)]
    return "".join(f"{one}\n" for one in [*head, *map(line, events)])


def changed(events: Sequence[Event], edges: int, chance: random.Random) -> list[Event]:
    """Returns the events with one left out, repeated, moved to another edge, or replaced."""
    place = chance.randrange(len(events))
    word, number, *rest = events[place]
    other = chance.randrange(edges + 1)
    others = [[], [events[place]] * 2, [(word, other, *rest)], [("stop", number)], [("step", number)]]
    return [*events[:place], *chance.choice(others), *events[place + 1:]]
