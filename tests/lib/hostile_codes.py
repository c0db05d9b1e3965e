"""Images whose one edge has many slots and many jumps: each makes one of a size, which the verifier accepts."""
from __future__ import annotations

from collections.abc import Callable, Sequence

from lib.image import Code, Edge, Image, Instr, Slot


def image_of(slots: int, code: Code) -> Image:
    """Returns an image of one edge with this code and so many slots of its own."""
    return Image([b""], [b"a"], [], [Slot(0, "S")] * slots, [Edge(code)], [])


def stores(slots: Sequence[int]) -> list[Instr]:
    """Returns code that sets these slots."""
    return [instr for slot in slots for instr in (("Zero", None), ("Store", slot))]


def many_targets(size: int) -> Image:
    """All slots are set, then jumps lead to as many places."""
    jumps: list[Instr] = []
    for target in range(size):
        jumps += [("Flag", 0), ("JumpIf", 4 * size + 1 + target)]
    ends: list[Instr] = [("End", None)] * (size + 1)
    return image_of(size, (*stores(range(size)), *jumps, *ends))


def one_target(size: int) -> Image:
    """All slots are set, then as many jumps lead to one place."""
    jumps: list[Instr] = [("Flag", 0), ("JumpIf", 4 * size)] * size
    return image_of(size, (*stores(range(size)), *jumps, ("End", None)))


def growing_sets(size: int) -> Image:
    """Behind each slot that is set a jump leads to a place of its own, from which the others are set."""
    front: list[Instr] = []
    for slot in range(size):
        front += [*stores([slot]), ("Flag", 0), ("JumpIf", 4 * size + 1 + 2 * slot)]
    return image_of(size, (*front, ("End", None), *stores(range(1, size)), ("End", None)))


def two_orders(size: int) -> Image:
    """Two ways set all slots, one in the opposite order of the other, and meet."""
    front: list[Instr] = [("Flag", 0), ("JumpIf", 2 * size + 3), *stores(range(size)), ("Jump", 4 * size + 3)]
    return image_of(size, (*front, *stores(range(size - 1, -1, -1)), ("End", None)))


SHAPES: Sequence[Callable[[int], Image]] = [many_targets, one_target, growing_sets, two_orders]
