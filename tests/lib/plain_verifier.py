"""A plain verifier of images, to compare the program's with: docs/rules/verifier.md has the rules and their order."""
from __future__ import annotations

from collections.abc import Iterator
from typing import NamedTuple

from lib.image import Code, Edge, Image, code_of

NAMES = {70: "EmptyStack", 71: "WrongKind", 72: "BadSlot", 73: "UnsetSlot", 74: "BadJump", 75: "ShapesDiffer",
         76: "NotHolding", 77: "Holding", 78: "TooDeep", 79: "BadWait", 80: "BadFile", 81: "BadText", 82: "BadPool",
         83: "FallsOff", 84: "DeadCode", 85: "PathsInSlot", 87: "ValuesLeft"}
# What an instruction takes from the stack and leaves there, the top to the right; those of Load, Store, Drop, Swap
# and End depend on more.
STACKS = {
    "End": ("", ""), "Stat": ("", "S"), "Need": ("", "S"), "Older": ("SS", "S"), "Newer": ("SS", "S"),
    "Before": ("SS", "F"), "Same": ("SS", "F"), "IsMissing": ("S", "F"), "Or": ("FF", "F"), "Not": ("F", "F"),
    "Flag": ("", "F"), "Zero": ("", "S"), "NoPaths": ("", "Q"), "Text": ("", "T"), "Join": ("TT", "T"),
    "Equal": ("TT", "F"), "Recall": ("", "PSTF"), "Sweep": ("SFP", "SFQ"), "Jump": ("", ""), "JumpIf": ("F", ""),
    "Take": ("", ""), "Release": ("", ""), "Run": ("T", ""), "Deps": ("T", "P"), "Keep": ("TSQ", "")}
ASKING = {"Stat", "Need", "Recall", "Run", "Deps", "Keep"}
MOST_VALUES = 64


class Shape(NamedTuple):
    """The kinds on the stack, the top to the right; whether a place of the pool is held; which own slots are set."""

    stack: str
    holding: bool
    set: frozenset[int]


class Refused(Exception):
    """Number, edge and place."""


def kind_of(image: Image, slot: int | None) -> str:
    assert slot is not None
    return image.slots[slot].kind


def after(image: Image, number: int, name: str, operand: int | None, shape: Shape) -> Shape:
    """Returns the shape after an instruction; raises 70 or 71 if it doesn't find what it takes."""
    stack = shape.stack
    if name in ("Drop", "Swap"):
        count = 1 if name == "Drop" else 2
        if len(stack) < count:
            raise Refused(70)
        return shape._replace(stack=stack[:-1] if name == "Drop" else stack[:-2] + stack[-1] + stack[-2])
    takes, leaves = STACKS.get(name, ("", ""))
    if name == "Load":
        leaves = kind_of(image, operand)
    if name == "Store":
        takes = kind_of(image, operand)
    if len(stack) < len(takes):
        raise Refused(70)
    if not stack.endswith(takes):
        raise Refused(71)
    is_set = shape.set | {operand} if name == "Store" and operand is not None else shape.set
    holding = name == "Take" or (shape.holding and name != "Release")
    return Shape(stack[:len(stack) - len(takes)] + leaves, holding, is_set)


def is_bad_slot(image: Image, number: int, name: str, slot: int) -> bool:
    if slot >= len(image.slots):
        return True
    owner = image.slots[slot].owner
    return owner != number if name == "Store" else owner != number and owner not in image.edges[number].waits


def check_operand(image: Image, number: int, place: int, code: Code) -> None:
    name, operand = code[place]
    if operand is None:
        return
    if name in ("Load", "Store") and is_bad_slot(image, number, name, operand):
        raise Refused(72)
    if name in ("Jump", "JumpIf") and not place < operand < len(code):
        raise Refused(74)
    if name in ("Stat", "Need") and operand >= len(image.files):
        raise Refused(80)
    if name == "Text" and operand >= len(image.texts):
        raise Refused(81)


def step(image: Image, number: int, place: int, code: Code, shape: Shape, own: frozenset[int]) -> Shape:
    """Returns the shape after the instruction at a place; raises the first of its checks that fails."""
    name, operand = code[place]
    check_operand(image, number, place, code)
    if name in ("Run", "Release") and not shape.holding:
        raise Refused(76)
    if name in ("Take", "End") and shape.holding:
        raise Refused(77)
    behind = after(image, number, name, operand, shape)
    if name == "Load" and operand in own and operand not in shape.set:
        raise Refused(73)
    if name == "End" and shape.set != own:
        raise Refused(73)
    if name == "End" and shape.stack:
        raise Refused(87)
    if len(behind.stack) > MOST_VALUES:
        raise Refused(78)
    if name not in ("End", "Jump") and place + 1 >= len(code):
        raise Refused(83)
    return behind


def nexts(place: int, name: str, operand: int | None) -> Iterator[int]:
    """Yields the places at which the code goes on."""
    if name not in ("End", "Jump"):
        yield place + 1
    if name in ("Jump", "JumpIf"):
        assert operand is not None
        yield operand


def check_code(image: Image, number: int, own: frozenset[int]) -> None:
    code = code_of(image, image.edges[number])
    if not code:
        raise Refused(83, number, 0)
    arriving: dict[int, set[Shape]] = {0: {Shape("", False, frozenset())}}
    for place, (name, operand) in enumerate(code):
        shapes = arriving.get(place, set())
        if len(shapes) != 1:
            raise Refused(75 if shapes else 84, number, place)
        try:
            behind = step(image, number, place, code, next(iter(shapes)), own)
        except Refused as refused:
            raise Refused(*refused.args, number, place) from None
        for following in nexts(place, name, operand):
            arriving.setdefault(following, set()).add(behind)


def check_tables(image: Image, edge: Edge, own: frozenset[int]) -> None:
    if any(wait >= len(image.edges) or image.edges[wait].rank >= edge.rank for wait in edge.waits):
        raise Refused(79)
    if edge.pool is not None and edge.pool >= len(image.pools):
        raise Refused(82)
    if edge.label >= len(image.texts):
        raise Refused(81)
    if not edge.outputs or max(edge.outputs) >= len(image.files):
        raise Refused(80)
    if any(image.slots[slot].kind in "PQ" for slot in own):
        raise Refused(85)


def check(image: Image) -> None:
    for number, edge in enumerate(image.edges):
        own = frozenset(n for n, slot in enumerate(image.slots) if slot.owner == number)
        try:
            check_tables(image, edge, own)
        except Refused as refused:
            raise Refused(*refused.args, number, 0) from None
        check_code(image, number, own)
    if any(edge >= len(image.edges) for edge in image.defaults):
        raise Refused(79, 0, 0)
    if any(slot.owner >= len(image.edges) for slot in image.slots):
        raise Refused(72, 0, 0)


def budget(image: Image) -> int:
    return sum(1 + sum(2 if name in ASKING else 1 for name, _ in code_of(image, edge)) for edge in image.edges)


def verdict(image: Image) -> str:
    """Returns `ok EDGES BUDGET`, or why the image is refused, as the program prints it after `plan: `."""
    try:
        check(image)
    except Refused as refused:
        number, edge, place = refused.args
        return f"{number} {NAMES[number]} at edge {edge} place {place}"
    return f"ok {len(image.edges)} {budget(image)}"
