"""Plan images in Python: their tables, their bytes in both versions, their listing.

docs/rules/image.md has the format.
"""
from __future__ import annotations

from collections.abc import Callable, Iterable, Sequence
from typing import NamedTuple, Optional, Tuple, TypeVar

MAGIC = b"PLANIMG"
OPS = ("End Stat Need Load Store Older Newer Before Same IsMissing Or Not Flag Zero NoPaths Text Join Equal Recall"
       " Sweep Jump JumpIf Take Release Run Deps Keep Drop Swap").split()
OPEN = {"Stat", "Need", "Load", "Store", "Text"}  # whose numbers stand in the edge, where bodies are shared
NUMBERED = OPEN | {"Jump", "JumpIf", "Flag"}
KINDS = "SFTPQ"
SORTS = ("command", "phony")

Instr = Tuple[str, Optional[int]]  # its name and its number; in a body None also where the number is open
Code = Tuple[Instr, ...]
Item = TypeVar("Item")


class Pool(NamedTuple):
    name: bytes
    depth: int


class Slot(NamedTuple):
    owner: int
    kind: str


class Shared(NamedTuple):
    """A body by its number, and the numbers of its open instructions."""

    body: int
    operands: tuple[int, ...]


class Edge(NamedTuple):
    code: Code | Shared
    sort: int = 0
    pool: int | None = None
    rank: int = 0
    label: int = 0
    outputs: Sequence[int] = (0,)
    waits: Sequence[int] = ()


class Image(NamedTuple):
    """Version 2 has a list of bodies."""

    texts: Sequence[bytes]
    files: Sequence[bytes]
    pools: Sequence[Pool]
    slots: Sequence[Slot]
    edges: Sequence[Edge]
    defaults: Sequence[int]
    bodies: Sequence[Code] | None = None


def filled(body: Code, operands: Sequence[int]) -> Code:
    """Returns a body with the numbers of an edge put in."""
    left = iter(operands)
    return tuple((name, next(left)) if name in OPEN else (name, number) for name, number in body)


def code_of(image: Image, edge: Edge) -> Code:
    if isinstance(edge.code, Shared):
        assert image.bodies is not None
        return filled(image.bodies[edge.code.body], edge.code.operands)
    return edge.code


def shared(image: Image) -> Image:
    """Returns the same image in version 2: no two bodies are equal, and they are in order of first use."""
    bodies: dict[Code, int] = {}
    edges = []
    for edge in image.edges:
        code = code_of(image, edge)
        body = tuple((name, None if name in OPEN else number) for name, number in code)
        operands = tuple(number for name, number in code if name in OPEN and number is not None)
        edges.append(edge._replace(code=Shared(bodies.setdefault(body, len(bodies)), operands)))
    return image._replace(edges=edges, bodies=tuple(bodies))


def number(value: int, size: int = 4) -> bytes:
    return value.to_bytes(size, "big")


def counted(spell: Callable[[Item], bytes], items: Sequence[Item]) -> bytes:
    return number(len(items)) + b"".join(map(spell, items))


def instr_bytes(instr: Instr) -> bytes:
    name, value = instr
    return bytes([OPS.index(name)]) + (b"" if value is None else number(value, 1 if name == "Flag" else 4))


def code_bytes(code: Code | Shared) -> bytes:
    if isinstance(code, Shared):
        return number(code.body) + b"".join(map(number, code.operands))
    return counted(instr_bytes, code)


def edge_bytes(edge: Edge) -> bytes:
    pool = 0 if edge.pool is None else edge.pool + 1
    head = bytes([edge.sort]) + number(pool) + number(edge.rank) + number(edge.label)
    return head + counted(number, edge.outputs) + counted(number, edge.waits) + code_bytes(edge.code)


def spelled(image: Image) -> bytes:
    """Returns the bytes of an image."""
    return b"".join([
        MAGIC, b"\x01" if image.bodies is None else b"\x02",
        counted(lambda text: number(len(text)) + text, image.texts),
        counted(lambda file: number(len(file), 2) + file, image.files),
        counted(lambda pool: number(len(pool.name), 2) + pool.name + number(pool.depth), image.pools),
        counted(lambda slot: number(slot.owner) + bytes([KINDS.index(slot.kind) + 1]), image.slots),
        b"" if image.bodies is None else counted(lambda body: counted(instr_bytes, body), image.bodies),
        counted(edge_bytes, image.edges), counted(number, image.defaults)])


def hexed(text: bytes) -> str:
    return text.hex() or "-"


def members(numbers: Iterable[int]) -> str:
    return " ".join(map(str, numbers)) or "-"


def instr_lines(code: Code) -> Iterable[str]:
    for place, (name, value) in enumerate(code):
        shown = f" {value}" if value is not None else " _" if name in OPEN else ""
        yield f"  {place} {name}{shown}"


def edge_lines(place: int, edge: Edge) -> Iterable[str]:
    pool = "-" if edge.pool is None else edge.pool
    body = f" body {edge.code.body} operands {members(edge.code.operands)}" if isinstance(edge.code, Shared) else ""
    yield (f"edge {place} {SORTS[edge.sort]} rank {edge.rank} pool {pool} label {edge.label}"
           f" outputs {members(edge.outputs)} waits {members(edge.waits)}{body}")
    if not isinstance(edge.code, Shared):
        yield from instr_lines(edge.code)


def listed(image: Image) -> Iterable[str]:
    """Yields the lines that `dump` prints."""
    yield from (f"text {n} {hexed(text)}" for n, text in enumerate(image.texts))
    yield from (f"file {n} {hexed(file)}" for n, file in enumerate(image.files))
    yield from (f"pool {n} {hexed(pool.name)} depth {pool.depth}" for n, pool in enumerate(image.pools))
    yield from (f"slot {n} owner {slot.owner} kind {slot.kind}" for n, slot in enumerate(image.slots))
    for n, body in enumerate(image.bodies or ()):
        yield f"body {n}"
        yield from instr_lines(body)
    for n, edge in enumerate(image.edges):
        yield from edge_lines(n, edge)
    yield f"default {members(image.defaults)}"


def listing(image: Image) -> bytes:
    return "".join(f"{line}\n" for line in listed(image)).encode()
