"""A plain reading of images, in the order of their bytes, to compare the program's with."""
from __future__ import annotations

from collections.abc import Callable
from typing import TypeVar

from lib.image import KINDS, MAGIC, NUMBERED, OPEN, OPS, Code, Edge, Image, Instr, Pool, Shared, Slot

NAMES = {60: "BadMagic", 61: "BadVersion", 62: "Truncated", 63: "Trailing", 64: "BadTag", 65: "Limit", 67: "BadOrder",
         68: "BadBody"}
MOST = 268_435_456
Item = TypeVar("Item")


class Refused(Exception):
    """Number and offset."""


class Reader:
    def __init__(self, data: bytes) -> None:
        self.data, self.at, self.used, self.in_bodies = data, 0, 0, 0

    def take(self, size: int) -> bytes:
        if len(self.data) - self.at < size:
            raise Refused(62, len(self.data))
        self.at += size
        return self.data[self.at - size:self.at]

    def number(self, least: int = 0, most: int = 2**32, size: int = 4) -> int:
        at, value = self.at, int.from_bytes(self.take(size), "big")
        if not least <= value <= most:
            raise Refused(65, at)
        return value

    def tag(self, most: int, least: int = 0) -> int:
        at, value = self.at, self.take(1)[0]
        if not least <= value <= most:
            raise Refused(64, at)
        return value

    def many(self, item: Callable[[], Item], most: int) -> list[Item]:
        return [item() for _ in range(self.number(most=most))]

    def text(self) -> bytes:
        return self.take(self.number(most=1_048_576))

    def file(self) -> bytes:
        return self.take(self.number(1, 4096, 2))

    def pool(self) -> Pool:
        return Pool(self.take(self.number(size=2)), self.number(most=1_000_000))

    def slot(self) -> Slot:
        return Slot(self.number(), KINDS[self.tag(5, 1) - 1])

    def ascending(self) -> list[int]:
        numbers: list[int] = []
        for _ in range(self.number()):
            at, value = self.at, self.number()
            if numbers and value <= numbers[-1]:
                raise Refused(67, at)
            numbers.append(value)
        return numbers

    def instr(self, is_shared: bool = False) -> Instr:
        name = OPS[self.tag(len(OPS) - 1)]
        if name not in NUMBERED or (is_shared and name in OPEN):
            return name, None
        return name, self.tag(1) if name == "Flag" else self.number()

    def body(self) -> Code:
        at, count = self.at, self.number(most=65_536)
        self.in_bodies += count
        if self.in_bodies > 2**24:
            raise Refused(65, at)
        return tuple(self.instr(True) for _ in range(count))

    def code(self, bodies: list[Code] | None) -> Code | Shared:
        at, value = self.at, self.number()
        if bodies is None:
            self.used += value
            if self.used > 2**24:
                raise Refused(65, at)
            return tuple(self.instr() for _ in range(value))
        if value >= len(bodies):
            raise Refused(68, at)
        self.used += len(bodies[value])
        if self.used > 2**26:
            raise Refused(65, at)
        return Shared(value, tuple(self.number() for name, _ in bodies[value] if name in OPEN))

    def edge(self, bodies: list[Code] | None) -> Edge:
        sort, pool, rank, label = self.tag(1), self.number(), self.number(), self.number()
        outputs, waits = self.many(self.number, 2**32), self.ascending()
        return Edge(self.code(bodies), sort, pool - 1 if pool else None, rank, label, outputs, waits)

    def head(self) -> int:
        if len(self.data) < len(MAGIC) and MAGIC.startswith(self.data):
            raise Refused(62, len(self.data))
        if self.data[:len(MAGIC)] != MAGIC:
            raise Refused(60, 0)
        self.at = len(MAGIC)
        at, version = self.at, self.take(1)[0]
        if version not in (1, 2):
            raise Refused(61, at)
        return version

    def image(self) -> Image:
        if len(self.data) > MOST:
            raise Refused(65, 0)
        version = self.head()
        texts, files = self.many(self.text, 2**22), self.many(self.file, 2**22)
        pools, slots = self.many(self.pool, 4096), self.many(self.slot, 2**24)
        bodies = self.many(self.body, 2**20) if version == 2 else None
        edges = self.many(lambda: self.edge(bodies), 2**20)
        defaults = self.ascending()
        if self.at < len(self.data):
            raise Refused(63, self.at)
        return Image(texts, files, pools, slots, edges, defaults, bodies)


def read(data: bytes) -> Image | str:
    """Returns the image of some bytes, or why they are refused, as the program prints it after `plan: `."""
    try:
        return Reader(data).image()
    except Refused as refused:
        number, offset = refused.args
        return f"{number} {NAMES[number]} at {offset}"
