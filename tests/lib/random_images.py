"""Random images of both versions: code that mostly goes on well, and tables that mostly fit."""
from __future__ import annotations

import random
from collections.abc import Iterator

from lib.image import KINDS, OPS, OPEN, Code, Edge, Image, Instr, Pool, Slot, shared, spelled
from lib.plain_verifier import STACKS

FEW = (0, 0, 0, 1, 1, 2, 3)


class Writer:
    def __init__(self, seed: int) -> None:
        self.random = random.Random(seed)

    def one_in(self, count: int) -> bool:
        return self.random.randrange(count) == 0

    def number(self, count: int) -> int:
        """Returns a number that is mostly inside a table of this length."""
        return self.random.randrange(count + 2) if self.one_in(30) or count == 0 else self.random.randrange(count)

    def operand(self, name: str, image: Image, place: int, length: int) -> int | None:
        if name == "Flag":
            return self.random.randrange(2)
        if name in ("Jump", "JumpIf"):
            if self.one_in(20):
                return self.random.randrange(length + 1)
            return min(length - 1, place + self.random.randint(1, 4))
        if name not in OPEN:
            return None
        table = image.texts if name == "Text" else image.slots if name in ("Load", "Store") else image.files
        return self.number(len(table))

    def fitting(self, stack: str) -> list[str]:
        """Returns the instructions that find on the stack what they take."""
        return [name for name, (takes, _) in STACKS.items()
                if stack.endswith(takes) and name not in ("End", "Take", "Release", "Run", "Jump")]

    def code(self, image: Image, number: int) -> Code:
        """Returns code that keeps track of its stack along one way, and then empties it."""
        length, stack = self.random.randrange(1, 14), ""
        code: list[Instr] = []
        for place in range(length):
            name = self.random.choice(OPS if self.one_in(40) else self.fitting(stack))
            code.append((name, self.operand(name, image, place, length + 4)))
            takes, leaves = STACKS.get(name, ("", ""))
            stack = stack[:max(0, len(stack) - len(takes))] + leaves
        code += [("Drop", None)] * len(stack)
        for slot, item in enumerate(image.slots):
            if item.owner == number and not self.one_in(10):
                pushes: dict[str, Instr] = {"S": ("Zero", None), "F": ("Flag", 1), "T": ("Text", 0)}
                code += [pushes.get(item.kind, ("NoPaths", None)), ("Store", slot)]
        return (*code, ("End", None)) if not self.one_in(30) else tuple(code)

    def image(self) -> Image:
        count = self.random.randrange(1, 4)
        kinds = KINDS if self.one_in(10) else KINDS[:3]
        empty = Image(
            texts=[b"echo", b""], files=[b"out", b"in", b"a/b"], pools=[Pool(b"link", 1)] * self.random.choice(FEW),
            slots=[Slot(self.number(count), self.random.choice(kinds)) for _ in range(self.random.choice(FEW))],
            edges=[], defaults=sorted({self.number(count) for _ in range(self.random.choice(FEW))}))
        edges = []
        for number in range(count):
            waits = sorted({self.number(number) for _ in range(self.random.choice(FEW))}) if number else []
            pool = self.number(len(empty.pools)) if self.one_in(4) and empty.pools else None
            edges.append(Edge(
                self.code(empty, number), sort=self.random.randrange(2), pool=pool,
                rank=0 if self.one_in(30) else number, label=self.number(2),
                outputs=[self.number(3) for _ in range(1 + self.random.choice(FEW))], waits=waits))
        return empty._replace(edges=edges)


def images(count: int, seed: int) -> Iterator[bytes]:
    """Yields the bytes of random images, in both versions by turns."""
    writer = Writer(seed)
    for number in range(count):
        made = writer.image()
        yield spelled(shared(made) if number % 2 else made)
