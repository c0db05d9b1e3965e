"""Random manifests of which it is known what each edge is: its paths, its command, and the flags of the rule."""
from __future__ import annotations

import random
from typing import NamedTuple

POOLS = {"link": 2, "any": 0, "console": 1}
RULE = "rule r\n  command = $run\npool link\n  depth = 2\npool any\n  depth = 0\n"


class Build(NamedTuple):
    """A build line, and what stands below it."""

    outputs: tuple[str, ...]
    implicit_outputs: tuple[str, ...]
    inputs: tuple[str, ...]
    implicit_inputs: tuple[str, ...]
    order_only: tuple[str, ...]
    is_phony: bool
    command: str
    description: str
    depfile: str
    restat: bool
    generator: bool
    pool: str

    def made(self) -> tuple[str, ...]:
        return self.outputs + self.implicit_outputs

    def left(self, paths: tuple[str, ...]) -> tuple[str, ...]:
        """Returns inputs without the edge's own outputs, if it is a phony."""
        return tuple(path for path in paths if path not in self.made()) if self.is_phony else paths

    def named(self) -> tuple[str, ...]:
        return self.left(self.inputs + self.implicit_inputs)

    def ordered(self) -> tuple[str, ...]:
        return self.left(self.order_only)

    def text(self) -> str:
        """Returns its lines in the manifest."""
        outputs, inputs = " ".join(self.outputs), " ".join(self.inputs)
        line = f"build {outputs}" + (" | " + " ".join(self.implicit_outputs) if self.implicit_outputs else "")
        line += f": {'phony' if self.is_phony else 'r'} {inputs}".rstrip()
        line += " | " + " ".join(self.implicit_inputs) if self.implicit_inputs else ""
        line += " || " + " ".join(self.order_only) if self.order_only else ""
        below = {"run": self.command, "description": self.description, "depfile": self.depfile, "pool": self.pool,
                 "restat": "1" * self.restat, "generator": "1" * self.generator}
        return line + "\n" + "".join(f"  {name} = {value}\n" for name, value in below.items() if value)


class Writer:
    def __init__(self, seed: int) -> None:
        self.random = random.Random(seed)

    def one_in(self, count: int) -> bool:
        return self.random.randrange(count) == 0

    def some(self, paths: list[str], most: int) -> tuple[str, ...]:
        return tuple(self.random.choice(paths) for _ in range(self.random.randint(0, most)))

    def build(self, number: int, known: list[str]) -> Build:
        """Returns an edge whose inputs are among the paths known so far."""
        is_phony = self.one_in(5)
        outputs = tuple(f"o{number}.{place}" for place in range(self.random.choice((1, 1, 1, 2, 3))))
        inputs = self.some(known, 3) + (outputs[:1] if is_phony and self.one_in(4) else ())
        return Build(
            outputs, (f"i{number}",) if self.one_in(5) else (), inputs, self.some(known, 1), self.some(known, 1),
            is_phony,
            "" if is_phony or self.one_in(20) else f"run {number % 3}", f"MAKE {number}" if self.one_in(3) else "",
            f"o{number}.d" if not is_phony and self.one_in(3) else "", not is_phony and self.one_in(3),
            not is_phony and self.one_in(4), self.random.choice(list(POOLS)) if not is_phony and self.one_in(4) else "")

    def builds(self) -> list[Build]:
        """Returns edges in a random order: one may come before those that it waits for."""
        known = [f"s{number}" for number in range(self.random.randint(1, 5))]
        found = []
        for number in range(self.random.randint(1, 14)):
            found.append(self.build(number, known))
            known += found[-1].made()
        self.random.shuffle(found)
        return found

    def manifest(self) -> tuple[list[Build], list[str], str]:
        """Returns edges, what `default` names, and the manifest's text."""
        builds = self.builds()
        targets = [self.random.choice(build.made()) for build in builds if self.one_in(6)]
        text = RULE + "".join(build.text() for build in builds) + "".join(f"default {path}\n" for path in targets)
        return builds, targets, text
