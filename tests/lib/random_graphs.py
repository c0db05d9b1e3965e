"""Random graphs: manifests whose paths are numbers in several spellings, and which may have each fault of a graph.

What ninja takes otherwise is not written: a phony with an own output among its inputs that has another output or an
implicit input too (ninja finds a cycle), and a target of `default` that is only an input above it (ninja takes it).
"""
from __future__ import annotations

import random
from collections.abc import Callable, Sequence

SPELLINGS = ["", "./", "d/../"]


class GraphWriter:
    """Writes random graphs: the text of a manifest; `paths` is how many paths the last one may have."""

    def __init__(self, seed: int) -> None:
        self.random = random.Random(seed)
        self.paths = 0

    def graph(self) -> str:
        self.paths = self.random.randint(6, 40)
        self.fresh = self.random.sample(range(self.paths), self.paths)
        self.made: set[int] = set()
        self.used: set[int] = set()
        lines = [self.build() + self.default() for _ in range(self.random.randint(1, 9))]
        return "rule r\n  command = $out: $in\n" + "".join(lines)

    def chance(self, part: float) -> bool:
        return self.random.random() < part

    def any(self) -> int:
        return self.random.randrange(self.paths)

    def some(self, make: Callable[[], int], most: int) -> list[int]:
        return [make() for _ in range(self.random.randint(0, most))]

    def output(self) -> int:
        """Returns a path that no line above makes, or sometimes any path."""
        return self.fresh.pop() if self.fresh and not self.chance(0.04) else self.any()

    def spelled(self, sign: str, paths: Sequence[int]) -> str:
        return sign + " ".join(self.random.choice(SPELLINGS) + str(path) for path in paths) if paths else ""

    def build(self) -> str:
        outputs, implicit_outputs = [self.output(), *self.some(self.output, 1)], self.some(self.output, 1)
        inputs, implicit_inputs, order_only = self.some(self.any, 2), self.some(self.any, 1), self.some(self.any, 1)
        made, used = {*outputs, *implicit_outputs}, {*inputs, *implicit_inputs, *order_only}
        odd = made & used and (len(outputs) > 1 or implicit_outputs or implicit_inputs)
        rule = "phony" if not odd and self.chance(0.3) else "r"
        self.made |= made
        self.used |= used
        head = self.spelled("build ", outputs) + self.spelled(" | ", implicit_outputs)
        tail = self.spelled(f": {rule} ", inputs) or f": {rule}"
        return head + tail + self.spelled(" | ", implicit_inputs) + self.spelled(" || ", order_only) + "\n"

    def default(self) -> str:
        path = self.any()
        return f"default {path}\n" if path in self.made or path not in self.used and self.chance(0.1) else ""
