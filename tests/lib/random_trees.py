"""Random trees of manifests, whose edges wait for those above them alone.

What ninja means otherwise is not written: a rule's variable bound in a file too (ninja lets it hide the rule's own
where the build line has no block), a pool below its use or named by a variable, `..` behind a root, and what ninja
refuses (`in`, `out`, `in_newline` and `rspfile_content` alone in a rule).
"""
from __future__ import annotations

import random
import re
from collections.abc import Callable, Sequence

NAMES = ["x", "y", "z", "in", "out", "a.b", "long_name", "cflags"]
LITERALS = ["a", "b c", " ", "-O2", '"q"', "it's", "é", "#", "=", "|", ":", "()", "/", "."]
STEMS = ["f", "d/g", "h'i", "k$ l", "m$:n", "p+q", "r,s", "./f", "d//g", "./q/../d/./g", "../u", "/v", "w/../../w"]
PATH_PARTS = ["$x", "${x}", "${y}", "$z", "t", "${a.b}", "/"]
LATE = ["description", "depfile", "restat", "generator", "msvc_deps_prefix"]
DEEPEST = 3


class Scope:
    """The rules that a file sees, and the names of those that it declares itself."""

    def __init__(self, seen: Sequence[str] = ()) -> None:
        self.seen: list[str] = list(seen)
        self.own: set[str] = set()


class TreeWriter:
    """Writes random trees: the text of each file by its name."""

    def __init__(self, seed: int) -> None:
        self.random = random.Random(seed)

    def tree(self) -> dict[str, str]:
        self.number = 0
        self.files: dict[str, str] = {}
        self.outputs: list[str] = []
        self.pools = ["", "console"]
        self.file("build.ninja", Scope(), 0)
        return self.files

    def pick(self, *lists: Sequence[str]) -> str:
        return self.random.choice(self.random.choice(lists))

    def chance(self, part: float) -> bool:
        return self.random.random() < part

    def some(self, make: Callable[[], str], most: int) -> list[str]:
        return [make() for _ in range(self.random.randint(0, most))]

    def count(self) -> int:
        self.number += 1
        return self.number

    def value(self, more: Sequence[str] = ()) -> str:
        names = [*NAMES, "none", *more]
        bare = ["$" + name for name in names if "." not in name]
        braced = ["${" + name + "}" for name in names]
        escapes = ["$$", "$ ", "$:", "$\n   "]
        return "".join(self.some(lambda: self.pick(LITERALS, bare, braced, escapes), 4))

    def path(self) -> str:
        parts = self.some(lambda: self.pick(PATH_PARTS), 3)
        return self.pick(STEMS) + "".join(parts) + f".{self.count()}"

    def output(self) -> str:
        self.outputs.append(self.path())
        return self.outputs[-1]

    def input(self) -> str:
        return self.pick(self.outputs) if self.outputs and self.chance(0.4) else "i" + self.path()

    def listed(self, sign: str, make: Callable[[], str]) -> str:
        """Returns a list of paths after its sign, or often nothing."""
        return f"{self.pick(['', ' '])}{sign} " + " ".join(self.some(make, 2)) if self.chance(0.3) else ""

    def binding(self, indent: str = "", names: Sequence[str] = NAMES) -> str:
        return f"{indent}{self.pick(names)} = {self.value()}\n"

    def pool_use(self) -> str:
        return f"  pool = {self.pick(self.pools)}\n" if self.chance(0.2) else ""

    def late(self) -> list[str]:
        """Returns variables of a rule, each of which refers only to later ones, so that none refers to itself."""
        return [f"  {name} = {self.value(LATE[at + 1:])}\n" for at, name in enumerate(LATE) if self.chance(0.3)]

    def rule(self, scope: Scope) -> str:
        fresh = [name for name in scope.seen if name not in scope.own]
        name = self.pick(fresh) if fresh and self.chance(0.5) else f"r.{self.count()}"
        scope.own.add(name)
        scope.seen.append(name)
        command = f"  command = c{self.value([*LATE, 'in_newline'])}\n"
        lines = [command, self.pool_use(), self.pick(["", "  deps = gcc\n", "  deps =\n"]), *self.late()]
        self.random.shuffle(lines)
        return f"rule {name}\n" + "".join(lines)

    def block(self) -> str:
        return "".join(self.some(lambda: self.binding("  ", self.pick([NAMES, NAMES, LATE, ["command"]])), 3))

    def build(self, scope: Scope) -> str:
        first = self.rule(scope) if not scope.seen and self.chance(0.9) else ""
        rule = "phony" if not scope.seen or self.chance(0.15) else self.pick(scope.seen)
        tail = " ".join(self.some(self.input, 3)) + self.listed("|", self.input) + self.listed("||", self.input)
        head = " ".join([self.output(), *self.some(self.output, 2)]) + self.listed("|", self.output)
        head = "| " + head if self.chance(0.05) and "|" not in head else head
        return f"{first}build {head}: {rule} {tail}\n" + self.block() + self.pool_use()

    def pool(self) -> str:
        self.pools.append(f"p.{self.count()}")
        return f"pool {self.pools[-1]}\n  depth = {self.pick(['0', '1', '007', '1000000'])}\n"

    def default(self) -> str:
        """Returns an output above that is the same wherever it is expanded."""
        fixed = [path for path in self.outputs if not re.search(r"\$[\w{]", path)]
        return f"default {self.pick(fixed)}\n" if fixed else ""

    def taken_in(self, scope: Scope, depth: int) -> str:
        if depth == DEEPEST:
            return ""
        word, name = self.pick(["include", "subninja"]), f"{self.pick(['', 'd/'])}{self.count()}.ninja"
        self.file(name, scope if word == "include" else Scope(scope.seen), depth + 1)
        return f"{word} {self.pick(['', './', '${none}'])}{name}\n"

    def statement(self, scope: Scope, depth: int) -> str:
        sorts: list[tuple[int, Callable[[], str]]] = [
            (30, self.binding), (16, lambda: self.rule(scope)), (36, lambda: self.build(scope)), (6, self.pool),
            (1, self.default), (11, lambda: self.taken_in(scope, depth))]
        return self.random.choices([make for _, make in sorts], [weight for weight, _ in sorts])[0]()

    def file(self, name: str, scope: Scope, depth: int) -> None:
        parts = []
        for _ in range(self.random.randint(1, 16 if depth == 0 else 8)):
            parts.append(self.statement(scope, depth))
            parts.append(self.pick(["", "", "", ""], ["\n", "# comment $\n", "   \n", "  # c\n"]))
        text = "".join(parts)
        self.files[name] = text.replace("\n", "\r\n") if self.chance(0.2) else text
