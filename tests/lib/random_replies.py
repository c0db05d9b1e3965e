"""Random replies for machines."""
from __future__ import annotations

import random

from lib.plain_machine import Reply, Request


class Replies:
    """Replies by random numbers, mostly such that an edge goes on: one in so many is of the worst sort."""

    def __init__(self, seed: int, worst: int = 60) -> None:
        self.random, self.worst = random.Random(seed), worst

    def one_in(self, count: int) -> bool:
        return self.random.randrange(count) == 0

    def paths(self) -> tuple[bytes, ...]:
        return tuple(b"h%d" % self.random.randrange(4) for _ in range(self.random.choice((0, 0, 1, 2, 5))))

    def reply(self, request: Request, command: bytes) -> Reply:
        """Returns a reply that suits a request; the record mostly has this command."""
        word = request[0]
        if self.one_in(self.worst):
            return ("fault",) if word != "run" else self.random.choice((("exit", 3), ("signal",), ("not started",)))
        if word == "stat":
            return "stamp", 0 if self.one_in(25) else self.random.randint(1, 6)
        if word == "recall":
            other = command if not self.one_in(6) else b"another"
            return ("none",) if self.one_in(8) else ("entry", other, self.random.randint(0, 7), self.paths())
        if word == "deps":
            return ("none",) if self.one_in(6) else ("bytes", b"o:" + b"".join(b" " + path for path in self.paths()))
        return ("exit", 0) if word == "run" else ("kept",)
