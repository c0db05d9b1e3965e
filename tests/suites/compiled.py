"""Compares the images that `compile` makes of random manifests with the manifests, and their runs with the rule.

It is known of each edge of such a manifest (lib/random_builds.py) what it is. The image must say the same of each edge,
and `verify` must accept it. Then its edges run one after the other, each after those that it waits for: their code by
the plain machine (lib/plain_machine.py), and along with it the out-of-date rule (lib/plain_rule.py). Both get the same
random replies. They must ask the same, and end alike. What an edge leaves for its users is compared when they use it.
Of the listing this is checked: a command is compared by `Equal` unless the edge is a generator, a depfile has `Deps`,
and sources are asked by `Need`. One case is two edges in a chain, which run step by step (lib/chain.py).

Each edge counts as one check.
"""
from __future__ import annotations

import functools
import pathlib
from collections.abc import Iterator
from typing import Tuple

from lib import chain, plain_reader, plain_rule, programs
from lib.image import SORTS, Edge, Image, code_of
from lib.plain_machine import ActiveEdge, Ended, Failed, Value
from lib.plain_rule import Facts, Made, Reply, Request, Source
from lib.random_builds import POOLS, Build, Writer
from lib.random_replies import Replies
from lib.suite import Case, Setting

COUNT = 300  # manifests
Ending = Tuple[str, object]


class Known:
    """What is known of a manifest: its edges, and what follows from them."""

    def __init__(self, builds: list[Build], targets: list[str]) -> None:
        self.builds = builds
        self.maker = {path: number for number, build in enumerate(builds) for path in build.made()}
        self.waits = [sorted({self.maker[path] for path in build.named() + build.ordered() if path in self.maker})
                      for build in builds]
        self.ranks: dict[int, int] = {}
        for number in range(len(builds)):
            self.rank(number)
        used = {path for build in builds for path in build.named() + build.ordered()}
        last = [number for number, build in enumerate(builds) if any(path not in used for path in build.made())]
        self.defaults = sorted({self.maker[path] for path in targets}) if targets else last

    def rank(self, number: int) -> int:
        if number not in self.ranks:
            self.ranks[number] = 1 + max(map(self.rank, self.waits[number]), default=-1)
        return self.ranks[number]

    def in_order(self) -> list[int]:
        return sorted(range(len(self.builds)), key=lambda number: self.ranks[number])


def said(image: Image, edge: Edge) -> tuple[object, ...]:
    """Returns what an image says of an edge."""
    pool = None if edge.pool is None else (image.pools[edge.pool].name.decode(), image.pools[edge.pool].depth)
    outputs = tuple(image.files[file].decode() for file in edge.outputs)
    return (SORTS[edge.sort], outputs, image.texts[edge.label].decode(), list(edge.waits), edge.rank, pool)


def meant(known: Known, number: int) -> tuple[object, ...]:
    """Returns what a manifest says of an edge."""
    build = known.builds[number]
    label = "" if build.is_phony else build.description or build.command
    return ("phony" if build.is_phony else "command", build.made(), label, known.waits[number], known.ranks[number],
            (build.pool, POOLS[build.pool]) if build.pool else None)


def table_faults(image: Image, known: Known) -> Iterator[str]:
    """Yields how the tables of an image differ from the manifest, or are longer than they have to be."""
    pools = list(dict.fromkeys(build.pool for build in known.builds if build.pool))
    if [pool.name.decode() for pool in image.pools] != pools:
        yield f"pools {image.pools}, wanted {pools}"
    if list(image.defaults) != known.defaults:
        yield f"defaults {image.defaults}, wanted {known.defaults}"
    if image.bodies is None or len(set(image.bodies)) != len(image.bodies):
        yield "no bodies, or two that are equal"
    first = list(dict.fromkeys(edge.code.body for edge in image.edges if hasattr(edge.code, "body")))
    if first != list(range(len(image.bodies or ()))):
        yield f"bodies in order of first use: {first}"
    if len(set(image.texts)) != len(image.texts):
        yield "a text stands twice"
    if len(image.edges) != len(known.builds):
        yield f"{len(image.edges)} edges, wanted {len(known.builds)}"


def listed(image: Image, edge: Edge) -> tuple[object, ...]:
    """Returns how often an edge has some instructions, and the files of `Need`."""
    code = code_of(image, edge)
    names = [name for name, _ in code]
    counts = {name: names.count(name) for name in ("Equal", "Deps", "Recall", "Run", "Keep", "Take", "Release")}
    return counts, {image.files[operand].decode() for name, operand in code if name == "Need"}


def to_be_listed(known: Known, number: int) -> tuple[object, ...]:
    """Returns what `listed` must find of an edge."""
    build = known.builds[number]
    runs = not build.is_phony
    counts = {"Equal": int(runs and not build.generator), "Deps": int(runs and bool(build.depfile)),
              **dict.fromkeys(("Recall", "Run", "Keep", "Take", "Release"), int(runs))}
    return counts, {path for path in build.named() + build.ordered() if path not in known.maker}


class Run:
    """A whole image, edge by edge."""

    def __init__(self, image: Image, known: Known, seed: int) -> None:
        self.image, self.known, self.replies = image, known, Replies(seed)
        self.slots: list[Value | None] = [None] * len(image.slots)
        self.left: dict[str, Made] = {}  # of each path made so far, what its maker leaves by the rule

    def given(self, paths: tuple[str, ...]) -> tuple[plain_rule.Input, ...]:
        files = {file.decode(): number for number, file in enumerate(self.image.files)}
        return tuple(
            self.left[path] if path in self.known.maker else Source(files[path], path.encode()) for path in paths)

    def facts(self, build: Build) -> Facts:
        outputs = tuple(path.encode() for path in build.made())
        return Facts(outputs, self.given(build.named()), self.given(build.ordered()), build.is_phony,
                     build.command.encode(), build.depfile.encode(), build.restat, build.generator)

    def faults(self) -> Iterator[str | None]:
        """Yields for each edge that can run how its code and the rule differ."""
        for number in self.known.in_order():
            build = self.known.builds[number]
            if all(path in self.left for wait in self.known.waits[number] for path in self.known.builds[wait].made()):
                yield self.fault(number, build)

    def fault(self, number: int, build: Build) -> str | None:
        asking, code = plain_rule.edge(self.facts(build)), ActiveEdge(self.image, number, self.slots)
        reply: Reply | None = None
        while True:
            wanted, found = self.by_rule(asking, reply, build), by_code(code, reply)
            if wanted != found:
                return f"edge {number} {build}: {found}, by the rule {wanted}"
            if wanted[0] in ("failed", "ended"):
                return None
            reply = self.replies.reply(wanted, build.command.encode())

    def by_rule(self, asking: plain_rule.Asking, reply: Reply | None, build: Build) -> Request | Ending:
        """Returns what the rule asks next, or how it ends."""
        try:
            return asking.send(reply)
        except plain_rule.Fails as fails:
            return "failed", fails.args[0]
        except StopIteration as stop:
            self.left.update(zip(build.made(), stop.value.outputs))
            return "ended", stop.value.ran


def by_code(code: ActiveEdge, reply: Reply | None) -> Request | Ending:
    """Returns what the code asks next, or how it ends."""
    try:
        if reply is not None and not code.hear(reply):
            return "unfit", reply
        while code.step() != "asked":
            pass
        return code.asked or ("nothing",)
    except Failed as failed:
        return "failed", failed.args[0]
    except Ended:
        return "ended", code.ran


def compiled(program: str, folder: pathlib.Path, text: str) -> Image | str:
    """Returns the image of a manifest, which `verify` accepts, or why there is none."""
    (folder / "build.ninja").write_text(text)
    done = programs.run([program, "compile", "build.ninja", "-o", "plan.img"], folder)
    if done.returncode != 0:
        return f"compile: {done.stderr!r} of {text!r}"
    image = plain_reader.read((folder / "plan.img").read_bytes())
    verdict = programs.run([program, "verify", "plan.img"], folder)
    if isinstance(image, str) or verdict.returncode != 0:
        return f"verify: {verdict.stderr!r} of {text!r}"
    return image


def chain_faults(program: str, folder: pathlib.Path) -> list[str]:
    """Returns for each edge of the chain that runs what it does differently."""
    image = compiled(program, folder, chain.MANIFEST)
    found = [image] if isinstance(image, str) else list(chain.faults(image))
    return found or [""] * (len(chain.STAMPS) - 1)


def faults(program: str, seed: int, folder: pathlib.Path) -> Iterator[str]:
    """Yields for each edge of a random manifest what is wrong with it, or an empty text."""
    builds, targets, text = Writer(seed).manifest()
    known = Known(builds, targets)
    image = compiled(program, folder, text)
    if isinstance(image, str):
        yield image
        return
    yield from (f"{fault}: {text!r}" for fault in table_faults(image, known))
    for number, edge in enumerate(image.edges):
        if said(image, edge) != meant(known, number):
            yield f"edge {number}: {said(image, edge)}, wanted {meant(known, number)}: {text!r}"
        if listed(image, edge) != to_be_listed(known, number):
            yield f"edge {number}: {listed(image, edge)}, wanted {to_be_listed(known, number)}: {text!r}"
    yield from (f"{fault}: {text!r}" if fault else "" for fault in Run(image, known, seed).faults())


def cases(setting: Setting) -> Iterator[Case]:
    """Yields the chain, and the random manifests."""
    yield Case("chain", functools.partial(chain_faults, setting.program))
    for seed in range(setting.seed, setting.seed + setting.counted(COUNT)):
        yield Case(f"manifest {seed}", functools.partial(faults, setting.program, seed))
