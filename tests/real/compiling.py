"""Compares the image that PROGRAM makes of a manifest with what ninja prints of its targets, commands and queries."""
from __future__ import annotations

import pathlib
import re
import tempfile
from collections.abc import Iterator
from typing import Set

from lib import plain_reader, programs

from lib.image import SORTS, Code, Image, code_of
from lib.programs import Lines

PHONY = b"phony"
QUERIED = 2_000  # outputs of a tree of which ninja is asked for inputs and users: all, but for the largest trees
Inputs = Set[bytes]
Users = Set[bytes]


def made(program: str, manifest: str, folder: pathlib.Path) -> Image | str:
    """Returns the image that `compile` writes and `verify` accepts, or why there is none."""
    with tempfile.TemporaryDirectory() as home:
        path = pathlib.Path(home) / "plan.img"
        done = programs.run([program, "compile", manifest, "-o", str(path)], folder)
        if done.returncode != 0 or done.stdout or done.stderr:
            return f"compile: status {done.returncode}: {done.stderr.decode(errors='replace').strip()}"
        verdict = programs.run([program, "verify", str(path)], folder)
        image = plain_reader.read(path.read_bytes())
    if isinstance(image, str):
        return f"what compile wrote is no image: {image}"
    if not re.fullmatch(rb"ok %d \d+\n" % len(image.edges), verdict.stdout):
        return f"verify: {(verdict.stdout + verdict.stderr).decode(errors='replace').strip()}"
    return image


def commands(image: Image, code: Code) -> Iterator[bytes]:
    """Yields the texts that a code gives to `Run`."""
    for (name, number), (following, _) in zip(code, code[1:]):
        if following == "Run":
            yield image.texts[number or 0] if name == "Text" else b"no text"


def maker_faults(image: Image, targets: Lines) -> Iterator[str]:
    """Yields edges that make other paths than ninja says, or that are a phony only here or only there."""
    theirs = dict(line.rstrip(b"\n").rsplit(b": ", 1) for line in targets)
    ours = {image.files[file]: edge for edge in image.edges for file in edge.outputs}
    if ours.keys() != theirs.keys():
        yield f"{len(ours)} files are made, ninja makes {len(theirs)}"
    for path in ours.keys() & theirs.keys():
        if (SORTS[ours[path].sort] == "phony") != (theirs[path] == PHONY):
            yield f"{path!r} is made by {SORTS[ours[path].sort]}, ninja says {theirs[path]!r}"


def code_faults(image: Image) -> Iterator[str]:
    """Yields codes without what tools look for: a command runs once with a place, and a phony runs nothing."""
    for edge in image.edges:
        names = [name for name, _ in code_of(image, edge)]
        if SORTS[edge.sort] == "phony" and set(names) & {"Run", "Keep", "Recall", "Deps", "Take"}:
            yield f"a phony with {names}"
        if SORTS[edge.sort] == "command" and [names.count(name) for name in ("Take", "Run", "Release")] != [1, 1, 1]:
            yield f"a command with {names}"


def queried(printed: bytes) -> Iterator[tuple[bytes, Inputs, Users]]:
    """Yields each path that `ninja -t query` was asked for, with all its inputs and the outputs that use it."""
    for block in re.split(rb"^(?=\S)", printed, flags=re.MULTILINE)[1:]:
        head, *lines = block.splitlines()
        inputs: Inputs = set()
        users: Users = set()
        part: Inputs = set()
        for line in lines:
            if not line.startswith(b"    "):
                part = inputs if line.startswith(b"  input:") else users
            else:
                part.add(re.sub(rb"^\|\|? ", b"", line[4:]))
        yield head[:-1], inputs, users


def query_faults(image: Image, printed: bytes) -> Iterator[str]:
    """Yields edges that wait for other edges than ninja says, ask for other sources, or aren't waited for."""
    maker = {image.files[file]: number for number, edge in enumerate(image.edges) for file in edge.outputs}
    for path, inputs, users in queried(printed):
        edge = image.edges[maker[path]]
        waits = sorted({maker[found] for found in inputs if found in maker})
        if list(edge.waits) != waits:
            yield f"{path!r} waits for {list(edge.waits)}, by ninja's inputs for {waits}"
        sources = {image.files[operand] for name, operand in code_of(image, edge) if name == "Need"}
        if sources != inputs - maker.keys():
            yield f"{path!r} asks for {sources}, by ninja's inputs for {inputs - maker.keys()}"
        others = {maker[user] for user in users if user in maker} - {maker[path]}  # a phony may use its own output
        if not all(maker[path] in image.edges[other].waits for other in others):
            yield f"not every user of {path!r} waits for it"


def sample(image: Image) -> list[str]:
    """Returns some outputs, evenly spread."""
    paths = [image.files[file].decode(errors="surrogateescape") for edge in image.edges for file in edge.outputs]
    return paths[::max(1, len(paths) // QUERIED)]


def difference(program: str, ninja: str, manifest: str, folder: pathlib.Path, theirs: Lines) -> str:
    """Returns how the image and ninja differ in commands, makers, inputs and users, or an empty text."""
    image = made(program, manifest, folder)
    if isinstance(image, str):
        return f"    {image}"
    targets = programs.printed_lines([ninja, "-f", manifest, "-t", "targets", "all"], folder)
    ran = Lines(text + b"\n" for edge in image.edges for text in commands(image, code_of(image, edge)))
    query = programs.run([ninja, "-f", manifest, "-t", "query", *sample(image)], folder)
    found = [*maker_faults(image, targets), *code_faults(image), *query_faults(image, query.stdout)]
    if ran != theirs:
        lacking, other = sum((theirs - ran).values()), sum((ran - theirs).values())
        found.append(f"{lacking} commands of ninja lack, {other} are others")
    return "\n".join(f"    {fault}" for fault in found[:5])
