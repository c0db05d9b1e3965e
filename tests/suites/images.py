"""Compares what the program says of images with the cases of tests/images, and with a plain reader and verifier.

Each image is given to `verify` and to `dump`. `verify` must answer as its case says, and `dump` must print the listing
of what can be read. Four images, and the compiled one of a chain of two edges, are cut at each length, and each of
their bits is turned. There are random images too. The answers to all these are those of lib/plain_reader.py and
lib/plain_verifier.py.
"""
from __future__ import annotations

import functools
import pathlib
from collections.abc import Iterator
from typing import Tuple

from lib import damaged_images, image, image_cases, plain_reader, programs, random_images
from lib.suite import Case, Setting

COUNT = 400  # random images
Printed = Tuple[int, bytes, bytes]  # status, standard output and standard error


def images(setting: Setting) -> Iterator[image_cases.Case]:
    """Yields all images, each with its answer."""
    every = list(image_cases.cases())
    chain = damaged_images.made("chain", damaged_images.compiled_chain(setting.program))
    turned = [*damaged_images.named(damaged_images.TURNED), chain]
    yield from every
    yield chain
    yield from (other for one in turned for other in damaged_images.changed(one))
    for number, data in enumerate(random_images.images(setting.counted(COUNT), setting.seed)):
        yield damaged_images.made(f"random image {number} of seed {setting.seed}", data)


def printed(text: str, is_ok: bool) -> Printed:
    """Returns what a command must print."""
    return (0, text.encode(), b"") if is_ok else (2, b"", f"plan: {text}\n".encode())


def wanted(case: image_cases.Case) -> dict[str, Printed]:
    """Returns what `verify` and `dump` must print of an image."""
    found, is_ok = plain_reader.read(case.data), case.answer.startswith("ok ")
    listing = found if isinstance(found, str) else image.listing(found).decode()
    return {"verify": printed(f"{case.answer}\n" if is_ok else case.answer, is_ok),
            "dump": printed(listing, not isinstance(found, str))}


def shown(said: Printed) -> str:
    """Returns what was printed, or the first part of it."""
    return f"{said[0]} {said[1][:200]!r} {said[2][:200]!r}"


def fault(program: str, case: image_cases.Case, folder: pathlib.Path) -> str:
    """Returns what the program says of an image that differs from its case."""
    (folder / "plan.img").write_bytes(case.data)
    faults = []
    for word, right in wanted(case).items():
        done = programs.run([program, word, "plan.img"], folder)
        found = done.returncode, done.stdout, done.stderr
        if found != right:
            faults.append(f"{word} gives {shown(found)}, wanted {shown(right)}")
    return "\n".join(faults)


def cases(setting: Setting) -> Iterator[Case]:
    """Yields the images."""
    for one in images(setting):
        yield Case(one.name, functools.partial(fault, setting.program, one))
