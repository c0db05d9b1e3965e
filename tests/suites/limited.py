"""Prints the commands of manifests, and verifies images, that ask for much with few bytes, in 100 MiB of address space.

Each run must end as it does with ample memory: with status 0, or with the refusal that the manifest gets then.
"""
from __future__ import annotations

import functools
import pathlib
import resource
import subprocess
from collections.abc import Callable, Iterator

from lib import hostile_codes, hostile_shapes, programs
from lib.image import Image, spelled
from lib.suite import Case, Setting

ALONE = True
ROOM = 100 << 20  # bytes
SLOTS = 10_000  # of an image
REFUSED = {"inputs_again": b"plan: 40 TextTooLong build.ninja:1200020\n"}


def limit() -> None:
    """Limits the address space of this process."""
    resource.setrlimit(resource.RLIMIT_AS, (ROOM, ROOM))


def fault(program: str, shape: Callable[[], dict[str, str]], folder: pathlib.Path) -> str:
    """Returns how a run differs from one with ample memory, or an empty text."""
    programs.write(shape(), folder)
    done = subprocess.run([program, "commands", "build.ninja"], cwd=folder, stdin=subprocess.DEVNULL,
                          capture_output=True, preexec_fn=limit, timeout=programs.SECONDS)
    wanted = REFUSED.get(shape.__name__, b"")
    is_right = (done.returncode, done.stderr) == (2 if wanted else 0, wanted)
    return "" if is_right else f"status {done.returncode}, {done.stderr[:200]!r}"


def verifier_fault(program: str, shape: Callable[[int], Image], folder: pathlib.Path) -> str:
    """Returns how the verdict on an image differs from `ok`, or an empty text."""
    (folder / "image").write_bytes(spelled(shape(SLOTS)))
    done = subprocess.run([program, "verify", "image"], cwd=folder, stdin=subprocess.DEVNULL, capture_output=True,
                          preexec_fn=limit, timeout=programs.SECONDS)
    is_right = done.returncode == 0 and done.stdout.startswith(b"ok 1 ")
    return "" if is_right else f"status {done.returncode}, {done.stderr[:200]!r}"


def cases(setting: Setting) -> Iterator[Case]:
    """Yields the manifests, then the images."""
    for shape in hostile_shapes.SHAPES:
        yield Case(shape.__name__, functools.partial(fault, setting.program, shape))
    for shape in hostile_codes.SHAPES:
        yield Case(shape.__name__, functools.partial(verifier_fault, setting.program, shape))
