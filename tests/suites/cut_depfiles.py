"""Runs commands whose depfile is cut after each of its bytes: there the program ends one piece and begins the next.

A depfile is read in pieces of 65,536 bytes. Spaces after the colon put each byte of a short list of paths, one after
the other, at the end of the first piece. Wherever the list is cut, the build record must have the same paths, and the
next run must find nothing to do until one of them changes.
"""
from __future__ import annotations

import functools
import os
import pathlib
import time
from collections.abc import Iterator

from lib import programs, records
from lib.suite import Case, Setting

PIECE = 65_536  # bytes
TARGET = b"out:"
LIST = b" a.h \\\n b\\ c.h \\\r\n\t$$d x\\\\y \\\n"
PATHS = [b"a.h", b"b c.h", b"$d", b"x\\\\y"]
RULE = "rule r\n  command = cp $in $out.d && touch $out\n  depfile = $out.d\n"


def depfile(cut: int) -> bytes:
    """Returns a depfile whose first piece ends after this many bytes of the list."""
    return TARGET + b" " * (PIECE - len(TARGET) - cut) + LIST


def faults(program: str, folder: pathlib.Path) -> Iterator[str]:
    """Yields for each cut whether other paths were recorded, and whether a run has something else to do."""
    cuts = range(len(LIST) + 1)
    manifest = RULE + "".join(f"build out{cut}: r in{cut}\n" for cut in cuts)
    files = {f"in{cut}": depfile(cut) for cut in cuts}
    programs.write({"build.ninja": manifest, **files, **{os.fsdecode(path): "" for path in PATHS}}, folder)
    programs.printed_lines([program, "compile", "build.ninja", "-o", "plan.img"], folder)
    ran = programs.run([program, "run", "plan.img"], folder)
    paths = {entry.output: entry.paths for entry in records.entries((folder / ".plan_record").read_bytes())}
    for cut in cuts:
        found = paths.get(f"out{cut}".encode())
        yield "" if found == PATHS else f"cut after {LIST[:cut]!r}: {found!r}"
    again = programs.run([program, "run", "plan.img"], folder)
    later = time.time() + 1  # a touch in the same tick of the clock as an output would not be newer
    os.utime(folder / os.fsdecode(PATHS[-1]), (later, later))
    touched = programs.run([program, "run", "plan.img"], folder)
    lines = [done.stdout.count(b"\n") for done in (ran, again, touched)]
    if lines != [len(cuts), 0, len(cuts)]:
        yield f"the three runs printed {lines} lines: {ran.stderr.decode()}"


def cases(setting: Setting) -> Iterator[Case]:
    """Yields one case, in which each cut is a check."""
    yield Case("cuts", functools.partial(faults, setting.program))
