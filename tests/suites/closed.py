"""Starts each command with closed standard streams: with one of 0, 1 and 2, with two of them, and with all three.

What the program prints must never get into a file that it opens. If standard output is closed, a command that has
something to print ends with `plan: 133 FileFault -` and status 2, though a build still builds everything. In all other
cases it does what it does with open streams.
"""
from __future__ import annotations

import functools
import itertools
import os
import pathlib
import subprocess
from typing import Iterator, List, Sequence, Tuple

from lib import programs, records
from lib.suite import Case, Setting

ALONE = True
MANIFEST = """rule copy
  command = echo printed; echo wrong >&2; cat $in > $out
build a: copy in
build b: copy a
"""
FILES = {"build.ninja": MANIFEST, "in": "text\n"}
LOST = b"plan: 133 FileFault -\n"
# The words of each command, and whether it prints anything.
COMMANDS = [
    (["commands", "build.ninja"], True),
    (["compile", "build.ninja", "-o", "made.img"], False),
    (["verify", "plan.img"], True),
    (["dump", "plan.img"], True),
    (["replay", "plan.img", "run.trace"], True),
    (["replay", "plan.img", "run.trace", "run.trace"], True),
    (["run", "plan.img", "--trace", "made.trace"], True),
    (["--help"], True),
]
MADE = ["a", "b", ".plan_record", "made.img", "made.trace"]
Result = Tuple[int, bytes, bytes]


def started(program: str, folder: pathlib.Path, words: Sequence[str], closed: Sequence[int]) -> Result:
    """Runs a command without these streams, and returns its status and what came on the others."""
    def close() -> None:
        for number in closed:
            os.close(number)

    done = subprocess.run([program, *words], cwd=folder, stdin=subprocess.DEVNULL, capture_output=True,
                          timeout=programs.SECONDS, preexec_fn=close)
    return done.returncode, done.stdout, done.stderr


def made(folder: pathlib.Path) -> List[bytes]:
    """Returns the files that commands make, and removes them. Stamps in the record and the trace are left out."""
    found = []
    for name in MADE:
        path = folder / name
        data = path.read_bytes() if path.exists() else b"missing"
        if name == ".plan_record" and path.exists():
            data = b" ".join(entry.output for entry in records.entries(data))
        if name == "made.trace":
            data = b"\n".join(line for line in data.splitlines() if b"stamp" not in line and b" keep " not in line)
        found.append(data)
        path.unlink() if path.exists() else None
    return found


def laid(program: str, folder: pathlib.Path) -> None:
    """Writes the files that commands read."""
    programs.write(FILES, folder)
    programs.printed_lines([program, "compile", "build.ninja", "-o", "plan.img"], folder)
    programs.printed_lines([program, "run", "plan.img", "-j", "1", "--trace", "run.trace"], folder)
    made(folder)


def fault(program: str, words: List[str], prints: bool, closed: Sequence[int], folder: pathlib.Path) -> str:
    """Returns what is wrong with a command that has these streams closed, or an empty text."""
    laid(program, folder)
    status, printed, said = started(program, folder, words, ())
    files = made(folder)
    if prints and 1 in closed:
        status, printed, said = 2, b"", LOST
    found = started(program, folder, words, closed)
    wanted = (status, b"" if 1 in closed else printed, b"" if 2 in closed else said)
    if found != wanted:
        return f"it came to {found}, wanted {wanted}"
    now = made(folder)
    return "" if now == files else f"it wrote {now}, wanted {files}"


def cases(setting: Setting) -> Iterator[Case]:
    """Yields the commands, each with the streams that are closed."""
    for words, prints in COMMANDS:
        for closed in itertools.chain.from_iterable(itertools.combinations((0, 1, 2), n) for n in (1, 2, 3)):
            name = f"{' '.join(words)} without {', '.join(map(str, closed))}"
            yield Case(name, functools.partial(fault, setting.program, words, prints, closed))
