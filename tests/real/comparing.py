"""Compares what PROGRAM prints and compiles of a manifest with what ninja prints for all of its targets."""
from __future__ import annotations

import pathlib
import re
import subprocess
import tempfile
from typing import Literal, NamedTuple

from lib import programs
from lib.programs import Lines
from real import compiling

DECIDED = {36: "dyndep", 37: "response files"}  # what this project refuses by its number: docs/using/refusals.md
REFUSED_LINE = re.compile(rb"^ +(?:dyndep|rspfile|rspfile_content) = .*\n", re.MULTILINE)
SHOWN = 5
WIDTH = 400


class Outcome(NamedTuple):
    """What came of one manifest, the number of ninja's commands, and what is to be said of it."""

    verdict: Literal["equal", "refused", "differs"]
    commands: int
    said: str = ""


def text(printed: bytes) -> str:
    return printed.decode(errors="replace").strip()[:WIDTH]


def first_lines(side: str, found: Lines) -> list[str]:
    """Returns the first of these lines, each with the side that printed it."""
    shown = [f"    {side}: {text(line)}" for line in sorted(found.elements())[:SHOWN]]
    more = sum(found.values()) - len(shown)
    return shown + ([f"    {side}: {more} more"] if more else [])


def difference(ours: Lines, theirs: Lines) -> str:
    """Returns what only one of both prints, or an empty text if both print the same lines as often."""
    shown = [*first_lines("only ninja", theirs - ours), *first_lines("only here", ours - theirs)]
    return "\n".join(shown)


def refusal(done: subprocess.CompletedProcess[bytes]) -> int | None:
    """Returns the number of a refusal that the project decided on, or None."""
    found = re.match(rb"plan: (\d+) ", done.stderr)
    number = int(found[1]) if done.returncode == 2 and found else None
    return number if number in DECIDED else None


def doctored(printed: bytes) -> list[bytes]:
    """Returns wrong outputs: the first command missing, twice, or with a blank after it, and no newline at the end."""
    first, newline, rest = printed.partition(b"\n")
    return [rest, first + newline + printed, first + b" " + newline + rest, printed[:-1]]


def outcome(done: subprocess.CompletedProcess[bytes], theirs: Lines) -> Outcome:
    """Returns what came of a run that was not refused. Wrong outputs must differ from an output that is equal."""
    commands = sum(theirs.values())
    if done.returncode != 0:
        return Outcome("differs", commands, f"    status {done.returncode}: {text(done.stderr)}")
    said = difference(programs.counted(done.stdout), theirs)
    if not said and not all(difference(programs.counted(wrong), theirs) for wrong in doctored(done.stdout)):
        said = "    a wrong output would not be told from this one"
    return Outcome("differs" if said else "equal", commands, said)


def with_image(found: Outcome, said: str) -> Outcome:
    """Returns what came of the commands and of the image, of which this is said."""
    return Outcome("differs", found.commands, f"{found.said}\n{said}".strip("\n")) if said else found


def without_refused_lines(folder: pathlib.Path, copy: pathlib.Path) -> None:
    """Copies every manifest of a folder without the lines that are refused: they change no command."""
    for path in folder.rglob("*.ninja"):
        target = copy / path.relative_to(folder)
        target.parent.mkdir(parents=True, exist_ok=True)
        target.write_bytes(REFUSED_LINE.sub(b"", path.read_bytes()))


def compared(program: str, ninja: str, manifest: str, folder: pathlib.Path) -> Outcome:
    """Compares one manifest of a folder. One that is refused is compared again, without the lines that are."""
    theirs = programs.ninja_commands(ninja, folder, manifest)
    done = programs.run([program, "commands", manifest], folder)
    number = refusal(done)
    if number is None:
        return with_image(outcome(done, theirs), compiling.difference(program, ninja, manifest, folder, theirs))
    with tempfile.TemporaryDirectory() as home:
        copy = pathlib.Path(home)
        without_refused_lines(folder, copy)
        rest = outcome(programs.run([program, "commands", manifest], copy), theirs)
        rest = with_image(rest, compiling.difference(program, ninja, manifest, copy, theirs))
    verdict: Literal["refused", "differs"] = "refused" if rest.verdict == "equal" else "differs"
    said = f"{number} {DECIDED[number]}; {rest.verdict} without such lines"
    return Outcome(verdict, rest.commands, f"{said}\n{rest.said}".strip())
