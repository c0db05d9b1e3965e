"""Ends the program in the middle of a command that writes twice, and builds again: the file must then be right.

The builder and its commands get SIGINT or SIGTERM, as a terminal sends them, or SIGKILL; or only the builder gets
SIGKILL, and its command goes on. Before that the output was built once, so that its record has an entry, and the source
is changed. A command goes on from its first write to its second only if there is a file `go`, so that none ends too
early. A run that was ended leaves an older trace as it was; the trace of the next run tells its line.
"""
from __future__ import annotations

import contextlib
import functools
import os
import pathlib
import signal
import subprocess
import time
from collections.abc import Iterator

from lib import programs
from lib.suite import Case, Setting, alive, until

ALONE = True

COMMAND = "echo one > $out; touch begun; while ! [ -e go ]; do sleep 0.05; done; cat in >> $out"
MANIFEST = f"rule w\n  command = {COMMAND}\nbuild out: w in\n"
RUN = ["run", "plan.img", "--trace", "plan.trace"]
OLDER = "an older trace\n"
# The word that is written into the source, the signal, and whether only the builder gets it.
TRIALS = (("interrupted", signal.SIGINT, False), ("terminated", signal.SIGTERM, False),
          ("killed", signal.SIGKILL, False), ("alone", signal.SIGKILL, True))


def built(program: str, folder: pathlib.Path) -> None:
    """Builds the tree for the first time."""
    programs.write({"build.ninja": MANIFEST, "in": "first\n", "go": ""}, folder)
    programs.printed_lines([program, "compile", "build.ninja", "-o", "plan.img"], folder)
    programs.printed_lines([program, "run", "plan.img"], folder)


def ended(program: str, folder: pathlib.Path, number: int, alone: bool) -> None:
    """Starts a build, ends it after its command has written half of the output, and waits until all has ended."""
    for name in ["begun", "go"]:
        (folder / name).unlink(missing_ok=True)
    child = subprocess.Popen([program, *RUN], cwd=folder, stdin=subprocess.DEVNULL,
                             stdout=subprocess.DEVNULL, preexec_fn=os.setpgrp)
    try:
        until((folder / "begun").exists, "the command doesn't begin")
        if alone:
            child.send_signal(number)
        else:
            os.killpg(child.pid, number)
        child.wait()
        (folder / "go").touch()
        until(lambda: not alive(child.pid), "the command doesn't end")
    finally:
        with contextlib.suppress(ProcessLookupError):
            os.killpg(child.pid, signal.SIGKILL)
        child.wait()


def fault(program: str, word: str, number: int, alone: bool, folder: pathlib.Path) -> str:
    """Returns what is wrong after a build that was ended, or an empty text."""
    built(program, folder)
    time.sleep(0.02)
    (folder / "in").write_text(f"{word}\n")
    (folder / "plan.trace").write_text(OLDER)
    ended(program, folder, number, alone)
    if (folder / "plan.trace").read_text() != OLDER:
        return "the run that was ended changed the trace"
    again = programs.run([program, *RUN], folder)
    if again.returncode != 0 or not again.stdout.startswith(b"[1/1] echo one"):
        return f"the next run ended with {again.returncode} and printed {again.stdout!r}"
    if (folder / "out").read_text() != f"one\n{word}\n":
        return f"the output is {(folder / 'out').read_text()!r}"
    if programs.replayed(program, folder) != (0, again.stdout):
        return f"replay gives {programs.replayed(program, folder)!r}, and the run printed {again.stdout!r}"
    last = programs.run([program, "run", "plan.img"], folder)
    return f"it ran once more: {last.stdout!r}" if last.stdout else ""


def cases(setting: Setting) -> Iterator[Case]:
    """Yields the signals."""
    for word, number, alone in TRIALS:
        yield Case(word, functools.partial(fault, setting.program, word, number, alone))
