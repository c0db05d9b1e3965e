"""Runs commands of the pool `console`, which have the terminal to themselves, and others at the same time.

The program runs below a shell that pipes into it, with its output piped, and in its own terminal.
"""
from __future__ import annotations

import functools
import os
import pathlib
import pty
import select
import shlex
import signal
import subprocess
import time
from collections.abc import Callable, Iterator

from lib import programs
from lib.suite import PATIENCE, Case, Setting

ALONE = True
TERMINAL = "test -t 0 && test -t 1 && test -t 2"


def manifest(*edges: tuple[str, bool]) -> str:
    """Returns a manifest with a rule and an edge for each command; those that are marked are console edges."""
    text = ""
    for number, (command, console) in enumerate(edges):
        text += f"rule r{number}\n  command = {command}\n" + ("  pool = console\n" if console else "")
        text += f"build out{number}: r{number}\n"
    return text


def laid(program: str, folder: pathlib.Path, *edges: tuple[str, bool]) -> None:
    """Writes and compiles a manifest."""
    programs.write({"build.ninja": manifest(*edges)}, folder)
    programs.printed_lines([program, "compile", "build.ninja", "-o", "plan.img"], folder)


def piped(program: str, folder: pathlib.Path) -> bytes:
    """Returns what a run prints whose standard input is the line `hello`."""
    line = f"echo hello | {shlex.quote(program)} run plan.img"
    return subprocess.run(["sh", "-c", line], cwd=folder, capture_output=True, timeout=PATIENCE).stdout


def console_reads(program: str, folder: pathlib.Path) -> str:
    """A console command reads standard input."""
    laid(program, folder, ("cat", True))
    found = piped(program, folder)
    return "" if found == b"hello\n[1/1] cat\n" else f"it printed {found!r}"


def others_read_nothing(program: str, folder: pathlib.Path) -> str:
    """Another command has an empty standard input."""
    laid(program, folder, ("cat", False))
    found = piped(program, folder)
    return "" if found == b"[1/1] cat\n" else f"it printed {found!r}"


def output_is_whole(program: str, folder: pathlib.Path) -> str:
    """No other command's output comes between what a console command prints."""
    slow = "for n in 1 2 3 4 5 6; do echo c$$n; sleep 0.05; done"
    laid(program, folder, (slow, True), *((f"sleep 0.0{number}; echo other{number}", False) for number in range(9)))
    lines = programs.run([program, "run", "-j", "4", "plan.img"], folder).stdout.split(b"\n")
    first = lines.index(b"c1") if b"c1" in lines else 0
    if lines[first:first + 6] != [b"c%d" % n for n in range(1, 7)]:
        return f"it printed {lines!r}"
    return "" if sum(line.startswith(b"other") for line in lines) == 9 else f"an output is missing in {lines!r}"


def lines_wait(program: str, folder: pathlib.Path) -> str:
    """The line of a command that ended meanwhile comes after what a console command prints, and before its line."""
    programs.write({"ask.sh": "while ! [ -e out1 ]; do sleep 0.02; done; echo asked; touch out0\n"}, folder)
    laid(program, folder, ("sh ask.sh", True), ("touch out1", False))
    done = programs.run([program, "run", "-j", "2", "plan.img"], folder)
    found = (done.returncode, done.stdout)
    return "" if found == (0, b"asked\n[1/2] touch out1\n[2/2] sh ask.sh\n") else f"it ended so: {found}"


def one_at_a_time(program: str, folder: pathlib.Path) -> str:
    """No two console commands run at the same time."""
    alone = "mkdir taken && sleep 0.05 && rmdir taken"
    laid(program, folder, *[(alone, True)] * 4)
    done = programs.run([program, "run", "-j", "8", "plan.img"], folder)
    return "" if done.returncode == 0 else f"it printed {done.stdout!r}"


def in_terminal(words: list[str], folder: pathlib.Path, typed: Callable[[], bytes]) -> tuple[int, bytes]:
    """Runs a program in its own terminal; returns how it ends, and what is shown. `typed` is called again and again."""
    child, terminal = pty.fork()
    if child == 0:
        try:
            os.chdir(folder)
            os.execv(words[0], words)
        finally:
            os._exit(99)
    is_over, shown = False, b""
    try:
        is_over, shown = watched(terminal, typed)
    finally:
        if not is_over:
            os.kill(child, signal.SIGKILL)
        _, status = os.waitpid(child, 0)
        os.close(terminal)
    return -os.WTERMSIG(status) if os.WIFSIGNALED(status) else os.WEXITSTATUS(status), shown


def watched(terminal: int, typed: Callable[[], bytes]) -> tuple[bool, bytes]:
    """Reads a terminal until its other end is closed; returns whether that came in time, and what is shown."""
    shown, end = b"", time.monotonic() + PATIENCE
    while time.monotonic() < end:
        if select.select([terminal], [], [], 0.05)[0]:
            try:
                shown += os.read(terminal, 4096)
            except OSError:  # its other end is closed
                return True, shown
        else:
            os.write(terminal, typed())
    return False, shown


def console_has_the_terminal(program: str, folder: pathlib.Path) -> str:
    """The streams of a console command are the terminal."""
    laid(program, folder, (TERMINAL, True))
    status, shown = in_terminal([program, "run", "plan.img"], folder, lambda: b"")
    return "" if status == 0 else f"it ended with {status}, and showed {shown!r}"


def others_have_none(program: str, folder: pathlib.Path) -> str:
    """No stream of another command is the terminal."""
    laid(program, folder, (TERMINAL, False))
    status, shown = in_terminal([program, "run", "plan.img"], folder, lambda: b"")
    if status == 1 and b"FAILED out0: exit 1" in shown:
        return ""
    return f"it ended with {status}, and showed {shown!r}"


def interrupted(program: str, folder: pathlib.Path) -> str:
    """Ctrl-C ends the builder, its console command and another command."""
    laid(program, folder, ("touch begun0; sleep 30; touch out0", True), ("touch begun1; sleep 30; touch out1", False))

    def typed() -> bytes:
        return b"\x03" if (folder / "begun0").exists() and (folder / "begun1").exists() else b""

    begun = time.monotonic()
    status, shown = in_terminal([program, "run", "-j", "2", "plan.img"], folder, typed)
    if status == 0 or time.monotonic() - begun > PATIENCE / 2:
        return f"it ended with {status} late, and showed {shown!r}"
    left = [name for name in ("out0", "out1") if (folder / name).exists()]
    return f"{left} went on" if left else ""


TRIALS = (console_reads, others_read_nothing, output_is_whole, lines_wait, one_at_a_time, console_has_the_terminal,
          others_have_none, interrupted)


def cases(setting: Setting) -> Iterator[Case]:
    """Yields the trials."""
    for trial in TRIALS:
        yield Case(trial.__name__, functools.partial(trial, setting.program))
