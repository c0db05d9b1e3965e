"""Builds trees whose commands print, and looks at what is shown of it: in a pipe, and on a terminal.

What a command writes to standard output and to standard error stays in its order. Its last line ends before the next
label begins. plan_build removes escape sequences, unless standard output is a terminal or CLICOLOR_FORCE is set.
"""
from __future__ import annotations

import fcntl
import functools
import os
import pathlib
import pty
import re
import subprocess
import time
from collections.abc import Iterator
from typing import Dict, List

from lib import programs
from lib.suite import Case, Setting

ALONE = True
COLOURS = ("CLICOLOR_FORCE", "TERM")
RED = r"\033[1;31mred\033[0m"
LINK = r"\033]8;;file:a\033\\link\033]8;;\033\\"
SHOWN = {"order": ("echo a; echo b >&2; echo c; echo d >&2", b"a\nb\nc\nd\n"),
         "no line feed": ("printf end", b"end\n"),
         "nothing": ("true", b"")}
SEQUENCES = {"colour": (RED, b"red\n", b"\x1b[1;31mred\x1b[0m\n"),
             "link": (LINK, b"link\n", b"\x1b]8;;file:a\x1b\\link\x1b]8;;\x1b\\\n"),
             "cut": (r"\033]0;title\nend", b"\nend\n", b"\x1b]0;title\nend\n")}
# the line on a terminal, when the command starts and when it has ended
WRITTEN_OVER = re.compile(rb"(?:\r\x1b\[K\x1b\[\?7l\[[01]/1\] label\x1b\[\?7h)+\n")


def manifest(command: str) -> str:
    """Returns a manifest with one edge, whose label is `label`."""
    return f"rule r\n  command = {command}\n  description = label\nbuild out: r\n"


def environment(variables: Dict[str, str]) -> Dict[str, str]:
    """Returns the environment, of the variables that decide about colours with these only."""
    return {**{name: value for name, value in os.environ.items() if name not in COLOURS}, **variables}


def piped(words: List[str], folder: pathlib.Path, variables: Dict[str, str]) -> bytes:
    """Returns what a program writes to a pipe."""
    done = subprocess.run(words, cwd=folder, stdin=subprocess.DEVNULL, stdout=subprocess.PIPE,
                          stderr=subprocess.STDOUT, timeout=programs.SECONDS, env=environment(variables))
    return done.stdout


def on_terminal(words: List[str], folder: pathlib.Path, variables: Dict[str, str]) -> bytes:
    """Returns what a program writes to a terminal, without the returns that the terminal adds."""
    master, slave = pty.openpty()
    child = subprocess.Popen(words, cwd=folder, stdin=subprocess.DEVNULL, stdout=slave, stderr=slave,
                             env=environment(variables))
    os.close(slave)
    found = b""
    while True:
        try:
            part = os.read(master, 4096)
        except OSError:  # the end, if the other side is closed
            break
        if not part:
            break
        found += part
    os.close(master)
    child.wait(timeout=programs.SECONDS)
    return found.replace(b"\r\n", b"\n")


def without_label(found: bytes) -> bytes:
    """Returns the lines of a command, without those of the program."""
    below = WRITTEN_OVER.sub(b"", found)
    return b"".join(line for line in below.splitlines(True) if not line.startswith(b"[1/1] "))


def compared(found: bytes, wanted: bytes) -> str:
    """Returns what is wrong, or an empty text."""
    return "" if without_label(found) == wanted else f"it printed {found!r}, wanted {wanted!r}"


def shown_by_run(program: str, command: str, wanted: bytes, folder: pathlib.Path) -> str:
    """`plan_ninja run` shows this of a command."""
    programs.write({"build.ninja": manifest(command)}, folder)
    programs.printed_lines([program, "compile", "build.ninja", "-o", "plan.img"], folder)
    return compared(piped([program, "run", "plan.img"], folder, {}), wanted)


def shown_by_build(builder: str, command: str, wanted: bytes, folder: pathlib.Path) -> str:
    """plan_build shows this of a command."""
    programs.write({"build.ninja": manifest(command)}, folder)
    return compared(piped([builder], folder, {}), wanted)


def sequences(builder: str, text: str, plain: bytes, whole: bytes, folder: pathlib.Path) -> Iterator[str]:
    """plan_build keeps escape sequences only if they are wanted."""
    programs.write({"build.ninja": manifest(f"printf '{text}'; rm -f out")}, folder)
    yield compared(piped([builder], folder, {"TERM": "xterm"}), plain)
    yield compared(piped([builder], folder, {"CLICOLOR_FORCE": "0"}), plain)
    yield compared(piped([builder], folder, {"CLICOLOR_FORCE": "1"}), whole)
    yield compared(on_terminal([builder], folder, {"TERM": "xterm"}), whole)
    yield compared(on_terminal([builder], folder, {"TERM": "dumb"}), plain)
    yield compared(on_terminal([builder], folder, {}), plain)


def slow_reader(words: List[str], bytes_of_each: int, folder: pathlib.Path) -> str:
    """Builds into a pipe in non-blocking mode that is read slowly. Nothing may be lost."""
    command = f"yes $out | head -c {bytes_of_each}; touch $out"
    edges = "".join(f"build out{number}: r\n" for number in range(4))
    programs.write({"build.ninja": f"rule r\n  command = {command}\n  description = $out\n{edges}"}, folder)
    reader, writer = os.pipe()
    fcntl.fcntl(writer, fcntl.F_SETFL, fcntl.fcntl(writer, fcntl.F_GETFL) | os.O_NONBLOCK)
    child = subprocess.Popen(words, cwd=folder, stdin=subprocess.DEVNULL, stdout=writer, stderr=subprocess.PIPE)
    os.close(writer)
    found = b""
    while True:
        part = os.read(reader, 8192)
        found += part
        if not part:
            break
        time.sleep(0.001)
    os.close(reader)
    assert child.stderr
    said = child.stderr.read()
    child.stderr.close()
    lines = [line for line in found.splitlines(True) if not line.startswith(b"[")]
    wanted = sorted(f"out{number}\n" * (bytes_of_each // 5) for number in range(4))
    shown = sorted(f"out{number}\n" * lines.count(f"out{number}\n".encode()) for number in range(4))
    if (child.wait(), said, shown == wanted, len(found.splitlines()) - len(lines)) != (0, b"", True, 4):
        return f"status {child.returncode}, {len(found)} bytes, and {said!r}"
    return ""


def cases(setting: Setting) -> Iterator[Case]:
    """Yields a case for each command, with each program."""
    builder = programs.front(setting.program)
    for name, (command, wanted) in SHOWN.items():
        yield Case(f"run, {name}", functools.partial(shown_by_run, setting.program, command, wanted))
    for name, (command, wanted) in SHOWN.items():
        yield Case(f"build, {name}", functools.partial(shown_by_build, builder, command, wanted))
    yield Case("slow reader", functools.partial(slow_reader, [builder, "-j", "2"], 400_000))
    for name, (text, plain, whole) in SEQUENCES.items():
        yield Case(f"sequences, {name}", functools.partial(sequences, builder, text, plain, whole))
