"""Build folders in which tests run a builder: to its end, in the background, or as a job of a shell in a terminal."""
from __future__ import annotations

import contextlib
import os
import pathlib
import pty
import re
import select
import signal
import subprocess
import time
from typing import NoReturn

from lib import programs
from lib.suite import PATIENCE, Wrong, until

WIDTH = 400  # of what is shown of a value
SLEEPING = "touch begun$out; sleep 60; touch $out"
GATED = "touch begun$out; while ! [ -e go ]; do sleep 0.02; done; touch $out"
CAUGHT = (signal.SIGINT, signal.SIGTERM, signal.SIGHUP)


def expect(what: str, wanted: object, found: object) -> None:
    """Raises Wrong unless what was found is what is wanted."""
    if wanted != found:
        raise Wrong(f"{what}: {repr(found)[:WIDTH]}, not {repr(wanted)[:WIDTH]}")


def group_of(leader: int) -> dict[int, str]:
    """Returns the processes of a group, each with its state, without those that have ended."""
    found = {}
    for name in filter(str.isdigit, os.listdir("/proc")):
        with contextlib.suppress(OSError):
            text = pathlib.Path("/proc", name, "stat").read_text().rpartition(") ")[2].split()
            if int(text[2]) == leader and text[0] not in "ZX":
                found[int(name)] = text[0]
    return found


class Place:
    """A build folder, and the builder that runs in it."""

    def __init__(self, builder: str, folder: pathlib.Path, **environment: str) -> None:
        self.builder = builder
        self.folder = folder
        self.environment = {**os.environ, **environment}
        self.groups: list[subprocess.Popen[bytes]] = []

    def write(self, *edges: str, pool: str = "") -> None:
        """Writes a manifest with an edge for each `OUTPUT COMMAND`; `>OUTPUT` waits for the edge before it."""
        text, before = "", ""
        for number, (output, command) in enumerate(edge.split(" ", 1) for edge in edges):
            text += f"rule r{number}\n  command = {command}\n  description = {output.lstrip('>')}\n  pool = {pool}\n"
            text += f"build {output.lstrip('>')}: r{number} {before if output.startswith('>') else ''}\n"
            before = output.lstrip(">")
        programs.write({"build.ninja": text}, self.folder)

    def done(self, *words: str, **more: object) -> subprocess.CompletedProcess[bytes]:
        """Runs the builder to its end."""
        streams = {"stdout": subprocess.PIPE, "stderr": subprocess.PIPE, **more}
        return subprocess.run([self.builder, *words], cwd=self.folder, env=self.environment, timeout=PATIENCE,
                              stdin=subprocess.DEVNULL, **streams)

    def started(self, *words: str, hangup: signal.Handlers = signal.SIG_DFL) -> subprocess.Popen[bytes]:
        """Starts the builder in its own process group."""
        child = subprocess.Popen([self.builder, *words], cwd=self.folder, env=self.environment, stdout=subprocess.PIPE,
                                 stdin=subprocess.DEVNULL, stderr=subprocess.STDOUT, start_new_session=True,
                                 preexec_fn=lambda: signal.signal(signal.SIGHUP, hangup))
        self.groups.append(child)
        return child

    def end(self) -> None:
        """Kills what was started and still runs."""
        for child in self.groups:
            with contextlib.suppress(ProcessLookupError):
                os.killpg(child.pid, signal.SIGKILL)
            child.wait()
            if child.stdout:
                child.stdout.close()

    def has(self, *names: str) -> bool:
        """Checks whether all these files are there."""
        return all((self.folder / name).exists() for name in names)

    def begun(self, *outputs: str) -> None:
        """Waits until the commands of these outputs have begun."""
        until(lambda: self.has(*(f"begun{output}" for output in outputs)), f"{outputs} don't begin in time")


class Terminal:
    """A terminal in which a shell with job control runs the builder as a job, and continues it if a file says so."""

    def __init__(self, place: Place, *words: str) -> None:
        self.leader, self.end = pty.fork()
        self.shown = b""
        if self.leader == 0:
            try:
                lead([place.builder, *words], place)
            finally:
                os._exit(99)
        self.job = int(self.reads(rb"<job (\d+)>"))

    def reads(self, wanted: bytes) -> bytes:
        """Reads until something fits; returns the first group of it."""
        end = time.monotonic() + PATIENCE
        while not (found := re.search(wanted, self.shown)):
            if time.monotonic() > end:
                raise Wrong(f"nothing fits {wanted!r} in {self.shown!r}")
            if select.select([self.end], [], [], 0.05)[0]:
                with contextlib.suppress(OSError):
                    self.shown += os.read(self.end, 4096)
        return found[1] if found.groups() else b""

    def types(self, text: bytes) -> None:
        """Types a text."""
        os.write(self.end, text)

    def close(self) -> None:
        """Kills the job and its shell, and closes the terminal."""
        for process in (*group_of(self.job), self.leader):
            with contextlib.suppress(ProcessLookupError):
                os.kill(process, signal.SIGKILL)
        os.waitpid(self.leader, 0)
        os.close(self.end)


def lead(words: list[str], place: Place) -> NoReturn:
    """Runs a job as a shell does, in the process that leads the terminal's session."""
    signal.signal(signal.SIGTTOU, signal.SIG_IGN)
    job = os.fork()
    if job == 0:
        os.setpgid(0, 0)
        os.tcsetpgrp(0, os.getpid())
        for number in (*CAUGHT, signal.SIGQUIT, signal.SIGTSTP, signal.SIGTTOU):
            signal.signal(number, signal.SIG_DFL)
        os.chdir(place.folder)
        os.execve(words[0], words, place.environment)
    os.write(1, b"<job %d>" % job)
    while True:
        _, status = os.waitpid(job, os.WUNTRACED)
        if not os.WIFSTOPPED(status):
            break
        os.tcsetpgrp(0, os.getpgrp())
        os.write(1, b"<stopped>")
        while not place.has("continue"):
            time.sleep(0.01)
        os.tcsetpgrp(0, job)
        os.killpg(job, signal.SIGCONT)
    told = -os.WTERMSIG(status) if os.WIFSIGNALED(status) else os.WEXITSTATUS(status)
    os.write(1, b"<ended %d>" % told)
    time.sleep(PATIENCE)
    os._exit(0)
