"""Packs the programs as `make dist` does, installs what was packed, and builds a C project with it.

Nothing of the kit or of the repository may be needed after that: the installed program runs with an environment of its
own, in which only the system's folders are on the PATH.
"""
from __future__ import annotations

import functools
import pathlib
import shutil
import subprocess
import tarfile
from collections.abc import Iterator

from lib import programs
from lib.suite import Case, LeftOut, Setting, check

ROOT = pathlib.Path(__file__).resolve().parents[2]
PASSED = "1 passed, 0 failed\n"  # the end of a gate's log
BARE = {"PATH": "/usr/bin:/bin"}


def run(*words: object, folder: pathlib.Path, status: int = 0) -> str:
    """Runs a command in a bare environment, and returns what it prints; its status must be the one that is wanted."""
    done = subprocess.run([str(word) for word in words], cwd=folder, env=BARE, stdin=subprocess.DEVNULL,
                          stdout=subprocess.PIPE, stderr=subprocess.STDOUT, timeout=programs.SECONDS)
    said = done.stdout.decode(errors="replace")
    check(done.returncode == status, f"{words[0]} ended with {done.returncode}: {said[-400:]}")
    return said


def need(*commands: str) -> None:
    """Raises LeftOut if a command is missing."""
    for command in commands:
        if not shutil.which(command, path=BARE["PATH"]):
            raise LeftOut(f"{command} is missing")


def pack(program: str, folder: pathlib.Path, log: str = PASSED, status: int = 0) -> str:
    """Packs copies of the programs into folder/out."""
    shutil.copy(program, folder / "plan_ninja")
    shutil.copy(programs.front(program), folder / "plan_build")
    (folder / "gate.log").write_text(log)
    words = [shutil.which("python3"), ROOT / "tools" / "dist.py", folder / "plan_ninja"]
    return run(*words, "--log", folder / "gate.log", "--out", folder / "out", folder=folder, status=status)


def unpack(program: str, folder: pathlib.Path) -> pathlib.Path:
    """Packs a program, and returns the folder of the unpacked tarball."""
    pack(program, folder)
    packed = next((folder / "out").glob("*.tar.gz"))
    with tarfile.open(packed) as tar:
        tar.extractall(folder)
    return folder / packed.name[:-len(".tar.gz")]


def build_with(prefix: pathlib.Path, folder: pathlib.Path) -> None:
    """Builds the demo by what is installed as ninja, twice; the second time nothing is to do."""
    shutil.copytree(ROOT / "examples" / "demo", folder / "demo")
    ninja = prefix / "libexec" / "plan_ninja" / "ninja"
    said = run(ninja, folder=folder / "demo")
    check("[3/3] LINK hello" in said, f"the demo isn't built: {said}")
    check(run("./hello", folder=folder / "demo") == "Hello, world!\n", "the demo doesn't run")
    check("no work to do" in run(ninja, folder=folder / "demo"), "the second build has something to do")


def tarball_installs(program: str, folder: pathlib.Path) -> None:
    """Installs the tarball below a folder, and builds with what was installed."""
    need("make", "sha256sum", "cc", "python3")
    run("make", "install", "PREFIX=/usr", f"DESTDIR={folder}/root", folder=unpack(program, folder))
    said = run(folder / "root" / "usr" / "bin" / "plan_ninja", "--version", folder=folder)
    check(said.startswith("plan_ninja "), f"--version says {said!r}")
    said = run(folder / "root" / "usr" / "bin" / "plan_build", "--version", folder=folder)
    check(said == "1.9.0\n", f"--version of plan_build says {said!r}")
    build_with(folder / "root" / "usr", folder)


def damaged_tarball_is_refused(program: str, folder: pathlib.Path) -> None:
    """Changes a file of the tarball: nothing may be installed."""
    need("make", "sha256sum")
    unpacked = unpack(program, folder)
    with open(unpacked / "bin" / "plan_ninja", "ab") as file:
        file.write(b"\0")
    run("make", "install", f"DESTDIR={folder}/root", folder=unpacked, status=2)
    check(not (folder / "root").exists(), "a damaged tarball was installed")


def package_installs(program: str, folder: pathlib.Path) -> None:
    """Unpacks the Debian package below a folder, and builds with what is in it."""
    need("dpkg-deb", "cc", "python3")
    pack(program, folder)
    package = next((folder / "out").glob("*.deb"))
    run("dpkg-deb", "-x", package, folder / "root", folder=folder)
    build_with(folder / "root" / "usr", folder)
    run("sha256sum", "--quiet", "-c", "share/doc/plan_ninja/SHA256SUMS", folder=folder / "root" / "usr")


def failed_gate_is_not_packed(program: str, folder: pathlib.Path) -> None:
    """Gives the log of a gate that failed: nothing may be packed."""
    said = pack(program, folder, log="3 passed, 1 failed\n", status=1)
    check("no log of a gate that passed" in said and not (folder / "out").exists(), f"it was packed: {said}")


def cases(setting: Setting) -> Iterator[Case]:
    """Yields each way to install."""
    for trial in (tarball_installs, damaged_tarball_is_refused, package_installs, failed_gate_is_not_packed):
        yield Case(trial.__name__, functools.partial(trial, setting.program))
