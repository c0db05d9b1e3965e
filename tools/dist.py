#!/usr/bin/env python3
"""Packs the proved programs: a tarball and a .deb, with checksums.

    tools/dist.py PROGRAM [--log GATE_LOG] [--out FOLDER]

PROGRAM is plan_ninja; plan_build is next to it, or in its own crate. Both packages hold the programs, a link by which
CMake and Meson call plan_build as `ninja`, LICENSE, the guarantee and the guides, the log of the gate, and SHA-256
sums. The tarball has a Makefile of its own for `make install`. Neither needs the kit.
A program without proofs is refused, and so are one that is older than the sources, and the log of a gate that failed.
"""
from __future__ import annotations

import argparse
import hashlib
import os
import pathlib
import re
import shutil
import subprocess
import sys
import tarfile
import tempfile

import tests_path  # noqa: F401: it makes lib known
import unproved
from lib import programs

ROOT = pathlib.Path(__file__).resolve().parent.parent
NAME = "plan_ninja"
FRONT = "plan_build"
DOCUMENTS = ("README.md", "LICENSE", "CHANGELOG.md", "docs/GUARANTEE.md")
CONTROL = """Package: plan-ninja
Version: {version}
Section: devel
Priority: optional
Architecture: amd64
Depends: libc6
Maintainer: The plan_ninja developers <plan_ninja@localhost>
Description: formally verified builder for Ninja manifests
 plan_ninja compiles build.ninja files into plan images, and runs such images
 on many threads. It is proved that the image is what the manifest means, and
 that no run of it goes wrong.
 .
 plan_build builds what a manifest says, with the command line of ninja.
 /usr/libexec/plan_ninja has it by the name ninja, for CMake and Meson.
"""


def version() -> str:
    """Returns the version that the program prints."""
    text = (ROOT / "crates" / "plan_cli" / "src" / "commands.rt").read_text()
    return re.findall(r'const VERSION: &str = "([^"]+)"', text)[0]


def check_log(log: pathlib.Path) -> None:
    """Ends this script if the log is not that of a gate that passed."""
    text = log.read_text(errors="replace") if log.is_file() else ""
    last = re.findall(r"^(\d+) passed, (\d+) failed", text, flags=re.MULTILINE)
    if not last or last[-1][1] != "0":
        sys.exit(f"{log} is no log of a gate that passed: run make check first")


def check_program(program: pathlib.Path) -> None:
    """Ends this script if the program does not run, or was compiled without proofs."""
    if not os.access(program, os.X_OK):
        sys.exit(f"{program} is missing: run make first")
    if "unproved" in program.parts:
        sys.exit(f"{program} was compiled without its proofs: only a proved program is packed")
    if not unproved.is_current(program):
        sys.exit(f"{program} is older than the sources: run make check first")


def check_version(program: pathlib.Path, option: str, name: str) -> None:
    """Ends this script if a program doesn't say that it has the version of the sources."""
    said = subprocess.run([program, option], stdout=subprocess.PIPE, check=True).stdout.decode()
    if not said.startswith((f"{name} {version()}:", f"{name} {version()}\n")):
        sys.exit(f"{program} says {said[:60]!r}, and the sources have version {version()}: run make first")


def front(program: pathlib.Path) -> pathlib.Path:
    """Returns the path of plan_build, or ends this script."""
    try:
        return pathlib.Path(programs.front(str(program)))
    except programs.Refused as error:
        sys.exit(str(error))


def copy(source: pathlib.Path, target: pathlib.Path, mode: int = 0o644) -> None:
    """Copies a file, creates its folder, and sets its mode."""
    target.parent.mkdir(parents=True, exist_ok=True)
    shutil.copyfile(source, target)
    target.chmod(mode)


def lay_out(program: pathlib.Path, log: pathlib.Path, prefix: pathlib.Path) -> None:
    """Copies all that is packed to the folders below a prefix."""
    copy(program, prefix / "bin" / NAME, 0o755)
    copy(front(program), prefix / "bin" / FRONT, 0o755)
    (prefix / "libexec" / NAME).mkdir(parents=True)
    (prefix / "libexec" / NAME / "ninja").symlink_to(pathlib.Path("..", "..", "bin", FRONT))
    documents = prefix / "share" / "doc" / NAME
    for name in DOCUMENTS:
        copy(ROOT / name, documents / pathlib.Path(name).name)
    using = ROOT / "docs" / "using"
    for page in sorted([*using.glob("*.md"), *using.glob("screens/*.png")]):
        copy(page, documents / page.relative_to(using.parent))
    copy(log, documents / "gate.log")


def sums(folder: pathlib.Path) -> str:
    """Returns the SHA-256 sum of each file below a folder, in the form that `sha256sum -c` reads."""
    files = sorted(path for path in folder.rglob("*") if path.is_file())
    return "".join(f"{hashlib.sha256(path.read_bytes()).hexdigest()}  {path.relative_to(folder)}\n" for path in files)


def clean(entry: tarfile.TarInfo) -> tarfile.TarInfo:
    """Takes the owner's name and the time out of an entry, so that the same files give the same tarball."""
    entry.uid = entry.gid = 0
    entry.uname = entry.gname = "root"
    entry.mtime = 0
    return entry


def tarball(program: pathlib.Path, log: pathlib.Path, out: pathlib.Path) -> pathlib.Path:
    """Writes the tarball, and returns its path."""
    name = f"{NAME}-{version()}-x86_64-linux"
    with tempfile.TemporaryDirectory() as home:
        folder = pathlib.Path(home) / name
        lay_out(program, log, folder)
        copy(ROOT / "tools" / "install.mk", folder / "Makefile")
        (folder / "SHA256SUMS").write_text(sums(folder))
        with tarfile.open(out / f"{name}.tar.gz", "w:gz") as packed:
            packed.add(folder, name, filter=clean)
    return out / f"{name}.tar.gz"


def package(program: pathlib.Path, log: pathlib.Path, out: pathlib.Path) -> pathlib.Path | None:
    """Writes the .deb, and returns its path; None if dpkg-deb is missing."""
    if not shutil.which("dpkg-deb"):
        return None
    path = out / f"plan-ninja_{version()}_amd64.deb"
    with tempfile.TemporaryDirectory() as home:
        folder = pathlib.Path(home)
        folder.chmod(0o755)
        lay_out(program, log, folder / "usr")
        (folder / "usr" / "share" / "doc" / NAME / "SHA256SUMS").write_text(sums(folder / "usr"))
        (folder / "DEBIAN").mkdir()
        (folder / "DEBIAN" / "control").write_text(CONTROL.format(version=version()))
        words = ["dpkg-deb", "--root-owner-group", "--build", str(folder), str(path)]
        subprocess.run(words, check=True, stdout=subprocess.DEVNULL)
    return path


def main() -> None:
    parser = argparse.ArgumentParser(description=__doc__, formatter_class=argparse.RawDescriptionHelpFormatter)
    parser.add_argument("program", type=lambda path: pathlib.Path(path).resolve())
    parser.add_argument("--log", type=pathlib.Path, default=ROOT / "gate.log", help="log of the gate (gate.log)")
    parser.add_argument("--out", type=pathlib.Path, default=ROOT / "out" / "dist", help="folder to write to (out/dist)")
    asked = parser.parse_args()
    check_program(asked.program)
    check_program(front(asked.program))
    check_version(asked.program, "--version", NAME)
    check_version(front(asked.program), "--about", FRONT)
    check_log(asked.log)
    asked.out.mkdir(parents=True, exist_ok=True)
    made = [tarball(asked.program, asked.log, asked.out), package(asked.program, asked.log, asked.out)]
    if made[1] is None:
        print("dpkg-deb is missing (apt-get install dpkg): no .deb was packed", file=sys.stderr)
    packed = [path for path in made if path]
    lines = [f"{hashlib.sha256(path.read_bytes()).hexdigest()}  {path.name}\n" for path in packed]
    (asked.out / "SHA256SUMS").write_text("".join(lines))
    for path in packed:
        print(path)


if __name__ == "__main__":
    main()
