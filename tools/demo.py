#!/usr/bin/env python3
"""Builds examples/demo with plan_build, edits its header, and builds it again.

    tools/demo.py [PROGRAM]

PROGRAM is the proved plan_build, if it was built. Otherwise this script takes the program without proofs, and makes it
first if it is missing (tools/unproved.py).
"""
from __future__ import annotations

import argparse
import os
import pathlib
import shutil
import signal
import subprocess
import sys
import tempfile

import unproved

ROOT = pathlib.Path(__file__).resolve().parent.parent
UNPROVED = unproved.PROGRAM.with_name("plan_build")
PROJECT = ROOT / "examples" / "demo"
PACKAGES = {"cc": "a C compiler (apt-get install gcc libc6-dev)",
            "rt": "the Rattle kit, whose command is rt (README.md, \"Install\")"}


def say(text: str) -> None:
    print(text, flush=True)


def require(command: str) -> None:
    """Ends this script if a command is not on the PATH, and names what to install."""
    if not shutil.which(command):
        sys.exit(f"make demo needs {PACKAGES[command]}")


def program(proved: pathlib.Path) -> pathlib.Path:
    """Returns the program to use: the proved one, or the one without proofs, which is made if it is missing."""
    if os.access(proved, os.X_OK) and proved != UNPROVED:
        say(f"Using the proved program, {proved}")
        return proved
    if not unproved.is_current(UNPROVED):
        require("rt")
        say("There is no proved program yet (make builds it). Compiling one without its proofs: about two minutes.")
        UNPROVED.parent.mkdir(parents=True, exist_ok=True)
        unproved.make(unproved.FRONT, UNPROVED)
    say(f"Using the program without proofs, {UNPROVED}")
    return UNPROVED


def show(folder: pathlib.Path, *words: str) -> None:
    """Prints a command as a shell would show it, and runs it in a folder."""
    say("$ " + " ".join(pathlib.Path(word).name if word.startswith("/") else word for word in words))
    done = subprocess.run(words, cwd=folder, check=False)
    if done.returncode != 0:
        sys.exit(f"{words[0]} ended with status {done.returncode}")


def build(folder: pathlib.Path, name: str) -> None:
    """Builds the project, edits its header, and builds it again; the last build has nothing to do."""
    say(f"\nA C project of two sources and a header, copied to {folder}:")
    show(folder, name)
    show(folder, "./hello")
    say("\nThe header changes, so both sources are compiled again:")
    header = folder / "greeting.h"
    say("$ sed -i s/world/you/ greeting.h")
    header.write_text(header.read_text().replace("world", "you"))
    show(folder, name)
    show(folder, "./hello")
    say("\nNothing has changed, so nothing runs:")
    show(folder, name)


def main() -> None:
    signal.signal(signal.SIGTERM, lambda *_: sys.exit(143))  # so that what was started is stopped
    parser = argparse.ArgumentParser(description=__doc__, formatter_class=argparse.RawDescriptionHelpFormatter)
    parser.add_argument("program", nargs="?", type=lambda path: pathlib.Path(path).resolve(),
                        default=ROOT / "crates" / "plan_build" / "out" / "plan_build")
    require("cc")
    found = program(parser.parse_args().program)
    with tempfile.TemporaryDirectory() as home:
        folder = pathlib.Path(home) / "demo"
        shutil.copytree(PROJECT, folder)
        build(folder, str(found))
    say("\nNext: make proves and builds the program, make check is the whole gate. README.md has the rest.")


if __name__ == "__main__":
    try:
        main()
    except KeyboardInterrupt:
        sys.exit(130)
    except BrokenPipeError:  # nobody reads any more
        os.dup2(os.open(os.devnull, os.O_WRONLY), 1)
        sys.exit(1)
