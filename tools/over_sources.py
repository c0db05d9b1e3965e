#!/usr/bin/env python3
"""Checks functions of a crate over the sources of the crates below, which needn't be proved yet.

`rt check` proves all crates below first, from nothing some half an hour on a new machine. Here their contracts count as
they stand, so that a crate and those above it can be worked on side by side; what they call of each other is checked
too, once. It gives no verdict, and the gate keeps nothing of it. What was checked is kept in a folder of the temporary
folder, by crate; with --holes it goes past open goals and prints each, with --fix-imports it mends `use` lines, with
--test it checks tests too, as those of the crates plan_tests_*. Crates whose rlib is in the folder of --proved count as
proved, and nothing of them is checked again: copy crates/NAME/out/rlib/NAME.rlib there once `rt ci` has made it.
"""
from __future__ import annotations

import argparse
import os
import pathlib
import shutil
import sys
import tempfile

ROOT = pathlib.Path(__file__).resolve().parent.parent
KIT = pathlib.Path(shutil.which("rt") or "/opt/rattle/bin/rt").resolve().parents[1]
LIBRARIES = KIT / "rlibs"


def crates() -> dict[str, list[str]]:
    """What each crate stands on, as crates.txt says."""
    lines = [line.partition("#")[0] for line in (ROOT / "crates.txt").read_text().splitlines()]
    split = [line.partition(":") for line in lines if line.strip()]
    return {name.strip(): below.split() for name, _, below in split}


def below(crate: str, listed: dict[str, list[str]], found: list[str]) -> list[str]:
    """The crates of this repository below a crate, lowest first."""
    for name in listed[crate]:
        if name in listed and name not in found:
            below(name, listed, found)
            found.append(name)
    return found


def words(crate: str, listed: dict[str, list[str]], proved: pathlib.Path | None) -> list[str]:
    """The checker's command line, without what is to be checked."""
    own = below(crate, listed, [])
    kit = sorted({"core", "std"} | {name for it in [crate, *own] for name in listed[it] if name not in listed})
    root = "src/lib.rt" if (ROOT / "crates" / crate / "src" / "lib.rt").is_file() else "src/main.rt"
    said = [str(KIT / "bin" / "rattle"), "check", "--crate-name", crate, root, "-L", f"dependency={LIBRARIES}"]
    for name in kit:
        said += ["--extern", f"{name}={LIBRARIES / name}.rlib"]
    if proved:
        said += ["-L", f"dependency={proved}"]
    for name in own:
        if proved and (proved / f"{name}.rlib").exists():
            said += ["--extern", f"{name}={proved / name}.rlib"]
            continue
        source = ROOT / "crates" / name / "src" / "lib.rt"
        said += ["--lib", f"{name}:{','.join(['core', 'std', *listed[name]])}={source}"]
    said += ["--antt-project", str(KIT / "rattle" / "logic" / "antt-project.json")]
    said += ["--logic-built", str(KIT / "logic_built"), "--links", f"{crate}=", "--progress"]
    return said


def main() -> None:
    parser = argparse.ArgumentParser(description=__doc__, formatter_class=argparse.RawDescriptionHelpFormatter)
    parser.add_argument("crate")
    parser.add_argument("only", nargs="*", help="modules or functions, as board::local_runs or edge::stack::Stack::pop")
    parser.add_argument("--holes", action="store_true")
    parser.add_argument("--fix-imports", action="store_true")
    parser.add_argument("--test", action="store_true", help="with the crate's tests")
    parser.add_argument("--jobs", type=int, default=1)
    parser.add_argument("--proved", type=lambda path: pathlib.Path(path).resolve(),
                        help="a folder with rlibs of crates that are proved")
    asked = parser.parse_args()
    listed = crates()
    if asked.crate not in listed:
        sys.exit(f"no crate {asked.crate}, of: {' '.join(listed)}")
    said = words(asked.crate, listed, asked.proved)
    said += ["--incremental", str(pathlib.Path(tempfile.gettempdir()) / f"over_sources-{asked.crate}")]
    said += ["--jobs", str(asked.jobs)]
    said += ["--allow-holes"] * asked.holes + ["--fix-imports"] * asked.fix_imports + ["--test"] * asked.test
    for name in asked.only:
        said += ["--only", name]
    os.chdir(ROOT / "crates" / asked.crate)
    os.execv(said[0], said)


if __name__ == "__main__":
    main()
