#!/usr/bin/env python3
"""Proves crates over libraries that are proved, and keeps the library of each for the crates above it.

    tools/prove.py --proved FOLDER [--test] [--jobs N] CRATE..

FOLDER has libraries NAME.rlib of the crates below, such as those that an `rt ci` in another clone has made in
crates/NAME/out/rlib. The library of each CRATE is put there too, in the place of an older one, so list the crates
bottom up. A program is only checked, and so is a crate with its tests (--test): what was checked is kept in
FOLDER/checked. Use it while you change a few crates: `rt ci` proves all crates from nothing. It gives no verdict, and
knows nothing of a library that is older than its sources. The last line of each check is printed, and the whole of it
is in FOLDER/CRATE.log.
"""
from __future__ import annotations

import argparse
import pathlib
import shutil
import subprocess
import sys
import time

from over_sources import KIT, LIBRARIES, ROOT, below, crates


def words(crate: str, listed: dict[str, list[str]], proved: pathlib.Path, is_built: bool) -> list[str]:
    """Returns the checker's command line, as `rt ci` has it."""
    own = below(crate, listed, [])
    missing = [name for name in own if not (proved / f"{name}.rlib").is_dir()]
    if missing:
        sys.exit(f"{proved} lacks the libraries of {' '.join(missing)}")
    kit = sorted({"std"} | {name for it in [crate, *own] for name in listed[it] if name not in listed})
    said = [str(KIT / "bin" / "rattle"), "build" if is_built else "check", "--crate-name", crate]
    said.append("src/lib.rt" if (ROOT / "crates" / crate / "src" / "lib.rt").is_file() else "src/main.rt")
    said += ["-L", f"dependency={LIBRARIES}", "-L", f"dependency={proved}", "--links", f"{crate}="]
    for name in kit:
        said += ["--extern", f"{name}={LIBRARIES / name}.rlib"]
    for name in own:
        said += ["--extern", f"{name}={proved / name}.rlib"]
    said += ["--antt-project", str(KIT / "rattle" / "logic" / "antt-project.json")]
    return said + ["--logic-built", str(KIT / "logic_built")]


def prove(crate: str, listed: dict[str, list[str]], asked: argparse.Namespace) -> bool:
    """Proves a crate, prints a line on it, and returns whether it is proved."""
    folder = ROOT / "crates" / crate
    is_built = (folder / "src" / "lib.rt").is_file() and not asked.test
    name = f"{crate}_tests" if asked.test else crate
    made, new = asked.proved / f"{crate}.rlib", asked.proved / f"{crate}.rlib.new"
    said = words(crate, listed, asked.proved, is_built) + ["--jobs", str(asked.jobs)]
    if is_built:
        said += ["--statements", "--empty-contracts", "-o", str(new)]
    else:
        said += ["--progress", "--incremental", str(asked.proved / "checked" / name)] + ["--test"] * asked.test
    begun, log = time.monotonic(), asked.proved / f"{name}.log"
    with log.open("w") as out:
        status = subprocess.run(said, cwd=folder, stdout=out, stderr=subprocess.STDOUT, check=False).returncode
    last = log.read_text(errors="replace").rstrip().rpartition("\n")[2]
    print(f"{name}: {time.monotonic() - begun:.0f} s, status {status}: {last[:160]}", flush=True)
    if is_built and status == 0:
        shutil.rmtree(made, ignore_errors=True)
        new.rename(made)
    return status == 0


def main() -> None:
    parser = argparse.ArgumentParser(description=__doc__, formatter_class=argparse.RawDescriptionHelpFormatter)
    parser.add_argument("crates", metavar="CRATE", nargs="+")
    parser.add_argument("--proved", type=lambda path: pathlib.Path(path).resolve(), required=True,
                        help="a folder with proved libraries")
    parser.add_argument("--test", action="store_true", help="with the crates' tests")
    parser.add_argument("--jobs", type=int, default=1)
    asked = parser.parse_args()
    listed = crates()
    unknown = [name for name in asked.crates if name not in listed]
    if unknown:
        sys.exit(f"no crate {unknown[0]}, of: {' '.join(listed)}")
    (asked.proved / "checked").mkdir(exist_ok=True)
    if not all(prove(crate, listed, asked) for crate in asked.crates):
        sys.exit(1)


if __name__ == "__main__":
    main()
