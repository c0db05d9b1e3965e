#!/usr/bin/env python3
"""Tries the wrong bodies of tests/wrong_bodies: no contract can refuse them, so a unit test has to.

They say nothing wrong and are of no use: lanes that work one after another, or a call that always answers want of
memory. Such an edit names, in its line `tests:`, a crate of tests and the path of one of its tests. On copies of the
tree the test has to pass, compiled without proofs, and has to fail once the edit is made. Other modules of tests are
left out of the copies, to save time, and so are the crates that only they use. With --tests-passed the test isn't run
without the edit, since all tests have just passed on these sources. With --gate only edits are tried that have a line
`gate:`, which says what they would break. Two tests run side by side. The last line is `N passed, M failed`.
"""
from __future__ import annotations

import argparse
import concurrent.futures
import pathlib
import re
import shutil
import tempfile
from typing import NamedTuple

import prove_all
import tests_path  # noqa: F401: it makes lib known
import without_proofs
from lib import programs

ROOT = pathlib.Path(__file__).resolve().parent.parent
PASSED, FAILED = "run=ended status=0", "run=ended status=101"
SIDE_BY_SIDE = 2
SECONDS = 60  # at most, for the test


class Test(NamedTuple):
    crate: str
    name: str


class Edit(NamedTuple):
    crate: str
    test: Test
    file: str
    old: str
    new: str
    gate: bool


def read(path: pathlib.Path) -> Edit:
    said = dict(line.split(": ", 1) for line in path.read_text().splitlines())
    test = Test(*said["tests"].split())
    return Edit(path.parent.name, test, said["file"], said["old"], said["new"], bool(said.get("gate")))


def files_of(module: str, source: pathlib.Path) -> list[pathlib.Path]:
    return [source / f"{module}.rt", *(source / module).glob("**/*.rt")]


def needed(module: str, source: pathlib.Path) -> set[str]:
    """Returns the names of a module and of those modules of its crate that it needs."""
    found, left = {module}, [module]
    while left:
        texts = [file.read_text() for file in files_of(left.pop(), source) if file.is_file()]
        others = {name for text in texts for name in re.findall(r"\bcrate::(\w+)", text)} - found
        found |= others
        left += others
    return found


def keep_only(module: str, crate: pathlib.Path) -> None:
    """Leaves the modules of tests that a module doesn't need out of a crate."""
    source = crate / "src"
    text = (source / "lib.rt").read_text()
    kept = needed(module, source)
    for declared in prove_all.TESTS.finditer(text):
        if declared[1] not in kept:
            prove_all.remove_module(crate, declared[1])
            text = text.replace(declared[0], "")
    (source / "lib.rt").write_text(text)
    keep_used(crate)


def keep_used(crate: pathlib.Path) -> None:
    """Removes those crates from the line of a crate in crates.txt that its sources don't name any more."""
    texts = (re.sub(r"//.*", "", file.read_text()) for file in (crate / "src").glob("**/*.rt"))
    named = {word for text in texts for word in re.findall(r"\w+", text)}
    table = crate.parent.parent / "crates.txt"
    lines = table.read_text().splitlines()
    for at, line in enumerate(lines):
        name, _, used = line.partition(":")
        if name == crate.name:
            lines[at] = f"{name}: {' '.join(one for one in used.split() if one in named)}"
    table.write_text("\n".join([*lines, ""]))


def tried(test: Test, edit: Edit | None) -> str:
    """Returns the line that says how a test ended, on a copy of the tree with this edit."""
    with tempfile.TemporaryDirectory() as folder:
        home = pathlib.Path(folder) / "tree"
        shutil.copytree(ROOT, home, ignore=shutil.ignore_patterns(".git", "out"))
        if edit:
            file = home / "crates" / edit.crate / edit.file
            text = file.read_text()
            if text.count(edit.old) != 1:
                return f"the text stands {text.count(edit.old)} times in {edit.file}"
            file.write_text(text.replace(edit.old, edit.new))
        keep_only(test.name.partition("::")[0], home / "crates" / test.crate)
        said = without_proofs.run_tests(home / "crates" / test.crate, SECONDS, [test.name]).said
        ended = next((line for line in reversed(said.splitlines()) if line.startswith("run=")), "no run")
        if ended.startswith(FAILED) and not re.search(rf"^test {test.name} \.\.\. FAILED$", said, re.MULTILINE):
            return f"another test than {test.name} failed"
        return ended


def main() -> None:
    parser = argparse.ArgumentParser(description=__doc__, formatter_class=argparse.RawDescriptionHelpFormatter)
    parser.add_argument("crates", metavar="CRATE", nargs="*", help="whose wrong bodies (of all crates without any)")
    parser.add_argument("--tests-passed", action="store_true", help="all unit tests have just passed on these sources")
    parser.add_argument("--gate", action="store_true", help="only those with a line gate:")
    asked = parser.parse_args()
    paths = sorted((ROOT / "tests" / "wrong_bodies").glob("*/*.edit"))
    edits = {path: read(path) for path in paths if not asked.crates or path.parent.name in asked.crates}
    edits = {path: edit for path, edit in edits.items() if edit.gate or not asked.gate}
    passed = failed = 0
    with concurrent.futures.ThreadPoolExecutor(SIDE_BY_SIDE) as lanes:
        tests = {edit.test: None for edit in edits.values() if not asked.tests_passed}
        without = {test: lanes.submit(tried, test, None) for test in tests}
        within = {path: lanes.submit(tried, edit.test, edit) for path, edit in edits.items()}
        for path, edit in edits.items():
            before = without[edit.test].result() if without else "passed"
            after = within[path].result()
            refused = before.startswith((PASSED, "passed")) and after.startswith(FAILED)
            print(f"{path.relative_to(ROOT)}\n  without it: {before}\n  with it: {after}", flush=True)
            if not refused:
                print("  NOT REFUSED")
            passed, failed = passed + refused, failed + (not refused)
    programs.end(passed, failed)


if __name__ == "__main__":
    main()
