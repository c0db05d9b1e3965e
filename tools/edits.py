#!/usr/bin/env python3
"""Tries must-fail edits: wrong bodies that the prover has to refuse.

Each edit is made in a copy of its crate, and the functions that it changes are checked over the proved crates below,
those that `rt ci` left in crates/*/out; so most edits take ten seconds to two minutes, and `rt must-fail` would check a
crate whole before the first one. The crates have to be proved: then a goal that isn't proved is the edit's fault. An
edit is refused if the prover says that a goal of a function that it changes is not proved. If it stops in a written
answer instead, because the answer names a value that the edit changed, the edit has to say so in a line
`refused-in-answer:`. A line `check: module::function` names the function to check if it isn't the changed one. If a
definition of specs/ is changed and there is no such line, the whole crate is checked. Edits of a crate that change
different functions are tried at once, since each check takes some ten seconds before its first function. An edit is not
tried at once with an edit of a function that it calls, because one could be refused for the other's mistake. An edit
that isn't refused that way is tried by itself. With --gate only the edits of tests/must_fail are tried, and otherwise
those of tests/edits too. With --fit none is tried: each text that an edit replaces must stand once in its file, also of
those that tools/wrong_bodies.py tries. The last line is `N passed, M failed`.

Each line on an edit says `N=..`: how many functions a check of the edit checks, those that it changes and all that they
call in their crate. An edit costs what its N costs, so an edit of the gate whose N is 15 or more counts as failed,
unless a line `costly:` says why the gate tries it all the same: it is one of the wrong bodies that the theorems are
there to refuse, and no lower function can make its mistake. If an edit is tried by itself, N is the prover's own count.
If edits are tried at once, the prover counts the functions of all. Then N of an edit is the number of those that the
changed function reaches in the call graph (call_graph.py), and of those that the graph lacks. The graph has too many
calls rather than too few. So an edit with 15 or more by the graph is tried by itself, and the prover's count decides.
"""
from __future__ import annotations

import argparse
import concurrent.futures
import os
import pathlib
import re
import shutil
import subprocess
import tempfile
import time
from collections.abc import Iterator, Sequence
from typing import NamedTuple

import call_graph
import over_sources
import tests_path  # noqa: F401: it makes lib known
from lib import programs

ROOT = pathlib.Path(__file__).resolve().parent.parent
GATE, OTHER = "must_fail", "edits"
LIMIT = 15  # an edit of the gate has fewer functions checked
BLOCK = re.compile(r"^(?:(?:unsafe )?impl\b|(?:pub(?:\([^)]*\))? )?trait \w)[^{]*\{", re.MULTILINE)
ITEM = re.compile(r"impl(?:<.*?>)? (?:(?P<trait>[\w:]+)(?:<[^{]*?>)?\s+for )?(?P<type>[\w:]+)|trait (?P<name>\w+)")
FUNCTION = re.compile(r"^(?P<indent> *)(?:pub(?:\([^)]*\))? )?(?:const |unsafe )*fn (?P<name>\w+)")
GOAL = "it is not proved that"
CHECKED = re.compile(r"^fn (\S+): (?!no holes|proved)")
LISTED = re.compile(r"^fn (\w+)::(?!(?:\S*::)?fn::)(?:\S*::)?(\S+): ", re.MULTILINE)  # the prover counts no closures
COUNT = re.compile(r"^only=(\d+)\b", re.MULTILINE)
ANSWER = re.compile(r"Answers\.antt|Invariants\.antt|Proof\.antt")


class Change(NamedTuple):
    file: str
    old: str
    new: str


class Edit(NamedTuple):
    path: pathlib.Path
    changes: list[Change]
    checked: list[str]
    reason: bool
    costly: bool

    @property
    def crate(self) -> str:
        return self.path.parent.name


class Result(NamedTuple):
    """How an edit ended: if it was refused as it must be, a line on it, and how many functions a check of it checks."""

    passed: bool
    said: str
    count: int | None = None


def read(path: pathlib.Path) -> Edit:
    """Returns the edit of a file."""
    changes, checked, file, old = [], [], "", ""
    words: set[str] = set()
    for line in path.read_text().splitlines():
        word, _, rest = line.partition(": ")
        if word == "file":
            file = rest
        elif word == "old":
            old = rest
        elif line.startswith("new:"):
            changes.append(Change(file, old, line[len("new: "):]))
        elif word == "check":
            checked.append(rest)
        words.add(word)
    return Edit(path, changes, checked, "refused-in-answer" in words, "costly" in words)


def edits_of(crate: str, folders: Sequence[str]) -> list[Edit]:
    return [read(path) for name in folders for path in sorted((ROOT / "tests" / name / crate).glob("*.edit"))]


def misfits(edit: Edit, crate: str, home: pathlib.Path | None = None) -> Iterator[str]:
    """Yields the texts that an edit replaces, if they don't stand once in their file of the crate, or of a copy."""
    texts: dict[str, str] = {}
    for file, old, new in edit.changes:
        text = texts.setdefault(file, ((home or ROOT / "crates" / crate) / file).read_text())
        if text.count(old) != 1:
            yield f"{crate}/{edit.path.name}: {text.count(old)} times: {old}"
        texts[file] = text.replace(old, new)


def fit(crates: Sequence[str]) -> tuple[int, int]:
    """Returns how many edits of these crates there are, and how many texts of them don't fit."""
    count, found = 0, []
    for crate in crates:
        own = edits_of(crate, (GATE, OTHER, "wrong_bodies"))
        found += [line for edit in own for line in misfits(edit, crate)]
        count += len(own)
    for line in found:
        print(line)
    return count, len(found)


def module_of(file: str) -> str:
    """Returns the path of the module in a file of src, with `::` after it; nothing for the crate's root."""
    parts = pathlib.PurePath(file).with_suffix("").parts[1:]
    return "" if parts in (("lib",), ("main",)) else "::".join(parts) + "::"


def function_at(file: str, text: str, place: int) -> str:
    """Returns the function that a place of a file is in, as the checker names it or the end of that name.

    A method has the module of its type, which may be in another file: so it is named by its type alone.
    """
    end = text.find("\n", place)
    text = text if end < 0 else text[:end]
    found = next((match for line in reversed(text.splitlines()) if (match := FUNCTION.match(line))), None)
    if found is None:
        return module_of(file)
    blocks = [" ".join(match[0].split()).replace("< ", "<").replace(" >", ">") for match in BLOCK.finditer(text)]
    item = ITEM.search(blocks[-1]) if blocks and found["indent"] else None
    if item is None:
        return module_of(file) + found["name"]
    of_trait = (item["trait"] or "").split("::")[-1]
    return f"{item['name'] or item['type'].split('::')[-1]}{of_trait}::{found['name']}"


def functions(edit: Edit, home: pathlib.Path) -> list[str]:
    """Returns the functions that an edit changes, before it is made in a copy of its crate.

    If it changes something else, there is the module instead, with `::` after it.
    """
    names, texts = [], {}
    for file, old, new in edit.changes:
        text = texts.get(file) or (home / file).read_text()
        if file.startswith("src/"):
            names.append(function_at(file, text, text.index(old)))
        texts[file] = text.replace(old, new, 1)
    return edit.checked or list(dict.fromkeys(names))


def apply(edit: Edit, home: pathlib.Path) -> list[str]:
    """Makes an edit in a copy of its crate, and returns the functions that it changes."""
    names = functions(edit, home)
    for file, old, new in edit.changes:
        path = home / file
        path.write_text(path.read_text().replace(old, new, 1))
    return [name.rstrip(":") for name in names]


class Reach:
    """What the functions of a crate call in it, by the plain call graph, and how many of them an edit may reach."""

    def __init__(self, is_gate: bool) -> None:
        self.program, self.is_gate = call_graph.Program(), is_gate
        self.known: dict[call_graph.Function, set[call_graph.Function]] = {}

    def is_high(self, edit: Edit, count: int | None) -> bool:
        """Returns whether an edit of the gate has too many functions checked, or nobody counted them."""
        return self.is_gate and not edit.costly and (count is None or count >= LIMIT)

    def named(self, crate: str, name: str) -> list[call_graph.Function]:
        """Returns the functions of a crate by a name as `functions` returns it, or as a line `check:` has it."""
        before, _, last = name.rpartition("::")
        found = []
        for function in self.program.functions:
            if function.crate == crate and function.name == last:
                home = module_of(str(function.file.relative_to(ROOT / "crates" / crate))).rstrip(":")
                owners = (function.type, function.type + function.trait) if function.type else (home,)
                if before in owners or before.rpartition("::")[2] in owners:
                    found.append(function)
        return found

    def changed(self, edit: Edit, names: Sequence[str]) -> set[call_graph.Function]:
        """Returns the functions with these names, which an edit changes, without their bodies."""
        return {function._replace(body="") for name in names for function in self.named(edit.crate, name)}

    def calls(self, function: call_graph.Function) -> set[call_graph.Function]:
        """Returns what a function calls. A method of a type parameter doesn't count: the prover takes its contract."""
        if function not in self.known:
            self.known[function] = set(self.program.calls(function, bounds=False))
        return self.known[function]

    def reached(self, edit: Edit, names: Sequence[str]) -> set[call_graph.Function]:
        """Returns the functions with these names and all of the crate that they call, also by an edit's new text."""
        new = "\n".join(change.new for change in edit.changes)
        waiting = [function._replace(body=f"{function.body}\n{new}")
                   for name in names for function in self.named(edit.crate, name)]
        done: set[call_graph.Function] = set()
        while waiting:
            function = waiting.pop()
            known = function._replace(body="")
            if known not in done and function.crate == edit.crate:
                done.add(known)
                waiting.extend(self.calls(function))
        return done


def verdict(edit: Edit, status: int, log: str) -> Result:
    """Returns how an edit ended that was tried by itself."""
    counted = COUNT.search(log)
    count = int(counted[1]) if counted else None
    line = next((line for line in log.splitlines() if GOAL in line), None)
    if line is not None:
        return Result(True, line.strip(), count)
    if status == 0:
        return Result(False, "NOT REFUSED", count)
    if edit.reason and ANSWER.search(log):
        return Result(True, "refused in an answer, for the reason that the edit gives", count)
    found = next((line for line in log.splitlines() if "error:" in line or "error[" in line), "")
    return Result(False, f"BAD EDIT, status {status}: {found.strip() or log[-600:].strip()}", count)


def copy_crate(crate: str, home: pathlib.Path) -> None:
    """Copies a crate to a folder, in the place of an earlier copy."""
    source = ROOT / "crates" / crate
    for part in ("src", "specs", "proofs"):
        shutil.rmtree(home / part, ignore_errors=True)
        if (source / part).is_dir():
            shutil.copytree(source / part, home / part)


def try_one(edit: Edit, words: Sequence[str], home: pathlib.Path) -> Result:
    """Tries one edit in a copy of its crate."""
    copy_crate(edit.crate, home)
    misfit = next(misfits(edit, edit.crate), None)
    if misfit:
        return Result(False, f"BAD EDIT: {misfit}")
    only = [word for name in apply(edit, home) for word in ("--only", name)]
    done = subprocess.run([*words, *only], cwd=home, stdout=subprocess.PIPE, stderr=subprocess.STDOUT)
    return verdict(edit, done.returncode, done.stdout.decode(errors="replace"))


def refusals(log: str) -> dict[str, str]:
    """Returns the functions of which a goal isn't proved, each with the line that says so."""
    found, goal = {}, None
    for line in log.splitlines():
        goal = goal or (line.strip() if GOAL in line else None)
        if line.startswith("fn "):
            checked = CHECKED.match(line)
            if goal and checked:
                found[checked[1]] = goal
            goal = None
    return found


class Made(NamedTuple):
    """An edit that is made in a copy together with others: the names of what it changes, and what it reaches."""

    edit: Edit
    names: list[str]
    changed: set[call_graph.Function]
    reached: set[call_graph.Function]


def make_together(edits: Sequence[Edit], home: pathlib.Path, reach: Reach) -> list[Made]:
    """Makes edits of different functions in one copy of their crate. Returns those that are made.

    An edit is left out if it gives a reason or names a function to check, changes a definition, or changes a function
    or a text that an earlier edit changes. It is left out too if one of the two calls what the other changes, and in
    the gate if it seems to reach too many functions.
    """
    made: list[Made] = []
    copy_crate(edits[0].crate, home)
    for edit in edits:
        of_code = all(file.startswith("src/") for file, _, _ in edit.changes)
        if edit.reason or edit.checked or not of_code or next(misfits(edit, edit.crate, home), None):
            continue
        names = functions(edit, home)
        changed, reached = reach.changed(edit, names), reach.reached(edit, names)
        if any(name.endswith("::") or not name for name in names) or reach.is_high(edit, len(reached)):
            continue
        if all(one.changed.isdisjoint(reached) and changed.isdisjoint(one.reached)
               and set(names).isdisjoint(one.names) for one in made):
            apply(edit, home)
            made.append(Made(edit, names, changed, reached))
    return made


def try_together(made: Sequence[Made], words: Sequence[str], home: pathlib.Path) -> dict[pathlib.Path, Result]:
    """Checks what edits change that are made in one copy, and prints a line. Returns those that are refused."""
    begun = time.monotonic()
    only = [word for one in made for name in one.names for word in ("--only", name)]
    done = subprocess.run([*words, "--allow-holes", *only], cwd=home, stdout=subprocess.PIPE, stderr=subprocess.STDOUT)
    log = done.stdout.decode(errors="replace")
    checked = [name for crate, name in LISTED.findall(log) if crate == made[0].edit.crate]
    found = refusals(log)
    known = {function.name for one in made for function in one.reached}
    refused = {}
    for edit, names, _, reached in made:
        ends = tuple(f"::{name}" for name in names)
        goal = next((goal for name, goal in found.items() if name.endswith(ends)), None)
        own = {function.name for function in reached}
        if goal:
            refused[edit.path] = Result(True, goal, sum(name in own or name not in known for name in checked))
    count = COUNT.search(log)
    print(f"{made[0].edit.crate}: {len(refused)} of {len(made)} edits refused at once, "
          f"{time.monotonic() - begun:.0f} s, N={count[1] if count else '?'}", flush=True)
    return refused


def try_all(edits: Sequence[Edit], proved: pathlib.Path, folder: pathlib.Path, reach: Reach) -> list[bool]:
    """Tries edits of one crate, first many at once and then the others one after another, and prints how each ended."""
    crate, passed = edits[0].crate, []
    home = folder / crate
    home.mkdir()
    words = [*over_sources.words(crate, over_sources.crates(), proved), "--incremental", str(folder / f"kept-{crate}")]
    left, together = sorted(edits, key=lambda edit: edit.costly), {}
    while left and len(made := make_together(left, home, reach)) > 1:
        together.update(try_together(made, words, home))
        left = [edit for edit in left if all(edit is not one.edit for one in made)]
    for edit in edits:
        begun, took = time.monotonic(), "at once"
        result = together.get(edit.path)
        if result is None or reach.is_high(edit, result.count):
            result = try_one(edit, words, home)
            took = f"{time.monotonic() - begun:.0f} s"
        if result.passed and reach.is_high(edit, result.count):
            result = result._replace(passed=False, said=f"N must be below {LIMIT}: change a function that calls less")
        print(f"{edit.path.relative_to(ROOT)}: {'refused' if result.passed else 'FAILED'}, {took}, "
              f"N={'?' if result.count is None else result.count}: {result.said}", flush=True)
        passed.append(result.passed)
    return passed


def libraries(folder: pathlib.Path) -> pathlib.Path:
    """Returns a folder with the proved libraries that `rt ci` left."""
    proved = folder / "proved"
    proved.mkdir()
    for rlib in ROOT.glob("crates/*/out/rlib/*.rlib"):
        (proved / rlib.name).symlink_to(rlib)
    return proved


def main() -> None:
    parser = argparse.ArgumentParser(description=__doc__, formatter_class=argparse.RawDescriptionHelpFormatter)
    parser.add_argument("crates", metavar="CRATE", nargs="+")
    parser.add_argument("--gate", action="store_true", help=f"only those of tests/must_fail, with N below {LIMIT}")
    parser.add_argument("--fit", action="store_true", help="look whether they fit the code, and try none")
    parser.add_argument("--jobs", type=int, default=os.cpu_count() or 1, help="checks side by side, of 1 to 3 GB")
    parser.add_argument("--proved", type=lambda path: pathlib.Path(path).resolve(),
                        help="a folder with the proved libraries (by default those that rt ci left)")
    parser.add_argument("-k", dest="names", action="append", default=[], help="only edits with such a name")
    asked = parser.parse_args()
    for crate in asked.crates:
        if not (ROOT / "crates" / crate).is_dir():
            parser.error(f"no such crate: {crate}")
    if asked.fit:
        programs.end(*fit(asked.crates))
    edits = [edits_of(crate, (GATE,) if asked.gate else (GATE, OTHER)) for crate in asked.crates]
    edits = [[edit for edit in own if not asked.names or edit.path.stem in asked.names] for own in edits]
    with tempfile.TemporaryDirectory() as name, concurrent.futures.ThreadPoolExecutor(asked.jobs) as lanes:
        folder = pathlib.Path(name)
        proved = asked.proved or libraries(folder)
        if not any(proved.glob("*.rlib")):
            parser.error(f"no proved libraries in {asked.proved or 'crates/*/out'}: run rt ci first")
        todo = sorted((own for own in edits if own), key=len, reverse=True)
        reach = Reach(asked.gate)
        refused = [passed for own in lanes.map(lambda own: try_all(own, proved, folder, reach), todo) for passed in own]
    programs.end(sum(refused), len(refused) - sum(refused))


if __name__ == "__main__":
    main()
