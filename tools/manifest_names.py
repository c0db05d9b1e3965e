#!/usr/bin/env python3
"""Checks that the documents lead where they say.

Each page of rules (PAGES) has a trace next to it, docs/rules/NAME.trace: under the section and the title of each rule
stand lines `KEY: VALUE`, which go on with lines that are indented by two spaces. The keys are:

  defined    files of the crate's specs/, each with the names that define the rule in it
  done       functions and types that implement it, and that `main` reaches
  offered    functions and types of the library that `main` need not reach
  rows       folders of tests/rows, as NAME or LAYER/NAME
  cases      cases of tests/images, as FILE/NAME
  builds     cases of tests/builds, as FILE/NAME
  suites     suites of tests/suites that run `plan_build`, for a rule that only they show
  tests      unit tests, in the crate or in the module of a crate plan_tests_* that is named after it
  examples   Rows: examples that the checker computes in proofs/Rows.antt
  edits      wrong bodies that the prover refuses, in tests/must_fail/ or in tests/edits/

Names are those of the crate in the section's title. For names of another crate, write a semicolon, the name of that
crate, and then the names: `own_name, other_own_name; plan_text name_of_plan_text`.

These are faults: a rule of a page that has no entry in its trace, and an entry that has no rule; a name that doesn't
exist; a name under `done` that isn't reached from the program's `main` (call_graph.py); and a row, a case, a build or
an edit that no rule names. doc_names.py checks the other documents. Prints each fault on a line, and at the end how
many there are.
"""
from __future__ import annotations

import argparse
import fnmatch
import functools
import pathlib
import re
import sys
from collections.abc import Iterable, Iterator
from typing import NamedTuple

import call_graph
import doc_names
import tests_path  # noqa: F401: it makes lib known
import suites
from lib import build_cases as run_builds
from lib import image_cases as cases

ROOT = pathlib.Path(__file__).resolve().parent.parent

PAGES = ("rules/manifest.md", "rules/depfile.md", "rules/record.md", "rules/image.md", "rules/verifier.md",
         "rules/machine.md", "rules/lanes.md", "rules/world.md", "rules/out-of-date.md", "rules/replay.md",
         "rules/build.md", "rules/command-line.md", "rules/tools.md", "using/running.md")
KEYS = {"defined", "done", "offered", "rows", "cases", "builds", "suites", "tests", "examples", "edits"}


class Rule(NamedTuple):
    """A rule's section and title, the crate of its section, and the values of its keys, as of `rows`."""

    section: str
    title: str
    crate: str
    parts: dict[str, str]

    def groups(self, part: str) -> Iterator[tuple[str, str]]:
        """The pieces between semicolons, each with the crate in front of it, else the section's."""
        for text in re.split(r";\s*", self.parts.get(part, "")):
            found = re.match(r"(plan_\w+)\s+(.*)", text)
            if text:
                yield (found[1], found[2]) if found else (self.crate, text)


def trace_of(page: str) -> pathlib.Path:
    """The file with the traces of a page's rules."""
    return ROOT / "docs" / "rules" / f"{pathlib.Path(page).stem}.trace"


def blocks(text: str) -> Iterator[tuple[str, str, str]]:
    """The section, the title and the text of each rule of a page or of a trace."""
    for section in re.split(r"^## ", text, flags=re.MULTILINE)[1:]:
        heading, *found = re.split(r"^### ", section, flags=re.MULTILINE)
        for block in found:
            title, _, rest = block.partition("\n")
            yield heading.partition("\n")[0], title, rest


def titles(page: str) -> list[tuple[str, str]]:
    """The section and the title of each rule of a page, without the marks [N] and [P]."""
    found = blocks((ROOT / "docs" / page).read_text())
    return [(section, re.sub(r"(?:\s+\[[NP]\])+$", "", title)) for section, title, _ in found]


def rules(text: str) -> Iterator[Rule]:
    """The rules of a trace."""
    crate = ""
    for section, title, block in blocks(text):
        found = re.search(r"\((\w+)\)", section)
        crate = found[1] if found else crate
        items = re.findall(r"^(\w+): ((?:.*\n?)(?:  .*\n?)*)", block, flags=re.MULTILINE)
        yield Rule(section, title, crate, {key: " ".join(value.split()) for key, value in items})


def pairing_faults(page: str, found: list[Rule]) -> Iterator[str]:
    """Rules of a page that its trace lacks, and entries of the trace that its page lacks."""
    on_page, in_trace = titles(page), [(rule.section, rule.title) for rule in found]
    name = trace_of(page).name
    for own, other, where in ((on_page, in_trace, name), (in_trace, on_page, page)):
        yield from (f"{section}: {title}: not in {where}" for section, title in own if (section, title) not in other)
        yield from (f"{section}: {title}: twice" for section, title in sorted(set(own))
                    if own.count((section, title)) > 1)


def line_faults(page: str, found: list[Rule]) -> Iterator[str]:
    """Lines of a page's trace that are neither titles nor keys, keys of a rule that come twice, empty sections."""
    name = trace_of(page).name
    keys: set[str] = set()
    for at, line in enumerate(trace_of(page).read_text().splitlines(), 1):
        key = re.match(r"(\w+): ", line)
        if not key and not re.match(r"#|  \S|$", line):
            yield f"{name}:{at}: neither a title nor a key"
        elif line.startswith("## ") and line[3:] not in {rule.section for rule in found}:
            yield f"{name}:{at}: a section without rules"
        elif key and key[1] in keys:
            yield f"{name}:{at}: {key[1]} twice"
        keys = set() if line.startswith("#") else keys | ({key[1]} if key else set())


def definitions(rule: Rule) -> Iterator[str]:
    """`File `name`, `name`, File ..`: files of the crate's specs/ and their words."""
    for crate, text in rule.groups("defined"):
        file, content = "no file", ""
        for part in text.split(", "):
            found = re.fullmatch(r"(?:(\w+) ?)?(?:`([^`]+)`)?", part)
            if not found or not part:
                yield f"what is {part!r}?"
                continue
            if found[1]:
                file, paths = found[1], (ROOT / "crates" / crate / "specs").rglob(f"{found[1]}.antt")
                content = "".join(path.read_text() for path in paths)
            if not content:
                yield f"no {file} in the specs of {crate}"
            elif found[2] and not re.search(rf"(?<!\w){re.escape(found[2])}(?!\w)", content):
                yield f"no {found[2]} in {file} of {crate}"


class Functions:
    """What the crates have, and what of it the program reaches."""

    def __init__(self) -> None:
        self.program = call_graph.Program()
        self.reached, self.types = self.program.reached()

    def named(self, crate: str, name: str) -> list[call_graph.Function]:
        """The functions of a crate by this name: `Type::method`, or a function or method."""
        type_, _, last = name.rpartition("::")
        return [found for found in self.program.functions
                if found.crate == crate and found.name == last and type_ in ("", found.type)]

    def faults(self, rule: Rule, part: str) -> Iterator[str]:
        for crate, text in rule.groups(part):
            types = {name for source in self.program.sources.values() if source.crate == crate for name in source.types}
            if other := re.sub(r"`[^`]+`|[, ]", "", text):
                yield f"what is {other!r}?"
            for name in re.findall(r"`([^`]+)`", text):
                found = self.named(crate, name)
                if not found and name not in types:
                    yield f"no {name} in {crate}"
                elif part == "done" and name not in self.types and not self.reached & set(found):
                    yield f"the program never calls {name} of {crate}"


@functools.lru_cache(maxsize=None)
def rows() -> list[str]:
    """LAYER/NAME of each row."""
    return sorted(f"{row.parent.name}/{row.name}" for row in (ROOT / "tests" / "rows").glob("*/*") if row.is_dir())


@functools.lru_cache(maxsize=None)
def case_names() -> list[str]:
    """The names of all cases of images."""
    return list(cases.names())


@functools.lru_cache(maxsize=None)
def build_names() -> list[str]:
    """The names of all trees that are built."""
    return list(run_builds.names())


@functools.lru_cache(maxsize=None)
def tests_of(crate: str) -> str:
    """The sources in which the unit tests of a crate are."""
    name, tests = re.sub("^plan_", "", crate), "crates/plan_tests_*/src"
    own = ROOT.glob(f"crates/{crate}/src/**/*.rt")
    apart = [*ROOT.glob(f"{tests}/{name}.rt"), *ROOT.glob(f"{tests}/{name}/*.rt")]
    return "".join(path.read_text() for path in (*own, *apart))


def fitting(patterns: str, names: Iterable[str]) -> Iterator[tuple[str, set[str]]]:
    """Which rows each of the patterns fits."""
    for pattern in patterns.split():
        whole = pattern if "/" in pattern else f"*/{pattern}"
        yield pattern, {name for name in names if fnmatch.fnmatchcase(name, whole)}


@functools.lru_cache(maxsize=None)
def edits() -> set[tuple[str, str]]:
    """Crate and name of each must-fail edit."""
    paths = [path for name in ("must_fail", "edits") for path in ROOT.glob(f"tests/{name}/*/*.edit")]
    return {(path.parent.name, path.stem) for path in paths}


def faults_of(rule: Rule, functions: Functions) -> Iterator[str]:
    """What a rule names that isn't there."""
    yield from (f"what is {key!r}?" for key in rule.parts.keys() - KEYS)
    yield from definitions(rule)
    yield from functions.faults(rule, "done")
    yield from functions.faults(rule, "offered")
    yield from (f"no row {pattern}" for pattern, found in fitting(rule.parts.get("rows", ""), rows()) if not found)
    tried = fitting(rule.parts.get("cases", ""), case_names())
    yield from (f"no case {pattern}" for pattern, found in tried if not found)
    built = fitting(rule.parts.get("builds", ""), build_names())
    yield from (f"no build {pattern}" for pattern, found in built if not found)
    yield from (f"no suite {name}" for name in rule.parts.get("suites", "").split() if name not in suites.NAMES)
    for crate, text in rule.groups("tests"):
        content = tests_of(crate)
        yield from (f"no test {name} in {crate}" for name in re.findall(r"\w+", text) if f"fn {name}(" not in content)
    for crate, _ in rule.groups("examples"):
        if not (ROOT / "crates" / crate / "proofs" / "Rows.antt").is_file():
            yield f"no Rows in {crate}"
    yield from (f"no edit {name} of {crate}" for crate, name in edits_of(rule) if (crate, name) not in edits())
    if not rule.parts.keys() & {"rows", "cases", "builds", "suites", "examples"}:
        yield "no row, no case, no build, no suite and no example"


def edits_of(rule: Rule) -> set[tuple[str, str]]:
    return {(crate, name) for crate, text in rule.groups("edits") for name in re.findall(r"\w+", text)}


def page_faults() -> Iterator[str]:
    found, functions = {page: list(rules(trace_of(page).read_text())) for page in PAGES}, Functions()
    for page, on_it in found.items():
        yield from (f"{page}: {fault}" for fault in (*pairing_faults(page, on_it), *line_faults(page, on_it)))
        yield from (f"{page}: {rule.title}: {fault}" for rule in on_it for fault in faults_of(rule, functions))
        if not on_it:
            yield f"{page}: no rules"
    every = [rule for on_it in found.values() for rule in on_it]
    nothing: set[str] = set()
    shown = nothing.union(*(names for rule in every for _, names in fitting(rule.parts.get("rows", ""), rows())))
    tried = nothing.union(
        *(names for rule in every for _, names in fitting(rule.parts.get("cases", ""), case_names())))
    built = nothing.union(
        *(names for rule in every for _, names in fitting(rule.parts.get("builds", ""), build_names())))
    guarding = {edit for rule in every for edit in edits_of(rule)}
    yield from (f": the row {name} stands under no rule" for name in rows() if name not in shown)
    yield from (f": the case {name} stands under no rule" for name in case_names() if name not in tried)
    yield from (f": the build {name} stands under no rule" for name in build_names() if name not in built)
    yield from (f": the edit {name} of {crate} stands under no rule" for crate, name in sorted(edits() - guarding))


def main() -> None:
    argparse.ArgumentParser(description=__doc__, formatter_class=argparse.RawDescriptionHelpFormatter).parse_args()
    found = [f"docs/{fault}" for fault in page_faults()] + list(doc_names.faults())
    for fault in found:
        print(fault)
    print(f"documents: {len(found)} faults")
    sys.exit(1 if found else 0)


if __name__ == "__main__":
    main()
