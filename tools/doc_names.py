"""Checks names, numbers and widths in the documents.

The numbers and names of docs/using/refusals.md are those of the code, both ways. Words between backticks in docs/
that look like names of code (`foo_bar`, `FooBar`) occur in crates/, tests/, bench/ or the Makefile. Lines of documents,
except the rows of tables, and lines of the scripts have at most 120 columns. docs/developing/architecture.md describes
the crates of crates.txt and no others, each with the crates that it uses. The trusted base has the crates of the kit
that the programs use, those that only the tests use, and no others.
"""
from __future__ import annotations

import pathlib
import re
from collections.abc import Iterable, Iterator

import call_graph
import over_sources

ROOT = pathlib.Path(__file__).resolve().parent.parent
WIDTH = 120
CODE = ("crates/*/src/**/*.rt", "crates/*/specs/**/*.antt", "crates/*/proofs/**/*.antt",
        "tests/**/*.py", "tests/must_fail/**/*.edit", "tests/edits/**/*.edit", "tests/lib/*.c", "tools/*.py",
        "bench/*.py", "Makefile", "crates.txt")
NARROW = ("*.md", "docs/**/*.md", "docs/**/*.trace", "tests/**/*.md", "tests/*.py", "tests/lib/*.py",
          "tests/suites/*.py", "tests/real/*.py", "tools/*.py", "tools/*.md", "bench/*.py", "bench/*.md", "crates/*.md")
FOLDERS = ("crates", "tests", "tools", "bench", "examples")
PROGRAMS = ("plan_ninja", "plan_build")
DESCRIBED = re.compile(r"\*\*(plan_\w+)\*\*(?: \(([^)]*)\))?")
TRUSTED = re.compile(r"kit's crates\W+that the program uses: ([\w ,]+)\W+[Tt]he tests (?:also )?use ([\w ,]+)")
LOOKS_LIKE_A_NAME = re.compile(r"[a-z]\w*_\w*[a-z0-9]|[A-Z][a-z0-9]+(?:[A-Z][a-z0-9]*)+")

# Lines that may be wider, by file: tables that can't be broken, and the texts of other tools that scripts write.
WIDE = {
    "tests/real/buildable_cmake.py": "CMake's own lines, and sources",
    "tests/real/buildable_meson.py": "Meson's own lines, and sources",
    "tests/real/cmake_trees.py": "CMake's own lines",
    "tests/real/meson_trees.py": "Meson's own lines",
    "tests/real/odd_names.py": "a list of names",
    "tests/real/upstream.py": "tables of packages and options",
}

# Names that are of no file here, by document: of the toolchain, of other tools, or of forms that were given up.
FOREIGN: dict[str, set[str]] = {
    "rules/manifest.md": {"ninja_required_version"},  # ninja's own variable
    "using/refusals.md": {"ninja_required_version"},
    "developing/decisions.md": {"ninja_required_version", "RandomState"},  # the latter is of the kit
    "developing/proofs/patterns.md": {"with_x"},  # a form's placeholder
    "developing/proofs/refused-forms.md": {"at_exit"},
}


def printed_names() -> dict[int, str]:
    """The names by which plan_printing prints numbers; any other number means that memory ran out."""
    sources = "".join(path.read_text() for path in call_graph.source_files("plan_printing"))
    return {int(number): name for number, name in re.findall(r'\b(\d+) => "([A-Z]\w*)"', sources)}


def answered_numbers() -> dict[int, str]:
    """The variant that each number stands for in a function `number`, and the numbers of faults of the commands."""
    numbers: dict[int, str] = {}
    own = {path for crate in ("plan_printing", "plan_commands") for path in call_graph.source_files(crate)}
    for path in call_graph.source_files():
        text = path.read_text()
        for body in re.findall(r"fn number\(.*?\n    }\n", text, flags=re.DOTALL):
            found = re.findall(r"\w+::(\w+)(?:\([^)]*\))? => (\d+)", body)
            numbers.update({int(number): name for name, number in found})
        if path in own:
            numbers.update({int(number): "" for number in re.findall(r"\bnumber: (\d+)", text)})
            numbers.update({int(number): "" for number in re.findall(r"\bconst \w+_SOURCE: u8 = (\d+)", text)})
    return numbers


def fault_faults(text: str) -> Iterator[str]:
    """Where docs/using/refusals.md and the code differ."""
    printed, _, kept = text.partition("\n## Returned by functions")
    listed = {int(number): name for number, name in re.findall(r"^### (\d+) (\w+)", printed, flags=re.MULTILINE)}
    unprinted = {int(number): name for number, name in re.findall(r"^### (\d+) (\w+)", kept, flags=re.MULTILINE)}
    names, numbers = printed_names(), answered_numbers()
    for number in sorted(numbers.keys() | names.keys() | listed.keys() | unprinted.keys()):
        name = listed.get(number, unprinted.get(number, "missing here"))
        wanted = numbers.get(number) if number in unprinted else names.get(number, "Memory")
        if number not in numbers:
            yield f"{number} {name}: no function answers it"
        elif name != wanted:
            yield f"{number} {name}: the code says {wanted}"
        elif numbers[number] not in ("", name) and not numbers[number].endswith(name):
            yield f"{number} {name}: the variant is {numbers[number]}"


def known_words() -> set[str]:
    """All words of the code, and the names of its files and folders."""
    words = {part for folder in FOLDERS for path in (ROOT / folder).rglob("*") for part in (path.name, path.stem)}
    for pattern in CODE:
        for path in set(ROOT.glob(pattern)) - {pathlib.Path(__file__).resolve()}:
            words |= set(re.findall(r"\w+", path.read_text(errors="replace")))
    return words


def name_faults() -> Iterator[str]:
    words = known_words()
    docs = ROOT / "docs"
    for path in sorted(docs.rglob("*.md")):
        page = str(path.relative_to(docs))
        prose = re.sub(r"^```.*?^```", "", path.read_text(), flags=re.DOTALL | re.MULTILINE)
        marked = {word for code in re.findall(r"`([^`]+)`", prose) for word in re.findall(r"\w+", code)}
        named = {word for word in marked if LOOKS_LIKE_A_NAME.fullmatch(word)}
        foreign = FOREIGN.get(page, set())
        unneeded = foreign - (named - words)
        yield from (f"docs/{page}: no {word} in the code" for word in sorted(named - words - foreign))
        yield from (f"doc_names.py: {page} needs no exception for {word}" for word in sorted(unneeded))


def file_faults() -> Iterator[str]:
    """Files of the crates that a page names and that are gone: sources by `name.rt`, others as specs/Name."""
    files = {path.name for path in (ROOT / "crates").rglob("*.rt")}
    for folder in ("specs", "proofs"):
        files |= {f"{folder}/{path.stem}" for path in ROOT.glob(f"crates/*/{folder}/*.antt")}
    for path in [*sorted((ROOT / "docs").rglob("*.md")), ROOT / "README.md", ROOT / "CONTRIBUTING.md"]:
        named = re.findall(r"\b[a-z]\w*\.rt\b(?!\.)|\b(?:specs|proofs)/[A-Z][a-z]\w*", path.read_text())
        yield from (f"{path.relative_to(ROOT)}: no file {name}" for name in sorted(set(named) - files))


def described_crates() -> dict[str, set[str]]:
    """The crates that architecture.md describes, each with those that it uses, which are in brackets."""
    text = (ROOT / "docs/developing/architecture.md").read_text()
    section = text.partition("\n## The crates\n")[2].partition("\n## ")[0]
    found = DESCRIBED.findall(" ".join(section.split()))
    return {name: set(re.findall(r"\w+", used)) - {"only", "std"} for name, used in found}


def trusted_crates(page: str) -> tuple[set[str], set[str]]:
    """The crates of the kit that the trusted base of a page names: of the programs, and of the tests."""
    found = TRUSTED.search(" ".join((ROOT / "docs" / page).read_text().split()))
    programs, tests = found.groups() if found else ("", "")
    return set(re.findall(r"\w+", programs)) - {"and"}, set(re.findall(r"\w+", tests)) - {"and", "too"}


def used_of_the_kit(crates: Iterable[str]) -> set[str]:
    """The crates of the kit that these crates, or those below them, use."""
    listed = over_sources.crates()
    own = {name for crate in crates for name in (crate, *over_sources.below(crate, listed, []))}
    return {name for crate in own for name in listed[crate]} - set(listed)


def crate_faults() -> Iterator[str]:
    """Yields where architecture.md or a trusted base says other than crates.txt."""
    described, listed = described_crates(), over_sources.crates()
    for name, used in listed.items():
        if described.get(name) != set(used):
            yield f"docs/developing/architecture.md: {name} uses {' '.join(used) or 'no crate'}, as crates.txt says"
    for name in sorted(described.keys() - set(listed)):
        yield f"docs/developing/architecture.md: {name} is not in crates.txt"
    programs, every = used_of_the_kit(PROGRAMS), used_of_the_kit(listed)
    for page in ("GUARANTEE.md", "developing/promises.md"):
        for who, used, named in zip(("program", "tests"), (programs, every - programs), trusted_crates(page)):
            yield from (f"docs/{page}: the trusted base leaves out {name}, {who}" for name in sorted(used - named))
            yield from (f"docs/{page}: the trusted base has {name}, {who}: not used" for name in sorted(named - used))


def width_faults() -> Iterator[str]:
    for path in (path for pattern in NARROW for path in sorted(ROOT.glob(pattern))):
        name = str(path.relative_to(ROOT))
        table = "|" if path.suffix == ".md" else "\0"  # a row of a table can't be broken
        wide = [at for at, line in enumerate(path.read_text().splitlines(), 1)
                if len(line) > WIDTH and not line.startswith(table)]
        if name in WIDE and not wide:
            yield f"doc_names.py: {name} needs no exception, its lines are narrow"
        elif name not in WIDE:
            yield from (f"{name}:{at}: more than {WIDTH} columns" for at in wide)


def faults() -> Iterator[str]:
    text = (ROOT / "docs" / "using" / "refusals.md").read_text()
    yield from (f"docs/using/refusals.md: {fault}" for fault in fault_faults(text))
    yield from name_faults()
    yield from file_faults()
    yield from crate_faults()
    yield from width_faults()
