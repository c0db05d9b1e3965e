"""Changes to a tree that is built, each of which leads to some commands, for both builders the same.

A change tells whether there was something to change.
"""
from __future__ import annotations

import os
import pathlib
import re
from collections.abc import Callable, Iterator
from typing import NamedTuple

EDGE = re.compile(r"^build (.*?): (\S+)(.*)$", re.MULTILINE)
WORD = re.compile(r"(?:\$.|[^ $])+")
INCLUDE = re.compile(r"^[ \t]*#[ \t]*include[ \t]*[<\"]([^>\"\n]+)[>\"]", re.MULTILINE)
SOURCES = (".c", ".cc", ".cpp", ".cxx", ".C")
MANIFESTS = ("CMakeLists.txt", "meson.build")
WEAK = "__attribute__((weak)) int "  # a variable that may be there more than once


class Place(NamedTuple):
    """The folder of a tree, with its sources, the folder of its project among them, and its build folder."""

    top: pathlib.Path
    source: pathlib.Path
    project: pathlib.Path
    build: pathlib.Path


class Edge(NamedTuple):
    """An edge of a manifest: its rule, its outputs, and all its inputs but those that only come before."""

    rule: str
    outputs: list[str]
    inputs: list[str]


# ---- what is changed

def words(text: str) -> list[str]:
    return [re.sub(r"\$(.)", r"\1", word) for word in WORD.findall(text)]


def edges(place: Place) -> Iterator[Edge]:
    for path in sorted(place.build.rglob("*.ninja")):
        for outputs, rule, inputs in EDGE.findall(path.read_text(errors="replace")):
            named = words(inputs.split(" || ")[0].split(" |@ ")[0])
            yield Edge(rule, [word for word in words(outputs) if word != "|"], [word for word in named if word != "|"])


def is_below(path: pathlib.Path, folder: pathlib.Path) -> bool:
    return folder in (path, *path.parents)


def source_file(place: Place, name: str) -> pathlib.Path | None:
    """Returns the file of an input, if it is a source."""
    path = pathlib.Path(os.path.normpath(place.build / name))
    inside = is_below(path, place.source) and not is_below(path, place.build)
    return path if inside and path.is_file() else None


def compiled(place: Place) -> list[pathlib.Path]:
    """Returns the sources that are compiled, by path."""
    found = set()
    for edge in edges(place):
        if edge.outputs[0].endswith(".o") and edge.inputs and edge.inputs[0].endswith(SOURCES):
            found.add(source_file(place, edge.inputs[0]))
    return sorted(path for path in found if path is not None)


def source(place: Place) -> pathlib.Path | None:
    """Returns a source that is compiled, or else any."""
    found = compiled(place)
    return found[0] if found else first(place.source, *SOURCES)


def header(place: Place) -> pathlib.Path | None:
    """Returns a header that a compiled source names, or else any."""
    there: dict[str, list[pathlib.Path]] = {}
    for path in sorted(place.source.rglob("*")):
        if path.is_file() and not is_below(path, place.build):
            there.setdefault(path.name, []).append(path)
    for path in compiled(place):
        for name in INCLUDE.findall(path.read_text(errors="replace")):
            for found in there.get(pathlib.PurePath(name).name, []):
                if str(found).endswith("/" + name.lstrip("./")):
                    return found
    return first(place.source, ".h", ".hpp")


def input_of_a_command(place: Place) -> pathlib.Path | None:
    """Returns a source that one of the project's own commands reads."""
    own = (edge for edge in edges(place) if edge.rule.startswith("CUSTOM_COMMAND"))
    found = (source_file(place, name) for edge in own for name in edge.inputs)
    return min((path for path in found if path is not None and path.name not in MANIFESTS), default=None)


def first(folder: pathlib.Path, *suffixes: str) -> pathlib.Path | None:
    """Returns the first file below a folder with one of these suffixes, by path."""
    found = (path for path in folder.rglob("*") if path.suffix in suffixes and path.is_file() and not path.is_symlink())
    return min((path for path in found if "CMakeFiles/3." not in str(path)), default=None)


# ---- how

def touched(path: pathlib.Path | None) -> bool:
    if path is not None:
        os.utime(path)
    return path is not None


def deleted(path: pathlib.Path | None) -> bool:
    if path is not None:
        path.unlink()
    return path is not None


def appended(path: pathlib.Path | None, text: str) -> bool:
    if path is not None:
        with open(path, "a", encoding="utf-8") as file:
            file.write(text)
    return path is not None


def nothing(_place: Place) -> bool:
    return True


def delete_library(place: Place) -> bool:
    return deleted(first(place.build, ".a") or first(place.build, ".so"))


def change_flag(place: Place) -> bool:
    """Changes the flags of one edge in the manifest, whose stamp stays."""
    for path in sorted(place.build.rglob("*.ninja")):
        found, text = path.stat(), path.read_bytes()
        changed = re.sub(rb"(?m)^( +(?:FLAGS|ARGS) = )", rb"\1-DCHANGED ", text, count=1)
        if changed != text:
            path.write_bytes(changed)
            os.utime(path, ns=(found.st_atime_ns, found.st_mtime_ns))
            return True
    return False


def touch_manifest(place: Place) -> bool:
    found = (place.project / name for name in MANIFESTS)
    return touched(next((path for path in found if path.exists()), None))


def change_numbers(place: Place, text: str) -> bool:
    """Changes the numbers from whose sum one of this repository's own projects makes a header."""
    path = place.source / "numbers.txt"
    return appended(path if path.exists() else None, text)


CHANGES: list[tuple[str, Callable[[Place], bool]]] = [
    ("the first build", nothing),
    ("nothing to do", nothing),
    ("a touched header", lambda place: touched(header(place))),
    ("a changed header", lambda place: appended(header(place), "\n")),
    ("a touched source", lambda place: touched(source(place))),
    ("a changed source", lambda place: appended(source(place), f"{WEAK}plan_ninja_changed_it;\n")),
    ("a deleted object", lambda place: deleted(first(place.build, ".o"))),
    ("a deleted library", delete_library),
    ("a touched input of a command", lambda place: touched(input_of_a_command(place))),
    ("numbers of the same sum", lambda place: change_numbers(place, "0\n")),
    ("numbers of another sum", lambda place: change_numbers(place, "4\n")),
    ("another flag", change_flag),
    ("a touched CMakeLists.txt or meson.build", touch_manifest),
    ("nothing to do at the end", nothing),
]
