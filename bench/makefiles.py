"""Writes a project as Makefiles with the same commands: a file that a manifest includes is included.

A Makefile has one scope, so a variable of a file below the first has the file's name in front. Pools have no
counterpart, and are left out.
"""
from __future__ import annotations

import re
from collections.abc import Iterable, Mapping

from projects import Edge, File, Project, Variables


def own(name: str, variable: str) -> str:
    """A variable of a file, by its name in the Makefiles."""
    return variable if name == "build" else f"{name}_{variable}"


def made(text: str, known: Mapping[str, str]) -> str:
    """A text with `$name` as make has it: what is known of the edge and its file, or a variable of the first file."""
    return re.sub(r"\$(\w+)", lambda found: known.get(found[1], f"$({found[1]})"), text)


def paths(listed: Iterable[str]) -> str:
    return " ".join(made(path, {}) for path in listed)


def edge_text(edge: Edge, rules: Mapping[str, Variables], known: Mapping[str, str]) -> str:
    outputs = [*edge.outputs, *edge.implicit_outputs]
    colon = " &:" if len(outputs) > 1 else ":"
    order_only = f" | {paths(edge.order_only)}" if edge.order_only else ""
    head = f"{paths(outputs)}{colon} {paths([*edge.inputs, *edge.implicit])}{order_only}\n"
    if edge.rule == "phony":
        return f".PHONY: {paths(outputs)}\n{head}"
    known = {**known, **edge.variables, "in": paths(edge.inputs), "out": paths(edge.outputs)}
    return f"{head}\t{made(rules[edge.rule]['command'], known)}\n"


def ends(project: Project) -> tuple[list[str], list[str]]:
    """The paths that no edge makes, and those that no edge takes."""
    edges = [edge for file in project.files.values() for edge in file.edges]
    outputs = {path: None for edge in edges for path in [*edge.outputs, *edge.implicit_outputs]}
    inputs = {path: None for edge in edges for path in [*edge.inputs, *edge.implicit, *edge.order_only]}
    return [path for path in inputs if path not in outputs], [path for path in outputs if path not in inputs]


def file_text(name: str, file: File, rules: Mapping[str, Variables]) -> str:
    known = {variable: f"$({own(name, variable)})" for variable in file.variables}
    variables = [f"{own(name, variable)} = {value}\n" for variable, value in file.variables.items()]
    taken_in = [f"include {name}.mk\n" for name in file.taken_in]
    return "".join([*variables, *(edge_text(edge, rules, known) for edge in file.edges), *taken_in])


def written(project: Project) -> dict[str, str]:
    """The texts of a project's Makefiles by their names.

    Sources are rules without a recipe, so that they need not exist.
    """
    texts = {f"{name}.mk": file_text(name, file, project.rules) for name, file in project.files.items()}
    sources, roots = ends(project)
    ends_text = [f"{paths([path])}:\n" for path in sources] + [f"all: {paths([path])}\n" for path in roots]
    return {**texts, "Makefile": "".join([".PHONY: all\nall:\ninclude build.mk\n", *ends_text])}
