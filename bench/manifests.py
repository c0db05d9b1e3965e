"""Writes a project as manifests: its rules in the one file, or in an included one; the other files by `subninja`."""
from __future__ import annotations

from collections.abc import Sequence

from projects import Edge, File, Project, Variables


def bindings(variables: Variables, indent: str = "") -> str:
    return "".join(f"{indent}{name} = {value}\n" for name, value in variables.items())


def listed(sign: str, paths: Sequence[str]) -> str:
    return f" {sign} {' '.join(paths)}" if paths else ""


def edge_text(edge: Edge) -> str:
    outputs = " ".join(edge.outputs) + listed("|", edge.implicit_outputs)
    inputs = " ".join(edge.inputs) + listed("|", edge.implicit) + listed("||", edge.order_only)
    return f"build {outputs}: {edge.rule} {inputs}\n{bindings(edge.variables, '  ')}"


def rules_text(project: Project) -> str:
    pools = [f"pool {name}\n  depth = {depth}\n\n" for name, depth in project.pools.items()]
    rules = [f"rule {name}\n{bindings(variables, '  ')}\n" for name, variables in project.rules.items()]
    return "".join([*pools, *rules])


def file_text(file: File, rules: str = "") -> str:
    taken_in = [f"subninja {name}.ninja\n" for name in file.taken_in]
    return "".join([bindings(file.variables), rules, *map(edge_text, file.edges), *taken_in])


def written(project: Project) -> dict[str, str]:
    """The texts of a project's manifests by their names."""
    texts = {f"{name}.ninja": file_text(file) for name, file in project.files.items()}
    rules, first = rules_text(project), project.files["build"]
    if first.taken_in:
        return {**texts, "rules.ninja": rules, "build.ninja": file_text(first, "include rules.ninja\n")}
    return {"build.ninja": file_text(first, rules)}
