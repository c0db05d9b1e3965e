"""Manifests that ask for much with few bytes; what the tests and benches share of them."""
from __future__ import annotations

from collections.abc import Callable

NAMES = "command depfile deps description dyndep generator pool restat rspfile msvc_deps_prefix rspfile_content".split()


def fan_out() -> dict[str, str]:
    """21 files, each of which includes the next one twice: two million reads."""
    names = ["build.ninja", *(f"f{number}" for number in range(1, 22))]
    files = {name: f"include {after}\n" * 2 for name, after in zip(names, names[1:])}
    return {**files, names[-1]: ""}


def again() -> dict[str, str]:
    """A file of 200,000 bindings that is included twenty times."""
    return {"build.ninja": "include big\n" * 20, "big": "".join(f"v{number} = {number}\n" for number in range(200_000))}


def small() -> dict[str, str]:
    """Four million small statements: 16 MiB of one binding."""
    return {"build.ninja": "x=1\n" * (16_777_216 // 4)}


def empty_variables() -> dict[str, str]:
    """Eleven variables of a rule, each of which names the next one eight times, and all are empty."""
    lines = "".join(f"  {name} = {f'${{{after}}}' * 8}\n" for name, after in zip(NAMES, NAMES[1:]))
    return {"build.ninja": f"rule r\n{lines}  {NAMES[-1]} =\nbuild a: r\n"}


def inputs_again() -> dict[str, str]:
    """A command that names 50,000 inputs 400,000 times."""
    return {"build.ninja": "rule r\n  command = " + "$in" * 400_000 + "\nbuild a: r" + " b" * 50_000 + "\n"}


def shared_variable() -> dict[str, str]:
    """A variable of a million bytes in the commands of 120 edges."""
    value = "".join(f" -I{number}" for number in range(123_000))
    edges = "".join(f"build o{number}: r i{number}\n" for number in range(120))
    return {"build.ninja": f"v ={value}\nrule r\n  command = cc -o $out $v $in\n{edges}"}


SHAPES: list[Callable[[], dict[str, str]]] = [fan_out, again, small, empty_variables, inputs_again,
                                             shared_variable]
