"""Which functions of the crates' src/ the program reaches from its `main`: a plain call graph, by names.

It reads text, no types. A call `name(..)` means the function of that name in the same file, else in the crate that
the file takes the name from; `Type::name` means that type's method. `.name(..)` means the method of the receiver's type
if the receiver is `self`, a field of it, a parameter, or a variable that is set to `Type::new(..)`, and else every
method of that name. A function that is handed on by its name counts as called where the file has it. A type that a
function names is reached, and with it the methods of its impls of traits, which generic code calls. So more counts as
reached than is called; what is not reached here is called by nothing.
"""
from __future__ import annotations

import pathlib
import re
from collections.abc import Iterable, Iterator
from typing import NamedTuple

CRATES = pathlib.Path(__file__).resolve().parent.parent / "crates"
IMPL = re.compile(r"^(?:unsafe )?impl(?:<[^{]*?>)? (?:(?P<trait>[\w:]+)(?:<[^{]*?>)?\s+for )?(?P<type>[\w:]+)")
FN = re.compile(r"^(?P<indent> *)(?:pub(?:\([^)]*\))? )?(?:const |unsafe )*fn (?P<name>\w+)")
TYPE = re.compile(r"^(?:pub(?:\([^)]*\))? )?(?:struct|enum|trait) (?P<name>\w+)", re.MULTILINE)
USE = re.compile(r"^(?:pub )?use (\w+)(::[^;]*);", re.MULTILINE)
CALL = re.compile(r"(?:(?<![.\w])|(?<=\.\.))(\w+)(?:::<[^()]*>)?\(")  # a dot in front makes a method, two make a range
METHOD = re.compile(r"\.(\w+)(?:::<[^()]*>)?\(")
RECEIVER = re.compile(r"(?<![\w.)\]?])(?P<own>self\.)?(?P<name>[a-z_]\w*)\s*$")
STRUCT = re.compile(r"^(?:pub(?:\([^)]*\))? )?struct (\w+)[^{;]*\{([^}]*)\}", re.MULTILINE)
FIELD = re.compile(r"(\w+): ([^\n]*),\n")
HEAD = re.compile(r"(?:&(?:'\w+ )?(?:mut )?)?(\[|[ui](?:\d+|size)\b|bool\b|Vec\b|[A-Z]\w*)")
CREATED = re.compile(r"let (?:mut )?\w+ = (\w+)(?:::(?:new|with_capacity|from_slice|of)\(| \{)")
PLAIN = re.compile(r"\[|[a-z]|Vec$")
NOISE = re.compile(r"//[^\n]*|'(?:\\.|[^'\\])'|\"(?:\\[\s\S]|[^\"\\])*\"")


def source_files(crate: str = "*") -> list[pathlib.Path]:
    """The source files of a crate, or of all, without their tests."""
    paths = sorted(CRATES.glob(f"{crate}/src/**/*.rt"))
    return [path for path in paths if not {"tests", "tests.rt"} & set(path.relative_to(CRATES).parts)]


class Function(NamedTuple):
    """A function; where it is a method, of which type, and of which trait that the type meets."""

    crate: str
    file: pathlib.Path
    name: str
    type: str = ""
    trait: str = ""
    body: str = ""


class Source:
    """A file of a crate: its functions and types, and from which crates it takes names."""

    def __init__(self, path: pathlib.Path) -> None:
        self.path, self.crate = path, path.relative_to(CRATES).parts[0]
        self.text = NOISE.sub("", path.read_text())
        self.functions = list(functions(self.crate, path, self.text.splitlines()))
        self.types = set(TYPE.findall(self.text))
        self.fields = {(name, field): type_ for name, text in STRUCT.findall(self.text)
                       for field, type_ in FIELD.findall(text)}
        self.taken = {name: self.crate if crate in ("crate", "super", "self") else crate
                      for crate, names in USE.findall(self.text) for name in re.findall(r"\w+", names)}


def block(lines: list[str], first: int, indent: str) -> str:
    """The lines of an item, up to its closing brace, or to the semicolon of one without a body."""
    for last in range(first, len(lines)):
        if lines[last].startswith(f"{indent}}}") or last == first and lines[last].endswith(";"):
            return "\n".join(lines[first:last + 1])
    return "\n".join(lines[first:])


def functions(crate: str, path: pathlib.Path, lines: list[str]) -> Iterator[Function]:
    """The functions of a file, in the form that rt fmt gives it."""
    type_, trait = "", ""
    for at, line in enumerate(lines):
        more = lines[at + 1] if at + 1 < len(lines) else ""
        if found := IMPL.match(line + more * more.startswith("    for ")):  # a long head is on two lines
            type_, trait = found["type"].split("::")[-1], (found["trait"] or "").split("::")[-1]
        elif found := re.match(r"^(?:pub )?trait (\w+)", line):
            type_ = trait = found[1]
        elif found := FN.match(line):
            owner = (type_, trait) if found["indent"] else ("", "")
            yield Function(crate, path, found["name"], *owner, block(lines, at, found["indent"]))


class Program:
    """The functions and types of all crates."""

    def __init__(self) -> None:
        self.sources = {path: Source(path) for path in source_files()}
        self.functions = [function for source in self.sources.values() for function in source.functions]
        self.types = {name for source in self.sources.values() for name in source.types}
        self.traits = {function.trait for function in self.functions}
        self.methods: dict[str, list[Function]] = {}
        self.alone: dict[str, list[Function]] = {}  # functions that are no methods
        for function in self.functions:
            (self.methods if function.type else self.alone).setdefault(function.name, []).append(function)

    def type_of(self, caller: Function, receiver: re.Match[str]) -> str:
        """The type of a receiver, if it is `self`, a field of it, a parameter, or created by `Type::new`.

        A parameter whose name is bound again has none.
        """
        name = receiver["name"]
        if name == "self" and not receiver["own"]:
            return caller.type
        if receiver["own"]:
            found = HEAD.match(self.sources[caller.file].fields.get((caller.type, name), ""))
        else:
            signature, _, code = caller.body.partition("{\n")
            bound = re.search(rf"\b(?:let|for|mut|ref) {name}\b|[(|,{{] ?{name}\b[^;\n(]*(?:=>|\||\)? = )", code)
            place = re.search(rf"\b{name}: ", signature)
            if place and not bound:
                found = HEAD.match(signature, place.end())
            else:
                made = re.findall(rf"\blet (?:mut )?{name}\b[^\n]*", code)
                found = CREATED.match(made[0]) if len(made) == 1 and not place else None
        return found[1] if found else ""

    def called(self, caller: Function, method: re.Match[str], bounds: bool) -> list[Function]:
        """The methods that `.name(..)` may call; if not `bounds`, none if the type is a letter, a parameter."""
        named = self.methods.get(method[1], [])
        receiver = RECEIVER.search(caller.body, max(0, method.start() - 80), method.start())
        type_ = self.type_of(caller, receiver) if receiver else ""
        if len(type_) == 1 and type_ != "[" and not bounds:
            return []
        own = [function for function in named if function.type == type_]
        is_known = PLAIN.match(type_) or own and type_ not in self.traits
        return own if is_known else named

    def free(self, source: Source, name: str) -> Iterator[Function]:
        """What a name without a dot in front calls."""
        alone = self.alone.get(name, [])
        here = [function for function in alone if function.file == source.path]
        crate = source.taken.get(name, source.crate)
        yield from here or [function for function in alone if function.crate == crate]

    def calls(self, caller: Function, bounds: bool = True) -> Iterator[Function]:
        """What a function calls; if not `bounds`, without the methods that it calls of a type parameter."""
        source, body = self.sources[caller.file], caller.body
        for name in CALL.findall(body):
            yield from self.free(source, name)
        for name in re.findall(r"(?<=[(,\s])(\w+)(?=[,)])", body):
            if not re.search(rf"\b{name}:|\blet (?:mut )?{name}\b|\|{name}\|", body):
                yield from self.free(source, name)
        for method in METHOD.finditer(body):
            yield from self.called(caller, method, bounds)
        for type_, name in re.findall(r"\b([A-Z]\w*)(?:::<[^()]*>)?::(\w+)", body):
            owner = caller.type if type_ == "Self" else type_
            named = self.methods.get(name, [])
            yield from (function for function in named if function.type == owner)
            if owner not in self.types and bounds:  # a generic type
                yield from (function for function in named if function.trait)

    def named_types(self, function: Function) -> set[str]:
        return set(re.findall(r"\b[A-Z]\w*", function.body)) & self.types | ({function.type} - {""})

    def reached(self) -> tuple[set[Function], set[str]]:
        """The functions that `main` reaches, and the types that these name."""
        waiting = [function for function in self.functions if function.name == "main"]
        done: set[Function] = set()
        types: set[str] = set()
        while waiting:
            function = waiting.pop()
            if function in done:
                continue
            done.add(function)
            waiting.extend(self.calls(function))
            fresh = self.named_types(function) - types
            types |= fresh
            waiting.extend(self.of_traits(fresh))
        return done, types

    def of_traits(self, types: Iterable[str]) -> list[Function]:
        """The methods by which these types meet traits."""
        wanted = set(types)
        return [function for function in self.functions if function.trait and function.type in wanted]
