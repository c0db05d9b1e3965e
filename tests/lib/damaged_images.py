"""Images that are damaged: cut at each length, and with each bit turned."""
from __future__ import annotations

from collections.abc import Iterator

from lib import chain, plain_reader, plain_verifier, programs
from lib.image import code_of, spelled
from lib.image_cases import Case, cases

TURNED = ("verifier/end_alone", "verifier/pool_of_one", "verifier/slot_loads", "verifier/loads_of_own_and_waited_for")


def answer(data: bytes) -> str:
    """Returns what `verify` has to print of some bytes, by the plain reader and verifier."""
    found = plain_reader.read(data)
    return found if isinstance(found, str) else plain_verifier.verdict(found)


def made(name: str, data: bytes) -> Case:
    """Returns a case of an image, with the answer of the plain reader and verifier."""
    return Case(name, data, answer(data))


def changed(case: Case) -> Iterator[Case]:
    """Yields an image cut at each length, and with each bit turned."""
    for length in range(len(case.data)):
        yield made(f"{case.name} cut at {length}", case.data[:length])
    for at in range(8 * len(case.data)):
        data = bytearray(case.data)
        data[at // 8] ^= 1 << at % 8
        yield made(f"{case.name} with bit {at} turned", bytes(data))


def named(names: tuple[str, ...]) -> list[Case]:
    """Returns the cases of tests/images of these names, in both versions."""
    return [case for case in cases() if case.name.rpartition(" (")[0] in names]


def chains(data: bytes) -> Iterator[Case]:
    """Yields both versions of the image of two edges in a chain, which the program compiled to these bytes."""
    found = plain_reader.read(data)
    assert not isinstance(found, str), found
    edges = [edge._replace(code=code_of(found, edge)) for edge in found.edges]
    yield made("chain (version 1)", spelled(found._replace(edges=edges, bodies=None)))
    yield made("chain (version 2)", data)


def compiled_chain(program: str) -> bytes:
    """Returns the image of two edges in a chain, as the program compiles it."""
    return programs.compiled(program, chain.MANIFEST)
