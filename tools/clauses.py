#!/usr/bin/env python3
"""Compares the promises of public calls in two revisions.

    tools/clauses.py OLD [--new NEW] [CRATE..]

NEW is the files as they are, if no revision is given. Without crates, all are compared. For each public function, and
each method of a public trait, whose clauses differ, the clauses that went and that came are printed, and then those
definitions of specs/ whose text differs. A name that is only in OLD is gone: look where its promise is now. The last
line counts functions. Whether a changed clause is stronger is left to the reader.
"""
from __future__ import annotations

import argparse
import pathlib
import re
import subprocess
from typing import Dict, Iterator, List, Optional, Tuple

ROOT = pathlib.Path(__file__).resolve().parent.parent
FUNCTION = re.compile(r"^ *(pub )?(?:const )?(?:unsafe )?fn (\w+)")
BLOCK = re.compile(r"^(?:pub )?(?:unsafe )?(impl|trait)\b")
CLAUSE = re.compile(r"^ *(?:requires|ensures)\b")
DEFINITION = re.compile(r"^(?:abbrev pub|pub record|pub data|pub) +(\S+)", re.MULTILINE)
Promises = Dict[str, List[str]]


def files(revision: Optional[str], crate: str, part: str, ending: str) -> Iterator[Tuple[str, str]]:
    """Yields the paths and texts of the files of a crate, in a revision or as they are."""
    folder = f"crates/{crate}/{part}"
    if revision is None:
        for path in sorted((ROOT / folder).glob(f"**/*{ending}")):
            yield str(path.relative_to(ROOT)), path.read_text()
        return
    listed = subprocess.run(["git", "ls-tree", "-r", "--name-only", revision, folder], cwd=ROOT, check=True,
                            stdout=subprocess.PIPE).stdout.decode().split()
    for name in listed:
        if name.endswith(ending):
            shown = subprocess.run(["git", "show", f"{revision}:{name}"], cwd=ROOT, check=True, stdout=subprocess.PIPE)
            yield name, shown.stdout.decode()


def without_generics(text: str) -> str:
    """Returns a text without what is between angle brackets."""
    while True:
        shorter = re.sub(r"<[^<>]*>", "", text)
        if shorter == text:
            return " ".join(text.split())
        text = shorter


def clauses_from(lines: List[str], at: int) -> List[str]:
    """Returns the clauses of the function that begins at a line: up to its body, or to the `;` that ends it."""
    found: List[str] = []
    for line in lines[at:]:
        if CLAUSE.match(line):
            found.append(line.strip())
        elif found and line.strip() not in ("{", "}", ";"):
            found[-1] += " " + line.strip()
        if line.strip() == "{" or line.endswith(("{}", ";")) or (not found and line.endswith("{")):
            break
    return sorted(clause.rstrip(";") for clause in found)


def promises(revision: Optional[str], crate: str) -> Promises:
    """Returns the clauses of the public functions of a crate, by the types and names of these."""
    found: Promises = {}
    for path, text in files(revision, crate, "src", ".rt"):
        if "/tests" in path:
            continue
        block, is_trait, lines = "", False, text.splitlines()
        for at, line in enumerate(lines):
            begun = BLOCK.match(line)
            if begun:
                whole = " ".join(lines[at:at + 9]).partition(begun[1])[2].partition(" {")[0]
                block, is_trait = without_generics(whole.partition(" where ")[0]), line.startswith("pub trait")
            elif line == "}":
                block, is_trait = "", False
            named = FUNCTION.match(line)
            if named and (named[1] or is_trait):
                found[f"{crate} {block} {named[2]}"] = clauses_from(lines, at)
    return found


def definitions(revision: Optional[str], crate: str) -> Dict[str, str]:
    """Returns the definitions of a crate, by their files and names."""
    found: Dict[str, str] = {}
    for path, text in files(revision, crate, "specs", ".antt"):
        for block in text.split("\n\n"):
            named = DEFINITION.search(block)
            if named:
                code = [line for line in block.splitlines() if not line.startswith("--")]
                found[f"{path} {named[1]}"] = "\n".join(code)
    return found


def compare(old: Promises, new: Promises) -> None:
    """Prints the clauses that differ, and how many functions have the same."""
    changed = [name for name in old if name in new and old[name] != new[name]]
    for name in changed:
        print(name)
        for sign, these, others in (("-", old[name], new[name]), ("+", new[name], old[name])):
            for clause in these:
                if clause not in others:
                    print(f"  {sign} {clause}")
    gone, come = [name for name in old if name not in new], [name for name in new if name not in old]
    for what, names in (("gone", gone), ("new", come)):
        for name in names:
            print(f"{what}: {name}")
    same = len(old) - len(changed) - len(gone)
    print(f"{same} functions have the same clauses, {len(changed)} others, {len(gone)} are gone, {len(come)} are new")


def main() -> None:
    parser = argparse.ArgumentParser(description=__doc__, formatter_class=argparse.RawDescriptionHelpFormatter)
    parser.add_argument("old", help="a revision")
    parser.add_argument("--new", help="a later revision")
    parser.add_argument("crates", nargs="*")
    asked = parser.parse_args()
    crates = asked.crates or sorted(path.name for path in (ROOT / "crates").iterdir() if path.is_dir())
    old: Promises = {}
    new: Promises = {}
    for crate in crates:
        old.update(promises(asked.old, crate))
        new.update(promises(asked.new, crate))
        before, now = definitions(asked.old, crate), definitions(asked.new, crate)
        for name in before:
            if before[name] != now.get(name):
                print(f"definition {'changed' if name in now else 'gone'}: {name}")
    compare(old, new)


if __name__ == "__main__":
    main()
