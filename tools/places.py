#!/usr/bin/env python3
"""Counts the places that docs/DESIGN-PASS.md speaks of, in the sources and proofs below crates/ (of this checkout, or of FOLDER).

usage: python3 tools/places.py [--list] [FOLDER]

With --list each place is printed too.
"""
import re
import sys
from collections import defaultdict
from itertools import combinations
from pathlib import Path
from typing import NamedTuple

SIGNATURE = re.compile(
    r"(?m)^( *)(?:pub(?:\([^)]*\))? )?(?:const )?(?:unsafe )?(?:extern \"C\" )?fn (\w+)(?:<[\s\S]*?>)?\(((?:[^()]|\([^()]*\))*)\)(?: -> ([^\n{]+))?"
)
REQUIRES = re.compile(r"(?m)^\s+requires (?:\w+ )?\{ (.*) \}$")
STRUCT = re.compile(r"(?ms)^(?:pub )?struct (\w+)[^\n;]*\{\n(.*?)^\}$")
# What a line of a source shows.
LINES = {
    "1 own enums": r"^(?:pub )?enum \w+",
    "1 fields with a number or a flag beside a value": r"^\s+(?:pub )?(?:refused|stands|more|ended|fits): (?:u32|bool)",
    "1 numbers for refusals or kinds": r"^(?:pub )?const \w+: u32 = (?:\d+|0x000\d);$",
    "3 loops that count by hand": r"^\s*(?:while|loop)\b",
    "3 loops over a range of indices": r"^\s*for \w+ in [^\n]*\.\.",
    "4 types without a derive beside Clone and Copy": r"^#\[derive\(Clone, Copy\)\]$",
}
PLACE = r"(?m)^(?:at|place|from|to|begin|end|index|offset|n|len|length|count|size|shown|blocks|\w+_(?:count|length|len|end)|num_\w+): (?:&mut )?(?:usize|u32)$"
SLICE = r"(?m)^\w+: &(?:mut )?\[[^;]*\]$"
COUNT_FIELD = r"(?m)^\s+(?:pub )?(?:num_\w+|\w*count|\w*length|len|end|size|shown): (?:usize|u32|u8),$"
ARRAY_FIELD = r"(?m)^\s+(?:pub )?\w+: (?:&(?:'\w+ )?(?:mut )?)?\[.*\],$"


class Function(NamedTuple):
    path: Path
    name: str
    parameters: list
    result: str
    requires: list
    body: str


def sources(root):
    for path in sorted(root.glob("crates/*/src/**/*.rt")):
        yield path.relative_to(root), path.read_text(encoding="utf-8")


def parted(path, text, found):
    """A function, its clauses and its body: in the layout of `rt fmt` it ends at the first brace that is as far in as its head."""
    indent, name, parameters, result = found.groups()
    rest = text[found.end() :].lstrip(" ")
    bodiless = rest.startswith(";") or (result or "").endswith(";")
    whole = "" if bodiless else rest.split(f"\n{indent}}}\n")[0]
    clauses, _, body = ("", "", whole[1:]) if whole.startswith("{") else whole.partition(f"\n{indent}{{\n")
    kept = [line.strip() for line in body.split("\n") if not line.strip().startswith("//")]
    listed = [" ".join(p.replace("'a ", "").split()) for p in re.split(r",\s", parameters + "\n") if ":" in p]
    return Function(path, name, listed, (result or "").strip(), REQUIRES.findall(clauses), "\n".join(kept).strip())


def functions(root):
    for path, text in sources(root):
        for found in SIGNATURE.finditer(text):
            yield parted(path, text, found)


def several(of, least=2):
    """What stands in so many files, or at so many functions, at least."""
    return [f"{what}: {', '.join(sorted(set(map(str, at))))}" for what, at in sorted(of.items()) if len(set(at)) >= least]


def together(listed):
    """Groups of two or more parameters that three or more functions have. Of groups that the same functions have, the greatest alone."""
    sets = [(f"{f.path}: {f.name}", frozenset(f.parameters)) for f in listed if len(f.parameters) > 1]
    groups = {a & b for (_, a), (_, b) in combinations(sets, 2) if len(a & b) > 1}
    return {", ".join(sorted(g)): [at for at, has in sets if g <= has] for g in groups}


def in_lines(found, root):
    types = defaultdict(list)
    for path, text in sources(root):
        for number, line in enumerate(text.split("\n"), 1):
            for label, shape in LINES.items():
                if re.match(shape, line):
                    found[label].append(f"{path}:{number}: {line.strip()}")
            declared = re.match(r"(?:pub )?(?:struct|enum) (\w+)", line)
            if declared:
                types[declared[1]].append(path)
        for name, fields in STRUCT.findall(text):
            if re.search(COUNT_FIELD, fields) and re.search(ARRAY_FIELD, fields):
                found["6 structs with a count beside an array or a slice"].append(f"{path}: {name}")
    found["2 names of types in more than one file"] = several(types)


def at_function(found, f):
    place = f"{f.path}: {f.name}"
    each = "\n".join(f.parameters)
    if f.result == "u32" and re.search("refusal|refused|lesser", f.name):
        found["1 functions that answer a refusal as a number"].append(place)
    if re.match(r"put_|tell_", f.name):
        found["4 functions that print"].append(place)
    if len(f.parameters) > 5:
        found["5 functions of more than five parameters"].append(f"{place} ({len(f.parameters)})")
    if re.search(r"out: &mut \[u8\]\nat: (?:&mut )?usize", each):
        found["6 functions that are lent a table and a place in it"].append(place)
    if re.search(SLICE, each) and re.search(PLACE, each):
        found["6 functions that are lent a slice, and a place or a length"].append(place)
    for flag in re.findall(r"(?m)^(\w+): bool$", each):
        found["7 parameters that are flags"].append(f"{place}: {flag}")


def in_functions(found, root):
    listed = list(functions(root))
    names, bodies, facts = defaultdict(list), defaultdict(list), defaultdict(list)
    for f in listed:
        at_function(found, f)
        names[f.name].append(f.path)
        if "\n" in f.body:
            bodies[f.body.replace("\n", " ")].append(f"{f.path}: {f.name}")
        for fact in f.requires:
            facts[fact].append(f"{f.path}: {f.name}")
    found["2 names of functions in more than one file"] = several(names)
    found["2 bodies of two or more lines that several functions have"] = several(bodies)
    found["5 facts that three or more functions ask for"] = several(facts, 3)
    found["5 groups of parameters that three or more functions have"] = several(together(listed), 3)


def in_proofs(found, root):
    for path in sorted(root.glob("crates/*/proofs/**/*.antt")):
        if path.name in ("Answers.antt", "Invariants.antt"):
            kind = path.name.removesuffix(".antt").lower()
            found[f"8 files of {kind}"].append(str(path.relative_to(root)))
            found[f"8 lines of {kind}"] += path.read_text(encoding="utf-8").splitlines()


def main():
    words = [w for w in sys.argv[1:] if w != "--list"]
    root = Path(words[0]) if words else Path(__file__).resolve().parent.parent
    found = defaultdict(list)
    in_lines(found, root)
    in_functions(found, root)
    in_proofs(found, root)
    for label, all_of_it in sorted(found.items()):
        print(f"{len(all_of_it):5} {label}")
        if "--list" in sys.argv and not label.startswith("8 lines"):
            print("".join(f"        {place}\n" for place in all_of_it), end="")


main()
