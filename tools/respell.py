#!/usr/bin/env python3
"""Turns this repository's own names to the library's spelling: words in snake case, types and modules in camel case.

usage: python3 tools/respell.py [FOLDER]

Run once, after the kit's port.py, on a checkout written for the older kit (FOLDER holds crates/; this one if not named).
Turned are definitions, lemmas, fields and bound variables of specs/ and proofs/, where they stand in clauses and ghost lines
of the sources, and in must-fail edits, with the older way to write a field, `(s .settings .«min»)`, in edits. What Rust code
names, strings and comments keep theirs. Names that fall together are told.
"""
import re
import sys
from pathlib import Path

# A lower-case word with a capital in it, alone or as one part of a lemma's name.
CAMEL = re.compile(r"(?<![A-Za-z0-9_'])[a-z][a-z0-9]*(?:[A-Z][A-Za-z0-9]*)+'*(?![A-Za-z0-9_'])")
# Words whose parts the capitals don't show, and words of the older library.
IRREGULAR = {"ownOr63": "own_or_63", "getD": "get_or", "eqZ": "eq_z", "leZ": "le_z", "ltZ": "lt_z"}
# What is not turned in a source: strings and comments.
ASIDE = re.compile(r'"(?:\\.|[^"\\])*"|//[^\n]*')
# Fields as the older kit wrote them, of one word or of a function and its arguments, in brackets of their own or not.
FIELDS = re.compile(r"(?P<open>\()?(?P<of>[\w']+(?: [\w']+)*)(?P<fields>(?: \.(?:«\w+»|\w+))+)(?(open)(?P<close>\))?)")


def snake(word):
    return IRREGULAR.get(word) or re.sub(r"(?<=[a-z0-9])([A-Z])", lambda m: "_" + m[1].lower(), word)


def turned(text, seen):
    def turn(m):
        new = snake(m[0])
        seen.setdefault(new, set()).add(m[0])
        return new
    return CAMEL.sub(turn, text)


def turned_source(text, seen):
    parts, at = [], 0
    for m in ASIDE.finditer(text):
        parts += [turned(text[at:m.start()], seen), m[0]]
        at = m.end()
    return "".join(parts) + turned(text[at:], seen)


def projected(m):
    of = m["of"] if " " not in m["of"] else f"({m['of']})"
    made = of + m["fields"].replace(" ", "").replace("«", "").replace("»", "")
    return made if m["close"] else (m["open"] or "") + made


def turned_edit(text, seen):
    lines = []
    for line in text.split("\n"):
        if line.startswith(("old: ", "new: ")):
            line = line[:5] + FIELDS.sub(projected, turned(line[5:], seen))
        lines.append(line)
    return "\n".join(lines)


def declared_snake(root):
    """Names in snake case that specs/ or proofs/ declare."""
    names = set()
    for path in root.glob("crates/*/*/**/*.antt"):
        for m in re.finditer(r"^\s*(?:(?:pub|abbrev|unfoldable)\s+)*([a-z][a-z0-9]*(?:_[a-z0-9]+)+)[\w ']* :", path.read_text(encoding="utf-8"), re.M):
            names.add(m[1])
    return names


def main():
    root = Path(sys.argv[1] if len(sys.argv) > 1 else ".").resolve()
    before, seen, changed = declared_snake(root), {}, 0
    for pattern, turn in (("specs/**/*.antt", turned), ("proofs/**/*.antt", turned), ("src/**/*.rt", turned_source), ("must-fail/*.edit", turned_edit)):
        for path in sorted(root.glob(f"crates/*/{pattern}")):
            old = path.read_text(encoding="utf-8")
            new = turn(old, seen)
            if new != old:
                path.write_text(new, encoding="utf-8")
                changed += 1
    for new, olds in sorted(seen.items()):
        if len(olds) > 1 or new in before:
            print(f"falls together: {new}, of {', '.join(sorted(olds))}" + (" and itself" if new in before else ""))
    print(f"{len(seen)} names, {changed} files")


main()
