#!/usr/bin/env python3
"""Brings the repository's own names in specs/ and proofs/ to the spelling of today's Rattle.

usage: python3 tools/snake_names.py         at the top of the repository, once, right after the kit's port.py
       python3 tools/snake_names.py --list  prints the names with their new spelling, and changes nothing

A name of the repository's own with a dash in it is respelled:
  - a type (a record, or what answers a Type) in upper camel case: Is-band becomes IsBand;
  - a lemma whose name begins with a type or ends with an operator keeps its dash, which joins two names: Val-add;
  - every other name in snake case: held-shift becomes held_shift; a lemma that would have
    the name of a function of src/ gets _lem.
Names of the libraries and names that Rattle makes (goals, facts of a call) stay, and so do functions of src/, inputs and
outputs. It goes by whole words, in clauses, code and comments alike; no string of the repository has such a word. It stops
where a new name stands in a file of specs/ or proofs/ already, other than as a module or a folder there, or where two names
would become one.
"""

import re
import sys
from pathlib import Path

CRATES = Path(__file__).resolve().parents[1] / "crates"
TOKEN = re.compile(r'[^\s(){}.,;"«»`]+')
WORDS = r"(?:abbrev|opaque|unfoldable|pub|record|data)"
SIGNATURE = re.compile(rf"^\s*((?:{WORDS}\s+)*)([^\s(){{}}.,;:]+)((?:\s+\([^)]*\)|\s+\{{[^}}]*\}})*)\s+:(?:\s+(.*))?$")
BARE = re.compile(rf"^\s*((?:{WORDS}\s+)+)([^\s(){{}}.,;:]+)\s*$")
BOUND = re.compile(r"[({]((?:[^\s(){}.,;:]+\s+)+):\s")
LET = re.compile(r"\blet\s+([^\s(){}.,;:]+)\s*(?::|=)")
LAMBDA = re.compile(r"λ\s+([^.]*)\.")
USE = re.compile(r"^\s*(?:pub\s+)?(?:ghost\s+)?use\s+([^\s{;]+?)\.\{([^}]*)\}")


def own_crates():
    return {p.name for p in CRATES.iterdir() if p.is_dir()}


def files():
    for crate in sorted(own_crates()):
        for folder in ("specs", "proofs", "src"):
            yield from sorted(p for p in (CRATES / crate / folder).rglob("*") if p.suffix in (".antt", ".rt"))


def statement(lines, i):
    """The signature that begins on line i, up to the definition's first clause."""
    indent = len(lines[i]) - len(lines[i].lstrip())
    text = [lines[i]]
    for line in lines[i + 1 :]:
        if not line.strip() or len(line) - len(line.lstrip()) <= indent:
            break
        text.append(line)
    return " ".join(text)


def names(crates):
    """The own names with a dash, each with whether it is a type; which of them are definitions; the names of others."""
    own, defined, foreign = {}, set(), set()
    for path in files():
        if path.suffix != ".antt":
            for line in path.read_text().splitlines():
                foreign |= imported(line, crates)
            continue
        lines = path.read_text().splitlines()
        for i, line in enumerate(lines):
            foreign |= imported(line, crates)
            code = re.sub(r"(^|\s)--(\s.*)?$", "", line)
            m = SIGNATURE.match(code) or BARE.match(code)
            if m and not re.match(r"(use|mod|open|module|infix\w?|let|λ)$", m[2]):
                goal = re.search(r":\s*goal\.", code)
                if goal:
                    foreign.add(m[2])
                elif "-" in m[2]:
                    a_type = "record" in m[1] or "data" in m[1] or bool(re.search(r"Type \d+\s*$", statement(lines, i)))
                    own[m[2]] = own.get(m[2], False) or a_type
                    if re.search(r"abbrev|unfoldable", m[1]):
                        defined.add(m[2])
            for bound in [*BOUND.findall(code), *LET.findall(code), *LAMBDA.findall(code)]:
                for name in bound.split():
                    if "-" in name:
                        own.setdefault(name, False)
    return own, defined, foreign


def imported(line, crates):
    m = USE.match(line)
    if not m or re.match(r"Rattle\.(\w+)\.", m[1]) and re.match(r"Rattle\.(\w+)\.", m[1])[1] in crates:
        return set()
    return {n.split(" as ")[0].strip() for n in m[2].split(",")}


def respelled(name, a_type):
    if a_type:
        parts = re.split(r"-(?=\w)", name)
        return parts[0] + "".join(p[:1].upper() + p[1:] for p in parts[1:])
    if re.match(r"[A-Z]\w*-", name) and not re.match(r"[A-Z]-", name):
        head, rest = name.split("-", 1)
        return head + "-" + respelled(rest, False)
    return name if "◌" in name else re.sub(r"(?<=\S)-(?=\w)", "_", name)


def main():
    crates = own_crates()
    own, defined, foreign = names(crates)
    functions = {f for p in files() if p.suffix == ".rt" for f in re.findall(r"\bfn (\w+)", p.read_text())}
    table = {n: respelled(n, t) for n, t in own.items() if n not in foreign}
    table = {a: b + "_lem" * (b in functions and a not in defined) for a, b in table.items() if a != b}
    if "--list" in sys.argv:
        for a, b in sorted(table.items()):
            print(a, b)
        return 0
    modules = {part for p in files() for part in (p.stem, *p.parent.parts)}
    tokens = {t for p in files() if p.suffix == ".antt" for t in TOKEN.findall(p.read_text())} - modules
    clash = sorted(b for b in set(table.values()) if b in tokens or list(table.values()).count(b) > 1)
    if clash:
        print("names that fall together: " + ", ".join(clash), file=sys.stderr)
        return 1
    changed = 0
    for path in files():
        text = path.read_text()
        new = TOKEN.sub(lambda m: table.get(m[0], m[0]), text)
        if new != text:
            path.write_text(new)
            changed += 1
    print(f"{len(table)} names, {changed} files")
    return 0


if __name__ == "__main__":
    sys.exit(main())
