#!/usr/bin/env python3
"""Brings the names of the repository's own definitions and lemmas to today's spelling, once, after port.py.

    python3 tools/respell.py [--list]

Words of specs/ and proofs/ are in snake case (cardOf is card_of); types and modules keep their capitals. A dash stays between two
names, where what it joins are definitions (up_to-length); else a plain word is added by `_` (until_past). Names that Rattle makes, in
proofs/FUNCTION/, and names of src/ are left. specs/Contracts.antt is specs/Contract.antt, since Rattle makes a module of that name.
--list prints the names and changes nothing. It stops where two names would fall together.
"""
import collections
import pathlib
import re
import sys

TOP = pathlib.Path(__file__).resolve().parent.parent
WORD = r"[^\s(){}\[\].,;:=λ∷@`\"⌜⌝|&×⊎]+"
# variables of sections and of lemmas
LOCALS = ["cardTable", "ruleTable"]
TOKEN = re.compile(r"(?<![\w'-])[A-Za-z][\w'≡→←-]*")
MADE = {"Proof.antt", "Answers.antt", "Invariants.antt"}


def is_made(path):
    return path.name in MADE and "proofs" in path.parts


def antt_files():
    return [p for p in sorted(TOP.glob("crates/*/*/**/*.antt")) if p.parts[len(TOP.parts) + 2] in ("specs", "proofs")]


def declared(path):
    """The names that a file declares: at its head, in a module, a record or a data type."""
    names = set()
    for line in path.read_text().split("\n"):
        if line.lstrip().startswith("--"):
            continue
        m = re.match(r"\s*((?:abbrev |unfoldable |pub |opaque |instance )*)(data |record |module |syntax )?(" + WORD + r"(?: " + WORD + r")*)(?: \{[^}]*\})* :(?: |$)", line)
        if m and not m.group(2):
            names.update(m.group(3).split())
    return {n for n in names if TOKEN.fullmatch(n) and n not in ("pub", "abbrev", "unfoldable", "let")}


def imported():
    """Names that come from outside of the repository."""
    names = set()
    own = {p.name for p in (TOP / "crates").iterdir()}
    for path in antt_files():
        for m in re.finditer(r"^use ([\w.·+-]+)\.\{([^}]*)\}", path.read_text(), re.M):
            parts = m.group(1).split(".")
            if not (parts[0] == "Rattle" and parts[1] in own):
                names.update(x.strip().split(" as ")[0] for x in m.group(2).split(","))
    return names


def snake(name):
    name = re.sub(r"(?<=[a-z0-9])([A-Z]+)(?=$|[^a-z])", lambda m: "_" + m.group(1).lower(), name)
    return re.sub(r"(?<=[a-z0-9])([A-Z])(?=[a-z])", lambda m: "_" + m.group(1).lower(), name)


def renames():
    names, words = set(), set()
    for path in antt_files():
        if not is_made(path):
            found = declared(path)
            names |= found
            if "specs" in path.parts:
                words |= found
    names.update(LOCALS)
    foreign = imported()
    words |= {n for n in foreign if "-" not in n}
    table = {}
    for name in sorted(names):
        if name in foreign:
            continue
        parts = [p if p[:1].isupper() else snake(p) for p in name.split("-")]
        old = name.split("-")
        text = parts[0]
        for i in range(1, len(parts)):
            both = old[i - 1] in words and old[i] in words or parts[i - 1][:1].isupper() or parts[i][:1].isupper()
            text += ("-" if both or not re.match(r"[\w]", parts[i]) else "_") + parts[i]
        if text[:1].isupper() and "-" not in name:
            continue
        if text != name:
            table[name] = text
    # a lemma that would have its function's name gets _lem
    taken = collections.Counter(table.values())
    for old, new in sorted(table.items()):
        if "-" in old and (taken[new] > 1 or new in names or new in foreign):
            table[old] = new + "_lem"
        elif "-" not in old and new in names and new not in table:
            table[new] = new + "_lem"
    return table, names, foreign


def check(table, names, foreign):
    seen = collections.defaultdict(set)
    for old, new in table.items():
        seen[new].add(old)
    bad = {new: olds for new, olds in seen.items() if len(olds) > 1 or new in names - set(table) or new in foreign}
    return bad


def respell(text, table):
    """Paths of modules stay; what has an underscore already is a lemma's name, and no field's."""
    def turn(m):
        name = m.group(0)
        if m.string[m.start() - 1:m.start()] == "." and "_" in name and "-" not in name:
            return name
        return table.get(name, name)

    out = []
    for line in text.split("\n"):
        head = re.match(r"\s*(?:ghost )?use (?:[\w·+-]+\.)+(?=\{)", line)
        plain = head is None and re.match(r"\s*(?:ghost )?use [\w.·+-]+", line)
        cut = head.end() if head else plain.end() if plain else 0
        out.append(line[:cut] + TOKEN.sub(turn, line[cut:]))
    return "\n".join(out)


def clauses(text, table):
    """A source file's ghost lines and clauses; code, comments and strings stay."""
    out = []
    depth = 0
    for line in text.split("\n"):
        ghost = re.match(r"\s*(ghost |requires\b|ensures\b|#!?\[tactic)", line)
        if depth > 0 or (ghost and not line.lstrip().startswith("//")):
            begun = line
            line = respell(line, table)
            depth += begun.count("{") - begun.count("}")
            depth = max(depth, 0)
        out.append(line)
    return "\n".join(out)


def main():
    table, names, foreign = renames()
    bad = check(table, names, foreign)
    if "--list" in sys.argv:
        for old, new in sorted(table.items()):
            print(old, new)
    for new, olds in sorted(bad.items()):
        print("falls together:", new, sorted(olds), "declared" if new in names else "", "foreign" if new in foreign else "", file=sys.stderr)
    if "--list" in sys.argv or bad:
        return 1 if bad else 0
    for old in TOP.glob("crates/*/specs/Contracts.antt"):
        old.rename(old.with_name("Contract.antt"))
    for path in sorted(TOP.glob("crates/*/**/*")):
        if path.suffix not in (".antt", ".rt", ".edit") or "out" in path.parts:
            continue
        text = path.read_text()
        new = text
        if path.suffix == ".antt":
            new = respell(text, table)
        else:
            new = clauses(text, table) if path.suffix == ".rt" else new
        new = re.sub(r"\bspecs\.Contracts\b", "specs.Contract", new)
        new = re.sub(r"^pub mod Contracts$", "pub mod Contract", new, flags=re.M)
        if new != text:
            path.write_text(new)
    return 0


sys.exit(main())
