#!/usr/bin/env python3
"""Spells the repository's own definitions, lemmas and record fields as today's Rattle does.

usage: respell_names.py [FOLDER]      (the folder that holds crates/; run once, right after port.py)

Functions and lemmas are in snake case, facts and types in upper camel case. A dash stays where it joins the
names of two definitions. A lemma that would have a definition's name gets _lem. A name that Rattle makes of the
source (behind a dot, or a goal's) stays as it is. Prints what it renames, and names that would fall together,
which it leaves alone.
"""
import glob
import re
import sys

NAME = r"[^\s:{}()=;,.\[\]@«»\"]+"
TOKEN = re.compile(NAME)
DECLARED = re.compile(r"^((?:(?:pub|abbrev|unfoldable|data|record|ruleset) )*)(" + NAME + r")\s*(?=[:({])", re.M)
INDENTED = re.compile(r"^ +(?:pub )?(" + NAME + r") :")
WORDS = set("use pub mod open where let in elim infix infixl infixr mutual module".split())
# facts that were spelled as functions
FACTS = {"shelfLawful": "ShelfLawful", "gridLawful": "GridLawful", "Bytes_of": "BytesOf"}
# names bound inside a definition, and a lemma that port.py gave a constructor's new name
OTHERS = {x: x for x in "leftRest rightRest endingFrom classBy withBytes".split()} | {"end_row": "end_row_lem"}
# names of std and of its older spelling that lemmas are called after
STD = {"getD": "get_or", "ltb": "nat_lt", "leb": "nat_le", "eqb": "nat_eq"}
OF_STD = set("length take drop append map sum max min set cons push get_or replicate filter all any".split())


def snake(word):
    return re.sub(r"(?<=[a-z0-9])([A-Z])", lambda m: "_" + m[1].lower(), word)


def camel(name):
    return "".join(p[:1].upper() + p[1:] for p in re.split(r"[-_]", name))


def read(path):
    with open(path, encoding="utf8") as f:
        return f.read()


def gather(files):
    """The names that the repository declares: at the head of a line, and in records, data and where blocks."""
    top, inner, fields = set(), set(), set()
    for path in files:
        text = read(path)
        for m in DECLARED.finditer(text):
            line = text[m.start():text.find("\n", m.start())]
            if m[2] not in WORDS and not re.search(r": goal\.", line) and not m[2].startswith("--"):
                top.add(m[2])
        head = ""
        for line in text.split("\n"):
            if line and not line.startswith((" ", "--")):
                head = line
            m = INDENTED.match(line)
            if m:
                (fields if re.match(r"(pub )?(record|data)\b", head) else inner).add(m[1])
    return top, inner, fields


def functions(files):
    """The names of definitions, which a dash may join."""
    found = set()
    for path in files:
        for m in DECLARED.finditer(read(path)):
            if "abbrev" in m[1] or "unfoldable" in m[1]:
                found.add(m[2])
    return found


def respelled(name, defined):
    if name in FACTS:
        return FACTS[name]
    if name[:1].isupper():
        return camel(name) if "-" in name else name
    parts = [STD.get(p, snake(p)) for p in name.split("-")]
    known = [p in defined or p in OF_STD for p in parts]
    out = parts[0]
    for i in range(1, len(parts)):
        out += ("-" if known[i - 1] and known[i] else "_") + parts[i]
    return out


def turn(text, table, fields):
    aliases = set(re.findall(r"^use [^\s{]+ as (\w+)$", text, re.M)) - {"goal"}

    def one(m):
        name = m[0]
        if name not in table:
            return name
        before = text[:m.start()]
        if before.endswith("."):
            owner = re.search(r"([^\s(){}.;,]+)\.$", before)
            if name not in fields and not (owner and (owner[1][:1].isupper() or owner[1] in aliases)):
                return name
        return table[name]

    return TOKEN.sub(one, text)


def imported_from_std(files):
    found = set()
    for path in files:
        for m in re.finditer(r"^(?:ghost )?use (?:Rattle\.(?:std|core)[\w.]*|mathlib[\w.]*|Prim[\w.]*|denote[\w.]*|lib[\w.]*|prelude[\w.]*)\.\{([^}]*)\}", read(path), re.M):
            found.update(x.strip() for x in m[1].split(","))
    return found


def main():
    root = sys.argv[1] if len(sys.argv) > 1 else "."
    antt = sorted(p for p in glob.glob(root + "/crates/**/*.antt", recursive=True) if "/out/" not in p)
    code = sorted(p for p in glob.glob(root + "/crates/**/*.rt", recursive=True) if "/out/" not in p)
    top, inner, fields = gather(antt)
    defined = {snake(x) for x in functions(antt)}
    names = top | inner | fields
    foreign = imported_from_std(antt + code)
    table = {x: respelled(x, defined) for x in names if x not in foreign}
    table.update({x: snake(x).replace("-", "_") for x in fields})
    table = {old: new for old, new in table.items() if old != new}
    table.update({old: snake(new) for old, new in OTHERS.items()})
    # a lemma that would have a definition's name gets _lem; other names that would fall together stay
    tokens = {p: {OTHERS.get(m[0], m[0]) for m in re.finditer(r"(?<!\.)" + NAME, read(p))} for p in antt}
    for old, new in sorted(table.items()):
        rivals = {o for o, n in table.items() if n == new and o != old}
        if any(old in here and (new in here or rivals & here) for here in tokens.values()):
            if "-" in old:
                table[old] = new + "_lem"
            elif not any("-" in r for r in rivals):
                print(f"left: {old} would meet {new}")
                table.pop(old)
    for path in antt + code:
        text = read(path)
        # the code's own functions keep their names
        mine = {o: n for o, n in table.items() if path.endswith(".antt") or o not in OTHERS}
        new = turn(text, mine, fields)
        if new != text:
            with open(path, "w", encoding="utf8") as f:
                f.write(new)
    for old, new in sorted(table.items()):
        print(f"{old} {new}")


main()
