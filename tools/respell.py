#!/usr/bin/env python3
"""Brings the repository's own definitions and lemmas to today's spelling.

usage: python3 tools/respell.py          at the top of the repository, once, after the kit's port.py
       python3 tools/respell.py --list   prints each old name and its new one, and changes nothing

A definition, field, constructor or local name for another's constructor is in snake case; a fact or a type is in camel
case; in a lemma's name a dash stays only between the names of two functions. Names that the check makes (those declared
as `goal.NAME`) are left alone, and so are strings and the names of functions of src/.
"""

import glob
import os
import re
import sys

TOP = os.path.dirname(os.path.dirname(os.path.realpath(__file__)))
INSIDE = os.path.join(TOP, "crates")
NAME = r"[^\s(){}\[\],;.:|\"`λ]+"
TOKEN = re.compile(NAME)
DECLARED = re.compile(r"^\s*(?:(abbrev|unfoldable|pub)\s+)?(?:(abbrev|unfoldable|pub)\s+)?(?:(record|data)\s+)?(" + NAME + r")\s*(?:[({].*)?\s:\s*(.*)$")

# functions of the library that lemmas' names speak of
LIBRARY = {"length", "append", "set", "take", "drop", "map", "count", "get_or", "slice_get", "cons", "nil", "replicate", "sum_by"}

# functions whose names stand in lemmas' names as plain words
PLAIN = {"same", "other", "only", "all", "at", "next", "none", "some", "more", "from", "free", "up", "is", "one", "no", "yes"}

# older names of the library's functions, as parts of names
PARTS = {"getD": "get_or", "nth": "slice_get"}

# facts that were spelled as values, and where they are defined
FACTS = {
    "says": "Says",
    "no-such-record": "NoSuchRecord",
    "no-lease-open": "NoLeaseOpen",
    "leases-full": "LeasesFull",
    "too_short": "TooShort",
    "shows": "Shows",
    "keeps": "Keeps",
    "holds": "Holds",
    "uses": "Uses",
}
FACTS_OF = "Rattle.history.specs.Law."

# names that the rules below would spell otherwise
GIVEN = {
    "T-not-of": "T_not_of",
    "of-not-T": "of_not_T",
    # src/ has functions of these names beside the clauses that cite them
    "call-of": "call_of_words",
    "letter-of": "letter_of_word",
    "bad-word": "bad_word_fault",
    "from-store": "fault_from_store",
    "unknown-letter": "unknown_letter_fault",
}

RESERVED = {"let", "in", "use", "module", "where", "elim", "of", "as", "pub"}


def antt():
    return sorted(glob.glob(os.path.join(INSIDE, "*", "specs", "*.antt")) + glob.glob(os.path.join(INSIDE, "*", "proofs", "**", "*.antt"), recursive=True))


def read(path):
    with open(path, encoding="utf-8") as f:
        return f.read()


def declared():
    """The repository's own names: of functions (definitions of specs/), of anything else, and all those of specs/."""
    functions, others, specs = set(), set(), set()
    for path in antt():
        inside_specs = os.sep + "specs" + os.sep in path
        for line in read(path).split("\n"):
            if line.lstrip().startswith("--"):
                continue
            if line.lstrip().startswith("use "):
                others.update(re.findall(r" as (" + NAME + ")", line))
                continue
            m = DECLARED.match(line)
            if not m or m.group(4) in RESERVED or m.group(5).startswith("goal."):
                continue
            (functions if inside_specs and ("abbrev" in m.groups()[:2] or "unfoldable" in m.groups()[:2]) else others).add(m.group(4))
            if inside_specs:
                specs.add(m.group(4))
    return functions, others, specs


def joined(parts, functions):
    """A lemma's name from its parts: a dash only between two functions' names."""
    units, i = [], 0
    while i < len(parts):
        for j in range(len(parts), i, -1):
            if "_".join(parts[i:j]) in functions:
                break
        else:
            j = i + 1
        units.append("_".join(parts[i:j]))
        i = j
    text = units[0]
    for left, right in zip(units, units[1:]):
        text += ("-" if left in functions and right in functions else "_") + right
    return text


def camel(name):
    return "".join(p[:1].upper() + p[1:] for p in name.split("-"))


def table():
    functions, others, specs = declared()
    new = {f: f.replace("-", "_") for f in functions if not f[0].isupper()}
    spelled = (set(new.values()) | LIBRARY) - PLAIN
    renamed = {}
    for name in sorted(functions | others):
        if not re.search(r"[A-Za-z0-9_]-[A-Za-z]", name):
            continue
        if name in GIVEN:
            renamed[name] = GIVEN[name]
        elif name in FACTS:
            continue
        elif name[0].isupper():
            renamed[name] = camel(name)
        elif name in specs:
            renamed[name] = name.replace("-", "_")
        else:
            parts = [PARTS.get(p, p) for p in name.split("-")]
            renamed[name] = joined(parts, spelled)
    return {a: b for a, b in renamed.items() if a != b}


def facts_in(path, text):
    """The facts that this file may name: those of the file that defines them, or that it imports from there."""
    if path.endswith(os.path.join("history", "specs", "Law.antt")):
        return dict(FACTS)
    found = {}
    for names in re.findall(re.escape(FACTS_OF) + r"\{([^}]*)\}", text):
        found.update({n: FACTS[n] for n in re.split(r",\s*", names.strip()) if n in FACTS})
    return found


def respelled(text, names):
    return TOKEN.sub(lambda m: names.get(m.group(0), m.group(0)), text)


def in_clauses(text, names):
    """A file of src/: all but strings."""
    out, last = [], 0
    for m in re.finditer(r"b?\"(?:[^\"\\\n]|\\.)*\"", text):
        out += [respelled(text[last : m.start()], names), m.group(0)]
        last = m.end()
    return "".join(out + [respelled(text[last:], names)])


def in_ticks(text, names):
    return re.sub(r"`[^`\n]*`", lambda m: respelled(m.group(0), names), text)


def clashes(path, text, names):
    """New names that the file already has for something else."""
    tokens = set(TOKEN.findall(text))
    back = {}
    for old in tokens & set(names):
        back.setdefault(names[old], []).append(old)
    for new, olds in sorted(back.items()):
        if len(olds) > 1 or new in tokens:
            print(f"clash: {os.path.relpath(path, TOP)}: {', '.join(olds)} -> {new}")


def main(argv):
    names = table()
    if argv == ["--list"]:
        for a, b in sorted(list(names.items()) + list(FACTS.items())):
            print(f"{a}  {b}")
    for path in antt() + sorted(glob.glob(os.path.join(INSIDE, "*", "src", "**", "*.rt"), recursive=True) + glob.glob(os.path.join(INSIDE, "*", "must-fail", "*.edit"))):
        text = read(path)
        mine = dict(names)
        if path.endswith(".antt"):
            mine.update(facts_in(path, text))
        clashes(path, text, mine)
        if argv == ["--list"]:
            continue
        turned = in_clauses(text, mine) if path.endswith(".rt") else respelled(text, mine)
        if turned != text:
            with open(path, "w", encoding="utf-8") as f:
                f.write(turned)
    if argv == ["--list"]:
        return
    for path in [os.path.join(TOP, "README.md")] + sorted(glob.glob(os.path.join(TOP, "docs", "*.md"))):
        text = read(path)
        turned = in_ticks(text, names)
        if turned != text:
            with open(path, "w", encoding="utf-8") as f:
                f.write(turned)


if __name__ == "__main__":
    main(sys.argv[1:])
