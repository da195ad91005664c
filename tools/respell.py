#!/usr/bin/env python3
"""Brings the names that this repository gives itself to the spelling of today's Rattle: words in snake case, types in camel case.

usage: python3 tools/respell.py [FOLDER]     once, at the top of a checkout, right after the kit's port.py

Definitions and lemmas that stand in specs/ and proofs/ are respelled wherever they are named: in .antt and .rt files, must-fail edits and
pages. `unitByte` becomes unit_byte, `table-rule` table_rule. A lemma whose name would fall together with a definition's gets _lem. Names of
functions, fields and constants of src/, of the kit's library, of goals that Rattle makes, strings, inputs and outputs stay.
"""

import os
import re
import sys

TOP = sys.argv[1] if len(sys.argv) > 1 else "."

# Names with a dash that the kit's library has too; they keep it, the four lemmas of this repository among them (count-append, length-numbered,
# pow-pow, take-replicate).
KIT = {
    "count-append", "drop-cons", "drop_of_length-le", "get_or-append", "le-ltb", "length-numbered", "lt-ltb", "mod-eq_of_lt", "pow-pow",
    "pow-suc", "take-replicate",
}

# Lemmas in snake case with whose name a definition falls together, and the files that speak of the lemma: it gets _lem there.
LEMMAS = {
    "copy_sent": ["premises/proofs/WithinDamage.antt"],
    "half_in": ["protocol/proofs/Kept/ReadingKept.antt"],
    "in_group": ["protocol/proofs/Kept/AwaitedMoves.antt"],
    "left_over": ["packing/proofs/Figures.antt", "packing/proofs/Whole.antt"],
    "no_room": ["packing/proofs/Figures.antt"],
    "open_step": ["protocol/proofs/Calls/ConcludedStays.antt"],
    "opened_in": ["protocol/proofs/Calls/SlotReported.antt", "claims/proofs/OneEnd.antt"],
    "some_one": ["packing/proofs/Whole.antt", "packing/proofs/Trips.antt"],
    "stands_at": ["endpoint/proofs/Says.antt"],
    "stands_by": ["leads/proofs/FarEnd.antt"],
    "taken_at": ["leads/proofs/UnitsGo.antt"],
    "version_of": ["exchange/proofs/Settled.antt"],
}

# A predicate is a type.
TYPES = {"arrivesAs": "ArrivesAs"}

DECLARED = re.compile(
    r"^\s*(?:(?:pub|abbrev|unfoldable|pattern|ruleset|record|data)\s+)*([^\s:(){},;=.]+)(?:\s+[\({][^:]*:[^\)}]*[\)}])*\s*(?::\s|=\s|$|\()"
)
OF_THE_KIT = re.compile(r"^(?:use|ghost use) (?:mathlib|Prim|native|lib|borrow|types|denote|Rattle\.std)\b[^{\n]*\{([^}]*)\}", re.M)
CAMEL = re.compile(r"[a-z][A-Za-z0-9_']*[A-Z][A-Za-z0-9_']*")
MADE_BY_RATTLE = re.compile(r"proofs/.+/(?:Proof|Answers|Invariants)\.antt$")
TOKEN = re.compile(r"[^\s(){}\[\],;.:\"@`«»/|]+")


def files():
    for folder, dirs, names in os.walk(os.path.join(TOP, "crates")):
        dirs[:] = sorted(d for d in dirs if d not in ("out", ".git"))
        for name in sorted(names):
            if name.endswith((".antt", ".rt", ".edit")):
                yield os.path.join(folder, name)


def pages():
    for folder in (TOP, os.path.join(TOP, "docs")):
        for name in sorted(os.listdir(folder)):
            if name.endswith(".md") and name not in ("CHANGELOG.md", "PORT.md"):
                yield os.path.join(folder, name)


def read(path):
    with open(path, encoding="utf-8") as f:
        return f.read()


def snake(name):
    if name in TYPES:
        return TYPES[name]
    name = name.replace("-", "_")
    return re.sub(r"(?<=[a-z0-9])([A-Z])", r"_\1", name).lower()


def names_of(texts):
    """What each own name becomes."""
    declared, camels, kit = set(), set(), set()
    for path, text in texts.items():
        if not path.endswith(".antt"):
            continue
        kit |= {name.strip() for names in OF_THE_KIT.findall(text) for name in names.split(",")}
        camels |= {t for t in TOKEN.findall(text) if CAMEL.fullmatch(t)}
        if not MADE_BY_RATTLE.search(path):
            declared |= {m.group(1) for m in (DECLARED.match(line) for line in text.splitlines()) if m}
    to = {name: snake(name) for name in camels}
    plain = {name for name in declared if re.fullmatch(r"[a-z][a-z0-9_']*", name)}
    taken = set(to.values()) | plain | kit
    lemmas = {}
    for name in declared:
        if "-" in name and name not in KIT and re.match(r"[A-Za-z]", name):
            new = snake(name) if not CAMEL.search(name) else name.replace("-", "_").lower()
            lemmas[name] = new + "_lem" if new in taken else new
    to.update(lemmas)
    return to


def respelled(text, to):
    return TOKEN.sub(lambda m: to.get(m.group(0), m.group(0)), text)


def pages():
    for folder in (TOP, os.path.join(TOP, "docs")):
        for name in sorted(os.listdir(folder)):
            if name.endswith(".md") and name not in ("CHANGELOG.md", "PORT.md"):
                yield os.path.join(folder, name)


def read(path):
    with open(path, encoding="utf-8") as f:
        return f.read()


def snake(name):
    if name in TYPES:
        return TYPES[name]
    name = name.replace("-", "_")
    return re.sub(r"(?<=[a-z0-9])([A-Z])", r"_\1", name).lower()


def names_of(texts):
    """What each own name becomes."""
    declared, camels, kit = set(), set(), set()
    for path, text in texts.items():
        if not path.endswith(".antt"):
            continue
        kit |= {name.strip() for names in OF_THE_KIT.findall(text) for name in names.split(",")}
        camels |= {t for t in TOKEN.findall(text) if CAMEL.fullmatch(t)}
        if not MADE_BY_RATTLE.search(path):
            declared |= {m.group(1) for m in (DECLARED.match(line) for line in text.splitlines()) if m}
    to = {name: snake(name) for name in camels}
    plain = {name for name in declared if re.fullmatch(r"[a-z][a-z0-9_']*", name)}
    taken = set(to.values()) | plain | kit
    lemmas = {}
    for name in declared:
        if "-" in name and name not in KIT and re.match(r"[A-Za-z]", name):
            new = snake(name) if not CAMEL.search(name) else name.replace("-", "_").lower()
            lemmas[name] = new + "_lem" if new in taken else new
    to.update(lemmas)
    return to


def respelled(text, to):
    return TOKEN.sub(lambda m: to.get(m.group(0), m.group(0)), text)


def lemma_apart(path, text):
    """The lemmas of LEMMAS, where a file means the lemma: not as a part of a path or as a field."""
    for name, where in LEMMAS.items():
        if any(path.endswith(end) for end in where):
            text = re.sub(rf"(?<![\w'.\-«]){name}(?![\w'.\-»])", name + "_lem", text)
    return text


def without_dash(to):
    return {old: new for old, new in to.items() if "-" not in old}


def commented(text, plain, to):
    """A comment: a word with a dash is a name only between backticks."""
    return page(respelled(text, plain), to)


def source(text, to):
    """A .rt file: names in snake case stay, and so do strings."""
    plain = without_dash(to)
    out = []
    for line in text.split("\n"):
        code, mark, comment = line.partition("//")
        parts = re.split(r'("(?:[^"\\]|\\.)*")', code)
        code = "".join(p if i % 2 else respelled(p, plain) for i, p in enumerate(parts))
        out.append(code + mark + commented(comment, plain, to))
    return "\n".join(out)


def logic(path, text, to):
    """An .antt file or an edit."""
    plain = without_dash(to)
    out = []
    for line in lemma_apart(path, text).split("\n"):
        at = re.match(r"(.*?)((?:^|(?<=\s))(?:--|#)(?=\s).*)$", line)
        out.append(respelled(at.group(1), to) + commented(at.group(2), plain, to) if at else respelled(line, to))
    return "\n".join(out)


def pages():
    for folder in (TOP, os.path.join(TOP, "docs")):
        for name in sorted(os.listdir(folder)):
            if name.endswith(".md") and name not in ("CHANGELOG.md", "PORT.md"):
                yield os.path.join(folder, name)


def read(path):
    with open(path, encoding="utf-8") as f:
        return f.read()


def snake(name):
    if name in TYPES:
        return TYPES[name]
    name = name.replace("-", "_")
    return re.sub(r"(?<=[a-z0-9])([A-Z])", r"_\1", name).lower()


def names_of(texts):
    """What each own name becomes."""
    declared, camels, kit = set(), set(), set()
    for path, text in texts.items():
        if not path.endswith(".antt"):
            continue
        kit |= {name.strip() for names in OF_THE_KIT.findall(text) for name in names.split(",")}
        camels |= {t for t in TOKEN.findall(text) if CAMEL.fullmatch(t)}
        if not MADE_BY_RATTLE.search(path):
            declared |= {m.group(1) for m in (DECLARED.match(line) for line in text.splitlines()) if m}
    to = {name: snake(name) for name in camels}
    plain = {name for name in declared if re.fullmatch(r"[a-z][a-z0-9_']*", name)}
    taken = set(to.values()) | plain | kit
    lemmas = {}
    for name in declared:
        if "-" in name and name not in KIT and re.match(r"[A-Za-z]", name):
            new = snake(name) if not CAMEL.search(name) else name.replace("-", "_").lower()
            lemmas[name] = new + "_lem" if new in taken else new
    to.update(lemmas)
    return to


def respelled(text, to):
    return TOKEN.sub(lambda m: to.get(m.group(0), m.group(0)), text)


def page(text, to):
    return re.sub(r"`([^`\n]+)`", lambda m: "`" + respelled(m.group(1), to) + "`", text)


def main():
    texts = {path: read(path) for path in files()}
    to = names_of(texts)
    for path, text in texts.items():
        new = source(text, to) if path.endswith(".rt") else logic(path, text, to)
        if new != text:
            with open(path, "w", encoding="utf-8") as f:
                f.write(new)
    for path in pages():
        text = read(path)
        new = page(text, to)
        if new != text:
            with open(path, "w", encoding="utf-8") as f:
                f.write(new)


if __name__ == "__main__":
    main()
