#!/usr/bin/env python3
"""Spells the repository's own definitions, lemmas, fields and local names as this Rattle does: words in snake case.

Run once at the top of the repository, after the kit's port.py:  python3 tools/port/own_names.py [--list]
--list prints each old name with its new one, and changes nothing. Functions of src/, types and modules keep their names.
"""
import collections
import glob
import re
import sys

NAME = r"[^\s(){}.,;:]+"
# Lemmas that are in snake case already and have the name that a definition gets.
TAKEN = "field_in header_read is_among is_same nearest_in no_zero pairs_of same_bytes same_number whole_in word_read".split()


def files():
    at = glob.glob("crates/*/specs/**/*.antt", recursive=True) + glob.glob("crates/*/proofs/**/*.antt", recursive=True)
    return sorted(p for p in at if "/out/" not in p)


def declared(paths):
    top, fields, inner = (collections.defaultdict(set) for _ in range(3))
    for path in paths:
        block = None
        with open(path, encoding="utf-8") as f:
            lines = f.read().split("\n")
        for line in lines:
            if not line.strip() or line.strip().startswith("--") or line.startswith("use "):
                continue
            if not line.startswith(" "):
                block = None
                m = re.match(r"((?:(?:abbrev|unfoldable|pub|data|record|ruleset)\s+)*)(" + NAME + r")\s*(.*)", line)
                if not m:
                    continue
                words, name = m.group(1).split(), m.group(2)
                if name == "module":
                    continue
                if "record" in words or "data" in words:
                    block = "record"
                    top[name].add(path)
                elif m.group(3).startswith(":"):
                    top[name].add(path)
            else:
                m = re.match(r"\s+((?:(?:abbrev|unfoldable|pub)\s+)*)(" + NAME + r")\s+:(?!=)\s", line)
                if m:
                    (fields if block else inner)[m.group(2)].add(path)
                if block:
                    for m in re.finditer(r"[{;]\s*(" + NAME + r")\s+:\s", line):
                        fields[m.group(1)].add(path)
    return top, fields, inner


def of_the_kit(paths):
    """The names that use lines bring from the kit's libraries, and those that the borrow checker makes."""
    names = set()
    own = tuple("Rattle." + p.split("/")[1] + "." for p in glob.glob("crates/*/src"))
    for path in paths + glob.glob("crates/*/src/**/*.rt", recursive=True):
        with open(path, encoding="utf-8") as f:
            for m in re.finditer(r"use ([\w.·'+-]+)\.\{([^}]*)\}", f.read()):
                if not m.group(1).startswith(own):
                    names |= {n.strip() for n in m.group(2).split(",")}
    return names


def spelled(name):
    if not re.match(r"[a-z]", name):
        return name
    name = re.sub(r"(?<=[a-z0-9])([A-Z])(?=[a-z]|$|[-_'])", lambda m: "_" + m.group(1).lower(), name)
    return re.sub(r"(?<=\w)-(?=\w)", "_", name)


def main():
    paths = files()
    top, fields, inner = declared(paths)
    kit = of_the_kit(paths)
    in_proofs = re.compile(r"crates/[^/]+/proofs/.+/Proof\.antt$")
    own = set()
    for kind in (top, fields, inner):
        for name, at in kind.items():
            # what only a proof of a function names is turned with that proof
            if kind is top and all(in_proofs.match(p) for p in at) and re.match(r"(returns|.*-(result|requires|spec|holds|again|init|preserved)(-\d+)?$)", name):
                continue
            own.add(name)
    table = {n: spelled(n) for n in sorted(own) if spelled(n) != n and n not in kit}
    # A lemma that would have the name of a definition, or of another lemma, gets _lem behind it.
    new = collections.Counter(table.values())
    for old in table:
        if "-" in old and (new[table[old]] > 1 or table[old] in top):
            table[old] += "_lem"
    table.update({n: n + "_lem" for n in TAKEN})
    if "--list" in sys.argv:
        for old, new in table.items():
            print(old, new)
        return
    pattern = re.compile(r"(?<![\w'·-])(" + "|".join(re.escape(n) for n in sorted(table, key=len, reverse=True)) + r")(?![\w'-])")
    for path in paths + sorted(glob.glob("crates/*/src/**/*.rt", recursive=True)):
        with open(path, encoding="utf-8") as f:
            text = f.read()
        aliases = re.findall(r"(?m)^use Rattle\.\w+\.(?:specs|proofs)\.\w+ as (\w+)$", text)

        def turned(m):
            name = m.group(1)
            if path.endswith(".rt") and name in TAKEN:
                return name
            if m.start() and text[m.start() - 1] == ".":
                before = re.search(r"([\w'-]+)\.$", text[: m.start()])
                if name not in fields and not (before and before.group(1) in aliases):
                    return name
            return table[name]

        out = pattern.sub(turned, text)
        if out != text:
            with open(path, "w", encoding="utf-8") as f:
                f.write(out)


main()
