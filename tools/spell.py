#!/usr/bin/env python3
"""Brings the names of this repository's own definitions and lemmas to the spelling of today's Rattle. It was run once, when the
repository moved to rattle-kit-13f, right after the kit's port.py; it is kept so that the move can be made again and compared.

usage: python3 tools/spell.py [--list]      at the top of the repository; --list prints the new names and writes nothing

spell.names beside it has the names as they were made that day, so that the same names come out in any older checkout.

A definition or lemma in camel case becomes snake case (inHalf, in_half). A dash stays where it joins two names of definitions
(part-put), and is an underscore elsewhere (flag-below, flag_below). A word whose value is a type begins with a capital. Names from
Rattle source, and names that Rattle makes, keep their spelling. It reads crates/ (.rt, .antt, .edit), and turns names in
backquotes in README.md and docs/.
"""
import os
import re
import sys

ROOT = os.getcwd()
WORD = r"[^\W\d][\w'₀-₉-]*"
STD = set("""length take drop append replicate reverse map sum get_or set lookup slice_index filter zip concat mod div add mul sub
suc zero not and or max min pow count take_while""".split())


def files(*ends):
    for top in ("crates",):
        for d, dirs, fs in os.walk(os.path.join(ROOT, top)):
            dirs[:] = sorted(x for x in dirs if x not in ("out", ".git"))
            for f in sorted(fs):
                if f.endswith(ends):
                    yield os.path.join(d, f)


def defined():
    """Names that stand before a colon at the head of a declaration, with whether a definition (abbrev, unfoldable) has them."""
    names, types = {}, set()
    for p in files(".antt"):
        with open(p, encoding="utf-8") as it:
            lines = it.readlines()
        for i, l in enumerate(lines):
            m = re.match(r"^\s*((?:abbrev |unfoldable |pub )*)(" + WORD + r")\s+:\s*(.*)$", l)
            if not m or l.lstrip().startswith("--"):
                continue
            mods, n, rest = m.groups()
            if re.match(r"(tie|goal)\.", rest) or n in ("record", "data", "module"):
                continue
            is_def = "abbrev" in mods or "unfoldable" in mods
            names[n] = names.get(n, False) or is_def
            if is_def and re.search(r"(^|→ )Type 0\s*$", rest):
                types.add(n)
    return names, types


def snake(n):
    n = re.sub(r"([a-z0-9])([A-Z])", lambda m: m[1] + "_" + m[2].lower(), n)
    return n


def new_names():
    names, types = defined()
    out = {}
    first = {}
    for n in names:
        m = n
        if n[0].islower():
            parts = [snake(p) if p[0:1].islower() else p for p in n.split("-")]
            first[n] = parts
    known = STD | {"-".join(ps) for n, ps in first.items() if names[n] and len(ps) == 1}
    for n, parts in first.items():
        m = parts[0]
        for a, b in zip(parts, parts[1:]):
            m += ("-" if a in known and b in known else "_") + b
        if n in types:
            m = "".join(x[:1].upper() + x[1:] for x in m.split("_"))
            m = "Is" + m if m.startswith("Of") else m
        if m != n:
            out[n] = m
    return out, names


TOKEN = re.compile(r"(?<![\w'₀-₉-])" + WORD)


def turn(text, names, source):
    """The text with the new names. A name without capitals and dashes may be a function's in src/, and is turned only in proofs and
    specs, and there not in a path."""

    def one(m):
        n = m[0]
        if n not in names:
            return n
        if re.fullmatch(r"[a-z0-9_]+", n) and (source or text[m.end() : m.end() + 1] == "." or text[m.start() - 1 : m.start()] == "."):
            return n
        return names[n]

    return TOKEN.sub(one, text)


def settled():
    """The new names. A lemma that would have a definition's name gets `_lem`, as the guide says; so does one that had it already."""
    names, defs = new_names()
    everyone = set(defs)
    whose = {}
    for n in everyone:
        whose.setdefault(names.get(n, n), []).append(n)
    for m, ns in sorted(whose.items()):
        if len(ns) < 2:
            continue
        first = [n for n in ns if defs[n]]
        if len(first) > 1:
            print("two definitions:", ns, m)
        for n in ns:
            if not defs[n]:
                names[n] = m + "_lem"
    return names


def foreign(text):
    """The names that a file takes from std and the logic: they keep their spelling there."""
    out = set()
    for m in re.finditer(r"(?m)^\s*(?:ghost )?use (\S+?)\.\{([^}]*)\}", text):
        if not m[1].startswith("Rattle.") or m[1].startswith("Rattle.std."):
            out |= {x.split(" as ")[0].strip() for x in m[2].split(",")}
    return out


def main():
    kept = os.path.join(os.path.dirname(os.path.realpath(__file__)), "spell.names")
    if os.path.isfile(kept):
        with open(kept, encoding="utf-8") as it:
            names = dict(l.split() for l in it)
    else:
        names = settled()
    listing = "--list" in sys.argv
    if listing:
        for n, m in sorted(names.items()):
            print(n, m)
    found = 0
    for p in files(".antt", ".rt", ".edit"):
        with open(p, encoding="utf-8") as it:
            text = it.read()
        plain = "\n".join(l for l in re.sub(r"\.\w+\.(Tie|Statement|Lts)", "", text).splitlines() if not l.lstrip().startswith(("--", "//")))
        have = set(TOKEN.findall(plain))
        for n in sorted(have & set(names)):
            m = names[n]
            if m not in have or m in names:
                continue
            if p.endswith(".antt") or re.search(r"\b(let (mut )?|[(,] ?(mut )?)" + re.escape(m) + r"\b\s*[:=]", plain):
                print(f"stands already: {m} for {n} in {os.path.relpath(p, ROOT)}")
                found += 1
        if not listing:
            std = foreign(text)
            new = turn(text, {n: m for n, m in names.items() if n not in std}, p.endswith(".rt"))
            if new != text:
                with open(p, "w", encoding="utf-8") as it:
                    it.write(new)
    if not listing:
        docs = [os.path.join(ROOT, "README.md")]
        for d, _, fs in os.walk(os.path.join(ROOT, "docs")):
            docs += [os.path.join(d, f) for f in sorted(fs) if f.endswith(".md") and f != "PORT.md"]
        for p in docs:
            with open(p, encoding="utf-8") as it:
                text = it.read()
            new = re.sub(r"`[^`\n]*`", lambda m: turn(m[0], names, True), text)
            if new != text:
                with open(p, "w", encoding="utf-8") as it:
                    it.write(new)
    print(f"{len(names)} names; {found} places to look at")


main()
