#!/usr/bin/env python3
"""Respells the definitions and lemmas of this repository as today's Rattle spells them.

usage: python3 tools/respell.py [--list]      at the top of the repository, once, after the kit's own port.py

Words are in snake case and types in camel case. A dash joins two names, as in length-append; any other word is joined
by an underscore, as in add_comm. Names of src/ keep their spelling: only what specs/ and proofs/ define, and the ghost
members of traits, are respelled. --list prints what would change and writes nothing. Names that would fall together
stop the script before anything is written.
"""

import os
import re
import sys

WORD = r"[A-Za-z0-9_'\u2192\u25cc-]+"
TOKEN = re.compile(r"[A-Za-z0-9_'\u2192\u25cc]+(?:-[A-Za-z0-9_'\u2192\u25cc]+)*")
DEFINED = re.compile(rf"^\s*(?:abbrev |unfoldable |pub |data |record )*((?:{WORD} )*{WORD}) :(?: |$)")
MEMBER = re.compile(r"^\s*(?:pub )?ghost ([A-Za-z_][A-Za-z0-9_]*)\s*[:=]")
ALIAS = re.compile(r"\bas ([a-z]+[A-Z][A-Za-z]*)")
GENERATED = re.compile(r"^(returns|loop|invariant|overflow|decreases|bounds|slice_bounds|unreachable|nonzero|ghost|prove)\b|-requires|-preserved|-init$|-smaller|segments-")
# Names of the library that the lemmas of this repository speak of.
LIBRARY = set("length take drop map append filter replicate set insert remove lookup reverse min max sum zero suc nil cons cond and_then option_map get_or slice_index slice_range string_bytes put_mid".split())
# Names that the crates of the logs define: listed, so that the landed crates come out the same without those.
LIBRARY |= set("both first is last less one page rest small still".split())
# Names that would fall together with another, of the library or of the repository.
CHOSEN = {"stringBytes": "str_bytes", "take-removed": "take-remove", "take_inserted": "take-insert"}
BY_CRATE = {"worked": {"empty_leaf": "empty_leaf_lem"}}


def files(root):
    for folder, dirs, names in os.walk(os.path.join(root, "crates")):
        dirs[:] = sorted(d for d in dirs if d != "out")
        for n in sorted(names):
            if n.endswith((".rt", ".antt", ".edit")):
                yield os.path.join(folder, n)


def read(path):
    with open(path, encoding="utf-8") as f:
        return f.read()


def snake(word):
    return re.sub(r"(?<=[a-z0-9])[A-Z]", lambda m: "_" + m.group(0).lower(), word)


def defined(root):
    """The names that specs/ and proofs/ define, and the facts among them."""
    names, facts = set(), set()
    for path in files(root):
        text = read(path)
        if path.endswith(".rt"):
            names |= {m.group(1) for m in map(MEMBER.match, text.splitlines()) if m}
        if not path.endswith(".antt"):
            continue
        names |= set(ALIAS.findall(text))
        for line in text.splitlines():
            m = DEFINED.match(line)
            for name in m.group(1).split() if m else ():
                if name in ("let", "where", "in", "of") or GENERATED.search(name):
                    continue
                (facts if name[0].isupper() else names).add(name)
    return names, facts


def respelled(name, words, facts):
    """The name as today's Rattle spells it."""
    if name in CHOSEN:
        return CHOSEN[name]
    out, named = "", True
    for k, part in enumerate(name.split("-")):
        this = snake(part)
        this_named = this in words
        if k == 0 and not this_named and part.capitalize() in facts and "-" in name:
            this, this_named = part.capitalize(), True
        out = this if k == 0 else out + ("-" if named and this_named else "_") + this
        named = this_named
    return out


def main():
    root = os.getcwd()
    names, facts = defined(root)
    words = LIBRARY | {snake(n) for n in names if "-" not in n}
    table = {}
    for name in sorted(names):
        new = respelled(name, words, facts)
        if new != name:
            table[name] = new
    kept = names - set(table)
    apart = {o for c in BY_CRATE.values() for o in c}
    fallen = [(o, n) for o, n in table.items() if n in kept - apart or n in facts]
    twice = {n for n in table.values() if list(table.values()).count(n) > 1}
    if "--list" in sys.argv:
        for old, new in table.items():
            print(old, new)
    if fallen or twice:
        print("names that fall together:", fallen, twice, file=sys.stderr)
        raise SystemExit(1)
    if "--list" in sys.argv:
        return

    changed = 0
    for path in files(root):
        crate = os.path.relpath(path, os.path.join(root, "crates")).split(os.sep)[0]
        here = table | BY_CRATE.get(crate, {})

        def turn(m):
            step = "-" in m.group(0) and re.search(r"\b[cw]\.$", m.string[max(0, m.start() - 2) : m.start()])
            return m.group(0) if step else here.get(m.group(0), m.group(0))

        old = read(path)
        new = "".join(
            line if path.endswith(".rt") and re.match(r"\s*//", line) else TOKEN.sub(turn, line)
            for line in old.splitlines(keepends=True)
        )
        if new != old:
            with open(path, "w", encoding="utf-8") as f:
                f.write(new)
            changed += 1
    print(f"respell: {len(table)} names in {changed} files")


main()
