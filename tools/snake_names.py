#!/usr/bin/env python3
"""Brings the repository's own definitions and lemmas to the spelling of today's Rattle.

usage: python3 tools/snake_names.py        at the top of the repository, once, after port.py

Definitions, lemmas, fields and constructors of specs/ and proofs/ with a dash in their name go to snake case
(`row-width` to `row_width`), and so do the names that a `ghost use` gives them; types go to camel case (`Refused-at`
to `RefusedAt`). Names that Rattle makes (goals, steps of a proof) and names of src/ stay as they are. Files under
must-fail/ are turned where they cite a name. The library's `AllByRecursion` is written out where an import calls it
`All`, which is another word today. Prints each name, and refuses to write where two would fall together in one crate.
"""

import glob
import re
import sys

NAME = r"[A-Za-z0-9_'\u2080-\u209cα-ωΑ-Ω\u2115\u2124-]+"
TOKEN = re.compile(r"(?<![A-Za-z0-9_'α-ωΑ-Ωℕℤ◌-])" + r"[A-Za-zα-ω][A-Za-z0-9_'α-ωΑ-Ωℕℤ₀-₉-]*")
ALIAS = re.compile(r" as ([a-z]+(?:-[a-z]+)+|[a-z_]+_lem)[,}]")
ALL = re.compile(r"(?<![A-Za-z0-9_'.-])All(?![A-Za-z0-9_'-])")
DECLARED = re.compile(
    r"(?m)^[ ]*(?P<words>(?:(?:abbrev|pub|unfoldable|data|record|opaque|constructor|\|)\s+)*)"
    r"(?P<name>" + NAME + r")\s*(?:\([^()]*(?:\([^()]*\)[^()]*)*\)\s*|\{[^}]*\}\s*)*:(?!:)\s*(?=(?P<type>[^\n]*(?:\n[ ]+[^\n]*)*))")


def sources():
    for p in sorted(glob.glob("crates/*/specs/**/*.antt", recursive=True) + glob.glob("crates/*/proofs/**/*.antt", recursive=True)):
        yield p, open(p, encoding="utf-8").read()


def is_type(words, kind):
    return "record" in words or "data" in words or re.search(r"(^|→\s*)Type\b[^→]*$", kind.split("\n\n")[0].strip()) is not None


def declared():
    names, types = {}, set()
    for p, text in sources():
        for m in DECLARED.finditer(text):
            name, kind = m["name"], m["type"]
            if "-" not in name.strip("-") or kind.strip().startswith(("goal.", "the_goal.")):
                continue
            names.setdefault(name, set()).add(p)
            if name[0].isupper() and is_type(m["words"], kind):
                types.add(name)
    for p in glob.glob("crates/*/src/**/*.rt", recursive=True):
        for name in ALIAS.findall(open(p, encoding="utf-8").read()):
            names.setdefault(name, set()).add(p)
    return names, types


def respelled(name, types):
    if name in types:
        return "".join(part[:1].upper() + part[1:] for part in name.split("-"))
    return name.replace("-", "_").removesuffix("_lem")


def main():
    names, types = declared()
    new = {n: respelled(n, types) for n in names}
    used = {}
    for p, text in sources():
        own = re.sub(r"(?m)^use \S+\.(Goals|Given)\b.*$", "", text)  # a function's goals stand in a module of its name
        used.setdefault(p.split("/")[1], set()).update(TOKEN.findall(own))
    clash = [(n, new[n]) for n in sorted(new) for p in names[n] if new[n] in used[p.split("/")[1]]]
    back = {}
    for n, to in new.items():
        back.setdefault(to, []).append(n)
    clash += [(a, to) for to, many in back.items() if len(many) > 1 for a in many]
    for n in sorted(new):
        print(f"{n} -> {new[n]}")
    if clash:
        print("fall together: " + ", ".join(f"{a} -> {b}" for a, b in sorted(set(clash))), file=sys.stderr)
        return 1

    def turn(m):
        return new.get(m[0], m[0])

    files = [p for p, _ in sources()] + glob.glob("crates/*/src/**/*.rt", recursive=True) + glob.glob("crates/*/must-fail/*.edit")
    for p in files:
        text = open(p, encoding="utf-8").read()
        turned = TOKEN.sub(turn, text)
        if "AllByRecursion as All" in turned:
            turned = ALL.sub("AllByRecursion", turned.replace("AllByRecursion as All", "AllByRecursion"))
        if turned != text:
            open(p, "w", encoding="utf-8").write(turned)
    return 0


if __name__ == "__main__":
    raise SystemExit(main())
