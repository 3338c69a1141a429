#!/usr/bin/env python3
"""design_places.py COMMIT: lists the lines of src/ that docs/DESIGN-PASS.md counts, point by point, as they stand at a commit."""
import collections
import itertools
import re
import subprocess
import sys


def sources(commit):
    names = subprocess.check_output(["git", "ls-tree", "-r", "--name-only", commit, "--", "crates"], text=True).split()
    for name in names:
        if "/src/" in name and name.endswith(".rt") and not name.endswith("cases.rt"):
            yield name, subprocess.check_output(["git", "show", f"{commit}:{name}"], text=True)


# what is listed line by line
LINES = {
    "1a own enums": r"^\s*(pub(\(crate\))? )?enum ",
    "1b answers of a change by a bool": r"fn .*&mut self.*-> bool",
    "1c numbers for kinds, refusals and links": r"of_kind\(kind: u8\)|(kind|number)\(&self\) -> u8|\b(head|next): u32|_KIND: u8|const KIND",
    "3 loops by while, or for over a range": r"^\s*(while |for [a-z_0-9]+ in [0-9a-z_]+\.\.)",
    "4a implementations of the library's traits by hand": r"^impl.* (fmt::)?(PartialEq|Eq|PartialOrd|Ord|Clone|Copy|Default|Hash|From|TryFrom|Display|Debug)\b.* for ",
    "4b casts": r" as (u|i)(8|16|32|64|size)\b| as char\b",
    "4c comparing, converting and printing by functions": r"fn (\w*order|same_\w+|is_same|is_less|\w+_name|outcome|show|word|by_key|(print|tell)_(end|refusal|refused|left)|\w+_of_measured|measured_of_byte)\b",
    "6 fixed arrays in structs": r"^\s+(pub(\(crate\))? )?\w+: \[.*; \w+\],",
    "7 functions, closures and trait objects as values": r"\bfn\(|\bdyn |\bimpl Fn|\bFn(Mut|Once)?\(",
}


def params(signature):
    for part in re.split(r",\s*(?![^<\[(]*[>\])])", signature):
        found = re.match(r"(?:mut )?(\w+): (.*?),?$", " ".join(part.split()))
        if found and found.group(1) != "rt":
            yield found.group(1), re.sub(r"'[a-z] ", "", found.group(2))


def main():
    commit = sys.argv[1]
    clauses, together = collections.Counter(), collections.defaultdict(set)
    lines = {point: [] for point in LINES}
    for name, text in sources(commit):
        for number, line in enumerate(text.split("\n"), 1):
            for point, pattern in LINES.items():
                if re.search(pattern, line):
                    lines[point].append(f"{name}:{number}:{line.strip()}")
            found = re.match(r"\s*(requires|ensures)( \w+)? \{(.*)\}$", line)
            if found:
                clauses[f"{name.split('/')[1]}: {found.group(1)} {{{found.group(3)}}}"] += 1
        for found in re.finditer(r"\bfn (\w+)(?:<[^(]*>)?\(([^)]*)\)", text):
            for pair in itertools.combinations(sorted(set(params(found.group(2)))), 2):
                together[name.split("/")[1], pair].add(found.group(1))
    for point, found in lines.items():
        print(f"== {point}: {len(found)}", *found, sep="\n")
    often = [(n, clause) for clause, n in clauses.items() if n >= 3]
    print(f"== 5a clauses that stand three times or more in a crate: {len(often)}", *(f"{n} {c}" for n, c in sorted(often)), sep="\n")
    pairs = [(len(fs), crate, pair) for (crate, pair), fs in together.items() if len(fs) >= 3]
    print(f"== 5b pairs of parameters of three functions or more of a crate: {len(pairs)}")
    for n, crate, ((a, s), (b, t)) in sorted(pairs):
        print(f"{n} {crate}: {a}: {s}, {b}: {t}")


main()
