#!/usr/bin/env python3
"""Brings the repository's own definitions and lemmas to today's spelling, after the toolchain's own port.py: words in snake case, types in camel case.

usage: python3 tools/respell.py        at the top of the repository, once

In specs/ and proofs/, and in the ghost parts of src/, each name with a hyphen that no library declares is respelled:
`value-is` becomes `value_is`, `Law-of-runs` becomes `LawOfRuns`. Comments, strings and the code of src/ stay as they are.
What the check itself names, the goals and steps that answers and invariants speak of, keeps its hyphens.
Two names of one file that would fall together are reported.
"""

import os
import re

# A name as antt has it; a hyphen or a prime stands inside it.
NAME = re.compile(r"[A-Za-z_⊎][\w'→↔⊎]*(?:-[\w'→↔⊎]+)*")
# Names that would fall together with a library's, and names in another case than snake case.
OTHERWISE = {
    "bit-or": "bit_of_or",
    "bit-and": "bit_of_and",
    "someOf": "some_of",
    "allOf": "all_of",
    "getD-padded": "padded_at",
    "part-getD": "part_at",
    # a function of src/ has the plain name
    "merge-cell": "merged_cell",
    "has-row": "row_inside",
    "inner-label": "translated_label",
    "hex-digit": "digit_in_hex",
}
# Where port.py has left a library's name as if it were the repository's own.
LIBRARY = {"crates/measures/specs/Automata.antt": {"bit-or": "bit_or"}}


def respelled(name):
    if name in OTHERWISE:
        return OTHERWISE[name]
    if "-" not in name:
        return name
    if name[0].isupper():
        return "".join(part[0].upper() + part[1:] for part in name.split("-"))
    return name.replace("-", "_")


def imports(text, crates):
    """The names that the file brings in from libraries."""
    found = set()
    for path, names in re.findall(r"^\s*(?:pub )?(?:ghost )?use ([^\s{;]+?)\.?\{([^}]*)\}", text, re.M):
        if not re.match(r"Rattle\.(%s)\." % "|".join(crates), path):
            for it in names.split(","):
                found.update(it.split(" as ")[:1])
    return {it.strip() for it in found}


def of_a_function(path):
    """Whether the file answers the goals of a function: it stands in a folder of proofs/."""
    return re.match(r"crates/\w+/proofs/.*/\w+\.antt", path)


def declared():
    """The names that the specs and the lemma files declare."""
    found = set()
    for path in files((".antt",)):
        if not of_a_function(path):
            with open(path, encoding="utf-8") as file:
                for line in file:
                    m = re.match(r"\s*(?:(?:pub|abbrev|record|data)\s+)*((?:%s\s+)+)[:({]" % NAME.pattern, line)
                    if m:
                        found.update(m.group(1).split())
    return found


def turned(path, text, crates, own):
    kept = imports(text, crates)
    if of_a_function(path):
        kept |= {it for it in NAME.findall(text) if it not in own}
    here = LIBRARY.get(path, {})
    seen = {}

    def one(m):
        old = m.group(0)
        new = here.get(old) or (old if old in kept else respelled(old))
        seen.setdefault(new, set()).add(old)
        return new

    lines = []
    for line in text.split("\n"):
        mark = "//" if path.endswith(".rt") else "--"
        cut = re.search(r"(?:^|\s)" + mark + r"(?:\s|$)", line)
        code, comment = (line[: cut.start()], line[cut.start():]) if cut else (line, "")
        parts = re.split(r'("(?:[^"\\]|\\.)*")', code)
        parts[::2] = [NAME.sub(one, part) for part in parts[::2]]
        lines.append("".join(parts) + comment)
    for new, olds in seen.items():
        if len(olds) > 1:
            print(f"{path}: {sorted(olds)} fall together as {new}")
    return "\n".join(lines)


def files(endings):
    for folder, dirs, names in os.walk("crates"):
        dirs[:] = sorted(d for d in dirs if d != "out")
        for name in sorted(names):
            if name.endswith(endings):
                yield os.path.join(folder, name)


def main():
    crates = sorted(os.listdir("crates"))
    own = declared()
    for path in files((".rt", ".antt")):
        with open(path, encoding="utf-8") as file:
            text = file.read()
        new = turned(path, text, crates, own)
        if new != text:
            with open(path, "w", encoding="utf-8") as file:
                file.write(new)


main()
