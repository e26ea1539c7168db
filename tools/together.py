#!/usr/bin/env python3
"""Lists the parameters (by name) that stand together in three or more functions of crates/*/src. Run at the top of a checkout."""
import collections
import glob
import itertools
import re

functions = []
for path in sorted(glob.glob("crates/*/src/**/*.rt", recursive=True)):
    text = open(path).read()
    for match in re.finditer(r"fn (\w+)(<[^>(]*>)?\(([^)]*(?:\([^)]*\)[^)]*)*)\)", text):
        parts = [part.strip() for part in re.split(r",(?![^<]*>)", match.group(3)) if ":" in part]
        names = [part.split(":")[0].replace("mut ", "").strip() for part in parts]
        functions.append((path[len("crates/"):], match.group(1), names))

where = collections.defaultdict(list)
for path, name, names in functions:
    for size in range(2, len(names) + 1):
        for group in itertools.combinations(sorted(names), size):
            where[group].append(f"{path}: {name}")

often = {group: places for group, places in where.items() if len(places) >= 3}
for group, places in sorted(often.items(), key=lambda item: (-len(item[0]), -len(item[1]), item[0])):
    if not any(set(group) < set(other) and len(often[other]) == len(places) for other in often):
        print(len(places), ", ".join(group), places)
