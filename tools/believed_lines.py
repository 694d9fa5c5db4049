#!/usr/bin/env python3
"""Counts the lines of the files that docs/TRUST.md asks a reader to believe, and writes them into its tables and its
first paragraph: without `use` lines and empty ones, the same without comments, and in all.

usage: tools/believed_lines.py      at the top of the repository
"""
import re

PAGE = "docs/TRUST.md"
ROW = re.compile(r"^\| (\w+/specs/\w+) \| [\d,]+ \| [\d,]+ \|", re.M)


def counted(path):
    """Lines without `use` lines and empty ones, how many of them are code, and lines in all."""
    with open(path, encoding="utf-8") as f:
        lines = f.read().splitlines()
    kept, in_use = [], False
    for line in map(str.strip, lines):
        if in_use or re.match(r"(pub )?use\b", line):
            in_use = "}" not in line if in_use or "{" in line else False
        elif line:
            kept.append(line)
    return len(kept), sum(not line.startswith("--") for line in kept), len(lines)


with open(PAGE, encoding="utf-8") as f:
    page = f.read()
sums = {name: counted(f"crates/{name}.antt") for name in ROW.findall(page)}
page = ROW.sub(lambda m: "| {} | {} | {} |".format(m[1], sums[m[1]][0], sums[m[1]][2]), page)
kept, code, every = (sum(each) for each in zip(*sums.values()))
head = re.compile(r"[\d,]+(\s+files below `crates/`,\s+)[\d,]+(\s+lines without `use` lines and empty ones,\s+)[\d,]+(\s+of them without\s+comments\s+\()[\d,]+(\s+in\s+all\))")
page, found = head.subn(rf"{len(sums):,}\g<1>{kept:,}\g<2>{code:,}\g<3>{every:,}\g<4>", page)
if found != 1:
    raise SystemExit(f"{PAGE}: its first paragraph has no such count")
with open(PAGE, "w", encoding="utf-8") as f:
    f.write(page)
print(f"{len(sums)} files, {kept:,} lines, {code:,} without comments, {every:,} in all")
