#!/usr/bin/env python3
"""Respells the pages as tools/respell.py respelt the crates: README.md, the pages of docs/ and docs/src/README.md.

usage: tools/respell_pages.py [--dry | --check]     at the top of the repository

A name is respelt only between backticks, where the last commit in the old form (LANDED) had a definition or lemma of
that name. Fenced blocks and docs/changes, which is history, stay as they are. --check names each word between
backticks that looks like a definition's or a lemma's (it has a `_`) and stands nowhere in the crates, scripts or pages
that it could be of; it changes nothing.
"""
import glob
import io
import os
import re
import subprocess
import sys
import tarfile
import tempfile

sys.dont_write_bytecode = True
import respell

LANDED = "270bd323ffc5f3f0d085cbedd3960e772842b96d"
PAGES = ["README.md", *sorted(glob.glob("docs/*.md")), "docs/src/README.md"]
FENCED = re.compile(r"(^```.*?^```$)", re.S | re.M)
QUOTED = re.compile(r"(`[^`]+`)")


def quoted(text, turn):
    """The text with `turn` applied to each part that stands between backticks, outside of fenced blocks."""
    blocks = FENCED.split(text)
    for i in range(0, len(blocks), 2):
        parts = QUOTED.split(blocks[i])
        parts[1::2] = [turn(part) for part in parts[1::2]]
        blocks[i] = "".join(parts)
    return "".join(blocks)


def respelt(dry):
    made = subprocess.run(["git", "archive", LANDED, "crates"], check=True, capture_output=True).stdout
    with tempfile.TemporaryDirectory() as room:
        tarfile.open(fileobj=io.BytesIO(made)).extractall(room, filter="data")
        names = respell.table(room)
    turn = lambda part: respell.TOKEN.sub(lambda m: names.get(m.group(0), m.group(0)), part)
    count = sum(respell.rewrite(page, lambda text: quoted(text, turn), dry) for page in PAGES)
    print(f"respelt {count} pages by {len(names)} names")


def unknown():
    """The words with a `_` between backticks that no crate, script or header has."""
    sources = [respell.read(p) for p in respell.every(".")]
    listed = subprocess.run(["git", "ls-files"], check=True, capture_output=True, text=True).stdout.split("\n")
    sources += [respell.read(p) for p in listed if p.endswith((".h", ".c", ".py", "crates.txt")) or p.startswith(("tests/", "docs/src/"))]
    have = {word for text in sources for word in re.findall(r"[\w']+", text)} | set(os.listdir("crates"))
    have |= {os.path.splitext(os.path.basename(p))[0] for p in listed}
    lost = 0
    for page in PAGES:

        def look(part):
            nonlocal lost
            for word in re.findall(r"[A-Za-z_][\w']*", part):
                # `.._message` and `read_X` stand for many
                if "_" in word and not word.startswith("_") and "X" not in word.split("_") and word not in have:
                    lost += 1
                    print(f"{page}: {part}: {word}")
            return part

        quoted(respell.read(page), look)
    print(f"{lost} words that nothing has")


if __name__ == "__main__":
    unknown() if "--check" in sys.argv else respelt("--dry" in sys.argv)
