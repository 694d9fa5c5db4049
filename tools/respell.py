#!/usr/bin/env python3
"""Respells the repository's own definitions and lemmas as today's Rattle spells them: words in snake case.

usage: tools/respell.py [--dry]     at the top of the repository, once, right after port.py

A name is the repository's own where a file of specs/ or of proofs/ (not of a function's folder there) gives it a
signature. `lineOf` and `line-exact` become `line_of` and `line_exact`; types and modules keep their names, and so do
functions of src/, strings and what Rattle generates. In comments only what stands in backticks is respelt. A name that
would fall together with another is printed, and KEPT gives it another ending.

It ran once, and stands as it ran, but that its table and the writing of a file are functions now, for respell_pages.py.
Its look for names that std has too found none, by a mistake in `outside`: the four that there were, `or-true`,
`and-false` and two lemmas of lin, were mended by hand (docs/PORT.md).
"""
import os
import re
import sys

ID = r"[A-Za-z_][\w'₀-₉-]*"
SIG = re.compile(r"^(\s*)((?:unfoldable |abbrev |pub |opaque )*)(" + ID + r"(?: " + ID + r")*) :(?=\s|$)")
TOKEN = re.compile(r"(?<![\w'₀-₉.·-])" + ID + r"|(?<=\.)" + ID)
# names that would fall together with another name, and what they are called instead
KEPT = {
    "all-zero": "all_zeros",
    "allRight": "each_right",
    "at-end": "is_at_end",
    "bytes-in": "bytes_in_are",
    "desk-in": "desk_in_is",
    "entries-in": "entries_in_are",
    "entry-at": "entry_at_is",
    "foreign-fault": "foreign_fault_is",
    "frame-bytes": "frame_bytes_are",
    "head-end": "head_end_is",
    "is-first": "is_first_header",
    "is-second": "is_second_header",
    "item-here": "item_here_is",
    "lastLine": "final_line",
    "length-by": "length_by_is",
    "listed-fault": "listed_fault_is",
    "met-up-to": "met_up_to_is",
    "no_Header": "no_header",
    "no-frame": "no_frame_at",
    "in-turn": "in_turn_is",
    "object_of": "object_is_of",
    "other-size": "other_size_none",
    "padded-size": "padded_size_is",
    "possible-time": "possible_time_exact",
    "slip-length": "slip_length_is",
    "step-over": "steps_over",
    "tooLong": "too_long_text",
    "trouble-first": "trouble_is_first",
    "twice-first": "twice_is_first",
    "version-by": "version_by_is",
}


def snake(name):
    out = re.sub(r"(?<=[a-z0-9'])([A-Z])", lambda m: "_" + m.group(1).lower(), name)
    return out.replace("-", "_")


def own(root):
    for crate in sorted(os.listdir(os.path.join(root, "crates"))):
        for folder in ("specs", "proofs"):
            at = os.path.join(root, "crates", crate, folder)
            if not os.path.isdir(at):
                continue
            for here, dirs, files in os.walk(at):
                dirs.sort()
                # a function's folder, or a module's, is in lower case
                if folder == "proofs" and any(not part[0].isupper() for part in os.path.relpath(here, at).split("/") if part != "."):
                    continue
                for f in sorted(files):
                    if f.endswith(".antt"):
                        yield os.path.join(here, f)


def every(root):
    for here, dirs, files in os.walk(os.path.join(root, "crates")):
        dirs[:] = sorted(d for d in dirs if d not in ("out", "data"))
        for f in sorted(files):
            if f.endswith((".antt", ".rt")):
                yield os.path.join(here, f)


def read(path):
    with open(path, encoding="utf-8") as f:
        return f.read()


def rewrite(path, turn, dry):
    """Writes what `turn` makes of a file, unless that is what it has; says whether it is another."""
    old = read(path)
    new = turn(old)
    if new != old and not dry:
        with open(path, "w", encoding="utf-8") as f:
            f.write(new)
    return new != old


def outside(text):
    """The names that a file brings in from elsewhere than the repository's own crates."""
    for m in re.finditer(r"\buse ([\w.·'-]+)(?:\.\{([^}]*)\})?", text):
        if m.group(2) and (not m.group(1).startswith("Rattle.") or m.group(1).startswith("Rattle.std")):
            for n in m.group(2).split(","):
                yield n.strip().split(" as ")[-1]


def code_parts(line, mark):
    """Splits a line into code and comment."""
    quoted = False
    for i, ch in enumerate(line):
        if ch == '"' and (i == 0 or line[i - 1] != "\\"):
            quoted = not quoted
        if not quoted and line.startswith(mark, i):
            return line[:i], line[i:]
    return line, ""


def table(root):
    """The repository's own names below root and what each is called now."""
    names, foreign, lower = {}, set(), set()
    for p in every(root):
        foreign |= set(outside(read(p)))
    for p in own(root):
        for line in read(p).split("\n"):
            code, _ = code_parts(line, "--")
            m = SIG.match(code)
            if not m:
                continue
            for n in m.group(3).split():
                lower.add(n)
                if n in KEPT or n[0].islower() and snake(n) != n:
                    names.setdefault(n, set()).add(p)
    for p in every(root):
        if p.endswith("/Proof.antt"):
            for m in re.finditer(r"^pub (\S+-spec) :", read(p), re.M):
                names.setdefault(m.group(1), set()).add(p)
    turned = {}
    back = {}
    for n in sorted(names):
        new = KEPT.get(n, snake(n))
        if n in foreign:
            print("std has it too, kept:", n, sorted(names[n])[:2])
            continue
        if new in foreign or new in lower and new not in KEPT or new in back:
            print("falls together:", n, "->", new, "(std)" if new in foreign else "", sorted(names[n])[:2], back.get(new))
        back[new] = n
        turned[n] = new
    return turned


def main():
    root = "."
    dry = "--dry" in sys.argv
    turned = table(root)

    def turn(m):
        return turned.get(m.group(0), m.group(0))

    def turn_code(code):
        parts = re.split(r'("(?:[^"\\]|\\.)*")', code)
        return "".join(p if i % 2 else TOKEN.sub(turn, p) for i, p in enumerate(parts))

    def turn_comment(text):
        parts = re.split(r"(`[^`]*`)", text)
        return "".join(TOKEN.sub(turn, p) if i % 2 else p for i, p in enumerate(parts))

    def turn_text(text, mark):
        parts = (code_parts(line, mark) for line in text.split("\n"))
        return "\n".join(turn_code(code) + turn_comment(comment) for code, comment in parts)

    count = 0
    for p in every(root):
        mark = "--" if p.endswith(".antt") else "//"
        count += rewrite(p, lambda text, mark=mark: turn_text(text, mark), dry)
    print(f"respelt {len(turned)} names in {count} files")


if __name__ == "__main__":
    main()
