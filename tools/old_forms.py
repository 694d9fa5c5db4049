#!/usr/bin/env python3
"""Counts the places in src/ that read like the older language, point by point of docs/DESIGN-PASS.md.

usage: tools/old_forms.py [POINT..] [--list] [--root FOLDER]

Reads every file crates/*/src/*.rt and, for point 8, every crates/*/proofs/**/*.antt. Each row is a place to look at,
not a verdict: the page says of each what became of it. Comments, clauses and `ghost use` lines are passed over.
"""
import argparse, collections, pathlib, re

ap = argparse.ArgumentParser()
ap.add_argument("points", nargs="*", type=int)
ap.add_argument("--list", action="store_true")
ap.add_argument("--root", default=".")
o = ap.parse_args()
KEEP = set("as break const continue else enum false fn for if impl in let loop match mut pub ref return self struct "
           "true trait type use where while u8 u16 u32 u64 usize bool".split())


def code(path):
    """The lines of a file that are code, with their numbers: no comment, no clause, no ghost line."""
    rows, clause = [], 0
    for n, raw in enumerate(path.read_text().splitlines(), 1):
        line = re.sub(r"(^|\s)//.*", "", raw).rstrip()
        if clause or re.match(r"\s*(requires|ensures)\b", line):
            clause += line.count("{") - line.count("}")
            continue
        if re.match(r"\s*ghost\b", line) or not line.strip():
            continue
        rows.append((n, line))
    return rows


files = {str(p.relative_to(o.root)): code(p) for p in sorted(pathlib.Path(o.root).glob("crates/*/src/*.rt"))}


def lines(pattern, only=None):
    """A place for each line that matches."""
    return [(f, n, l.strip()) for f, rows in files.items() if not only or re.search(only, f) for n, l in rows
            if re.search(pattern, l)]


def items(word):
    """Each item that begins with this word, with its body's text."""
    found = []
    for f, rows in files.items():
        for i, (n, line) in enumerate(rows):
            m = re.match(r"\s*(?:pub(?:\(crate\))? )?(?:unsafe )?(?:extern \"C\" )?%s (\w+)" % word, line)
            if not m:
                continue
            text, depth, begun = "", 0, False
            for _, l in rows[i:]:
                text += l + "\n"
                depth += l.count("{") - l.count("}")
                begun = begun or "{" in l
                if begun and depth <= 0 or not begun and l.endswith(";"):
                    break
            found.append((f, n, m.group(1), text))
    return found


def shape(text):
    """A function's text with every name and number the same."""
    text = re.sub(r"^.*?fn \w+", "fn x", text, flags=re.S)
    text = re.sub(r"b?\"[^\"]*\"|\b\d\w*\b", "N", text)
    text = re.sub(r"\b\w+(?:::\w+)+\b", "x", text)
    return " ".join(re.sub(r"[A-Za-z_]\w*", lambda m: m.group(0) if m.group(0) in KEEP else "x", text).split())


def answers_enums():
    """Own enums of the shape of Option or Result: a variant that tells a refusal, a failure or nothing."""
    return [(f, n, "enum " + name) for f, n, name, text in items("enum")
            if re.search(r"\b(Refused|Failed|Nothing|First|Second|Neither)\b\s*[{(,\n]", text)
            and not re.search(r"Origin|Tail|Kind|Fault", name)]


def beside():
    """A flag or a number with values beside it: a struct with a field that says whether the others count."""
    return [(f, n, "struct " + name) for f, n, name, text in items("struct")
            if re.search(r"\b(told|answer|number|low|hits): ", text)]


def twins():
    """Functions and structs of one shape, two or more; counted are all members of a group."""
    groups = collections.defaultdict(list)
    for word in ("fn", "struct"):
        for f, n, name, text in items(word):
            if text.count("\n") >= 4:
                groups[shape(text)].append((f, n, name))
    rows = []
    for members in groups.values():
        if len(members) > 1:
            names = ", ".join(m[2] for m in members)
            rows += [(f, n, f"{name} (of {len(members)}: {names})"[:150]) for f, n, name in members]
    return rows


def together():
    """Parameters that travel together: a group of three or more in the heads of three or more functions."""
    heads = collections.defaultdict(list)
    for f, n, name, text in items("fn"):
        head = text.split("->")[0].split("{")[0]
        names = tuple(re.findall(r"(\w+): ", head))
        for i in range(len(names) - 2):
            heads[names[i:i + 3]].append((f, n, name))
    return [(f, n, f"{name}: {', '.join(group)}") for group, rows in heads.items() if len(rows) > 2 for f, n, name in rows]


def proofs(pattern):
    rows = []
    for p in sorted(pathlib.Path(o.root).glob("crates/*/proofs/**/*.antt")):
        for n, l in enumerate(p.read_text().splitlines(), 1):
            if re.search(pattern, l):
                rows.append((str(p.relative_to(o.root)), n, l.strip()))
    return rows


PROGRAMS = r"crates/(?!compare|compare_requests|examples|slip_examples|exported)\w+/"
KINDS = {
    1: [
        ("own enums of the shape of Option or Result", answers_enums),
        ("a flag or number with values beside it, in a struct", beside),
        ("functions that give a number, 0 for nothing", lambda: lines(r"fn \w*(fault|refuse|begin|head_fault|number_of|read_number)\w*\b.*-> u32|fn begin\(")),
        ("numbers of refusals in code", lambda: lines(r"\bnumber: \d+|Refused \{ number: u32|^number: u32,|\bnumber: u32, place|\bnumber (!=|==|<) \d|\bfirst\(\d|headers::first\($|const (ROOM|TRAY|SHAPE|VERSION|DESK|ORDER|NINTH|STRAY|TWICE|UNLISTED|LONG|SCRATCH): u32|_fault\(.*\) (!=|==) 0|number_of\(answer\) ==|^\d => (t\.len\(\)|\d|\w+_place\()") + lines(r"return \d;", r"head_tests|faults")),
        ("refusals made or met as a number and a place", lambda: lines(r"Refused \{ number(?!: u32)|Refused\s*\{$")),
        ("numbers for kinds", lambda: lines(r"match (kind|fields::get32\()|\bkind (==|!=) (\d|headers::)|\bquestion ==|\bmark ==|const \w+: u32 = headers::|\bkind: u32|\bwant: u32")),
        ("sentinels in place of None", lambda: lines(r"\bPAST\b|FOREIGN\b|const DONE|const OTHER")),
    ],
    2: [("functions and structs of one shape", twins)],
    3: [
        ("loops that count by hand", lambda: lines(r"^\s*while ")),
        ("`loop` with a step in it", lambda: lines(r"^\s*loop \{")),
    ],
    4: [
        ("conversions and printing by hand", lambda: lines(r"fn (wide\d+|bit|bits|of_message|of_overload|of_statistic|no_\w+|numbers|put_line|decimal|hex|glyph|same|lesser)\b|impl .* for ")),
    ],
    5: [("parameters that travel together", together)],
    6: [
        ("a buffer and a place in it, a place handed on", lambda: lines(r"fn .*(out: &mut \[u8\], (end|at|from|used): usize|\bout: &mut \[u\w+\], at)")),
        ("a slice and a place in it", lambda: lines(r"fn \w+.*\b(s|b|o|t|log): &\[u8\], (at|head|from|start)\b")),
        ("arrays beside arrays", lambda: lines(r"ids: &\[u32\]|numbers: &mut \[u64\]|places: \[Place")),
    ],
    7: [("switches on which step to run", lambda: lines(r"^\s*match (kind|question|fields::get32\()|if (question|kind) == "))],
    8: [
        ("lines of answers", lambda: proofs(r"^pub [\w-]+ : goal\.")),
        ("answers by search, grind, omega or cc alone", lambda: proofs(r"^[\w-]+ [cgl] = (search|grind|omega|cc)\b")),
        ("names of Rattle's own making", lambda: proofs(r"\bc\.in-\w+-own\b|in_default-own")),
        ("own lemmas of the library's", lambda: proofs(r"^(pub )?(or_true|and_false|or_false|and_true|not_not|eqb_refl|leb_refl) :")),
    ],
}
for point, kinds in KINDS.items():
    if o.points and point not in o.points:
        continue
    for name, find in kinds:
        rows = find()
        print(f"{point} {len(rows):5} {name}")
        if o.list:
            for f, n, text in rows:
                print(f"          {f}:{n}: {text}")
