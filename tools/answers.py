#!/usr/bin/env python3
"""Turns the proofs of a crate from the older form, a Proof.antt over `tie`, to Invariants.antt and Answers.antt.

usage: tools/answers.py CRATE [FUNCTION..]     at the top of the repository; run in a crate whose sources compile

It asks `rt check --generated FOLDER --old-names` for the old and the new name of each goal and of each step. What it
cannot turn it prints: that is for a reader. Goals that were answered by `search rules` get no answer: the check tries
them by itself.
"""
import json
import os
import re
import subprocess
import sys
import tempfile

W = r"[A-Za-z_₀-₉'][\w₀-₉'-]*"


def alike(it):
    return re.sub(r"[-_]", "", it).lower()


def blocks(text):
    """Top-level pieces: a comment run sticks to what follows it."""
    pieces, now = [], []
    for line in text.split("\n"):
        begins = bool(line) and not line[0].isspace()
        if begins and now and not all(l.startswith("--") for l in now if l.strip()):
            pieces.append("\n".join(now).rstrip())
            now = []
        now.append(line)
    if any(l.strip() for l in now):
        pieces.append("\n".join(now).rstrip())
    return pieces


def split_args(text):
    """The arguments of an application: words, and what stands in parentheses."""
    out, depth, now = [], 0, ""
    for ch in text:
        if ch in "([{":
            depth += 1
        if ch in ")]}":
            depth -= 1
            if depth < 0:
                break
        if ch.isspace() and depth == 0:
            if now:
                out.append(now)
            now = ""
        else:
            now += ch
    if now:
        out.append(now)
    return out


class Function:
    def __init__(self, crate, folder, names):
        self.crate, self.folder = crate, folder
        self.path = os.path.relpath(folder, f"crates/{crate}/proofs").replace("/", ".")
        self.names = names
        self.said = []
        self.labels = {}
        for place in names["places"]:
            old, new = place[2]
            if old:
                self.labels.setdefault(old, new)
                self.labels.setdefault(alike(old), new)
        self.needs = {}
        for old, new in names["needs"]:
            self.needs.setdefault(alike(old), new)
            self.needs.setdefault(alike("overflow" + old), new)
            self.needs.setdefault(alike(re.sub("^part-", "slice-bounds-", old)), new)
        for old, new in names["needs"]:
            self.needs.setdefault(alike(new), new)
        self.places = {new: at[0] for (old, new), at in zip(names["needs"], names["asked_at"])}
        self.loops = [(l[0][0], l[0][1], l[1], ch) for l, ch in zip(names["loops"], names["changed"])]
        self.news = {new for place in names["places"] for new in [place[2][1]]}

    def at(self, place):
        """What the steps are called at a place, and what an arm's facts are called there."""
        at = {p[0]: k for k, p in enumerate(self.names["places"])}
        if place not in at:
            new = self.names.get("places_by_name", [])
            if place not in new:
                return self.labels, []
            k = new.index(place)
        else:
            k = at[place]
        labels, paths = {}, []
        while True:
            old, new = self.names["places"][k][2]
            arm = self.names["arms"][k] if k < len(self.names["arms"]) else None
            if arm:
                for field, label, path in arm[2]:
                    paths.append((".".join([label] + path), f"{arm[0]}.{field}"))
            if k < len(self.names["typed"]):
                for variable, label in self.names["typed"][k]:
                    paths.append((label + ".given", "type_inv." + variable))
            if old:
                labels.setdefault(old, new)
                labels.setdefault(alike(old), new)
            parent = self.names["places"][k][1]
            if parent is None or parent not in at:
                break
            k = at[parent]
        for old, new in self.labels.items():
            labels.setdefault(old, new)
        return labels, paths

    def say(self, text):
        self.said.append(f"{self.folder}: {text}")

    def body(self, text, place=None):
        """Steps stand side by side now, under their new names."""
        labels, paths = self.at(place) if place else (self.labels, [])
        text = re.sub(r"(?:\.before)+(?![\w'-])", "", text)
        text = re.sub(r"\.args\.(" + W + ")", lambda m: self.arg(m.group(0), m.group(1), ".args"), text)
        text = re.sub(r"\.ranges\.(" + W + ")", lambda m: self.arg(m.group(0), m.group(1), ".ranges"), text)

        done = set()
        for old, new in sorted(paths, key=lambda it: -len(it[0])):
            if old in done:
                continue
            done.add(old)
            text = re.sub(r"(?<![\w₀-₉'.-])(" + W + r")\." + re.escape(old).replace("_", "[-_]") + r"(?![\w₀-₉'-])", lambda m: m.group(1) + ".@" + new, text)
        # a variable that stands for a step, and not for a value
        steps = {"c"} | {m.group(1) for m in re.finditer(r"\blet (" + W + r") = (" + W + r") in", text)}

        def label(m):
            name = m.group(2) if m.re.groups > 1 else m.group(1)
            if m.re.groups > 1 and m.group(1) not in steps:
                return "." + name
            if name in labels:
                return "." + labels[name]
            if name not in self.news and alike(name) in labels and re.search(r"\d|-|_", name):
                return "." + labels[alike(name)]
            return "." + name

        # only the first field of a variable is a step; what follows keeps its name
        text = re.sub(r"(?<![\w₀-₉'.-])(" + W + r")\.(" + W + r")(?![\w₀-₉'-])", lambda m: m.group(1) + label(m), text)
        text = re.sub(r"(\))\.(" + W + r")(?![\w₀-₉'-])", lambda m: m.group(1) + label(m), text)
        for m in re.finditer(r"\blet (" + W + r") = \w+\.args in", text):
            text = re.sub(
                r"(?<![\w₀-₉'.-])" + re.escape(m.group(1)) + r"\.(" + W + ")",
                lambda f: m.group(1) + self.arg("." + f.group(1), f.group(1), ".args").replace(".args", ""),
                text,
            )
        text = text.replace(".@", ".")
        # a test that was turned round says what the call returned
        text = re.sub(r"not-(?:true|false) _ \((\w+\.if-not-[\w-]+\.)(true|false)\)", r"\1@\2", text)
        text = re.sub(r"not-(?:true|false) _ (\w+\.if-not-[\w-]+\.)(true|false)", r"\1@\2", text)
        text = re.sub(r"(\w+\.if-not-[\w-]+\.(?:true|false))(?![\w-])", r"(ap not \1)", text)
        text = text.replace(".@", ".").replace(" κs", "")
        # what an arm for all other variants knows of the tag
        text = re.sub(r"(?<!opened )(\w+\.in_default[\w-]*\.in_default[\w-]*-own\.keys\d+)", r"(opened \1)", text)
        # a name for an earlier step is a name for all of them
        while True:
            m = re.search(r"\blet (" + W + r") = c in\s+", text)
            if not m:
                break
            text = text[: m.start()] + re.sub(r"(?<![\w₀-₉'.-])" + re.escape(m.group(1)) + r"(?![\w₀-₉'-])(?! = )", "c", text[m.end() :])
        # only the first step after a variable is a label; what follows keeps its name
        return text

    def arg(self, whole, name, kind):
        for old, new in self.names["args"]:
            if old == f"{kind} .{name}":
                return new.replace(" ", "")
        return whole

    def loop(self, name):
        for i, (old, new, variables, changed) in enumerate(self.loops):
            if alike(old) == alike(name) or alike(new) == alike(name):
                return new, variables, changed
        if name == "loop" and self.loops:
            return self.loops[0][1:]
        self.say(f"no loop {name}")
        return None

    def live(self, kind, piece):
        m = re.search(r"^(?:abbrev )?(?:pub )?(\S+) : tie\.(invariant|decreases)-(\S+)", piece, re.M)
        found = self.loop(m.group(3))
        if not found:
            return None
        new, variables, changed = found
        clause = re.search(r"^" + re.escape(m.group(1)) + r" ((?:[^=\s]+\s+)*)=(?=\s)(.*)", piece, re.M | re.S)
        pats = clause.group(1).split()
        wanted = []
        for v, ch in zip(variables, changed):
            if ch:
                wanted.append("l.initial." + v)
        # the old form: unchanged variables at their place, a changed one's first value, and then its value
        order = []
        for v, ch in zip(variables, changed):
            if ch:
                order.append("l.initial." + v)
            else:
                order.append("l." + v)
        order += ["l." + v for v, ch in zip(variables, changed) if ch]
        if len(order) != len(pats):
            self.say(f"{m.group(2)}: {len(pats)} patterns, {len(order)} variables: {pats} {order}")
            return None
        body = clause.group(2)
        table = {p: o for p, o in zip(pats, order) if p != "_"}
        body = re.sub(r"(?<![\w₀-₉'.-])(" + W + ")", lambda m: table.get(m.group(1), m.group(1)), body)
        return new, body

    def turn(self):
        text = open(f"{self.folder}/Proof.antt", encoding="utf-8").read()
        pieces = blocks(text)
        head, uses, defs = [], [], []
        for p in pieces:
            m = re.match(r"((?:--[^\n]*\n)*)(use .*)", p, re.S)
            if m:
                if m.group(1):
                    head.append(m.group(1).rstrip())
                if not re.search(r"\.(Statement\.\{statement\}|Tie as tie)", m.group(2)):
                    uses.append(m.group(2))
            else:
                defs.append(p)
        invariants, answers, given = [], [], {}
        names = {}  # the old name of an answer -> its goal
        spec = None
        i = 0
        kept = []
        while i < len(defs):
            p = defs[i]
            m = re.search(r"^(?:abbrev )?(?:pub )?(" + W + r") : (.*)", p, re.M)
            if m and i + 1 < len(defs) and not re.search(r"^" + re.escape(m.group(1)) + r"\b.*=", p, re.M):
                # signature and clause were split, since both begin a line
                j = i + 1
                while j < len(defs) and re.match(r"(?:unfolding .*\n)?" + re.escape(m.group(1)) + r"(?=\s)", defs[j]) or j < len(defs) and defs[j].startswith("unfolding "):
                    p += "\n" + defs[j]
                    j += 1
                i = j
            else:
                i += 1
            if not m:
                kept.append(("", p))
                continue
            name, kind = m.group(1), m.group(2)
            if kind.startswith("tie.invariant-") or kind.startswith("tie.decreases-"):
                got = self.live(kind, p)
                which = "invariant" if "tie.invariant-" in kind else "decreases"
                comment = "".join(l + "\n" for l in p.split("\n") if l.startswith("--"))
                if got:
                    new, body = got
                    invariants.append(f"{comment}abbrev pub {which}-{new} : goal.{which}-{new}\n{which}-{new} l ={body}")
                else:
                    invariants.append("-- LEFT\n" + p)
                continue
            n = re.match(r"tie\.Need-(\S+)", kind)
            if n:
                new = self.needs.get(alike(n.group(1)))
                if not new:
                    self.say(f"no goal for Need-{n.group(1)}; there are {sorted(x[1] for x in self.names['needs'])}")
                    new = "LEFT-" + n.group(1)
                names[name] = new
                kept.append((name, p))
                continue
            if name.endswith("_spec") or "statement M" in kind:
                spec = p
                continue
            kept.append(("", p))
        # the order of what tie.spec was given says which goal an unnamed answer is for
        inline = []
        if spec:
            s = re.search(r"tie\.spec(.*)", spec, re.S)
            args = split_args(s.group(1)) if s else []
            skip = [a for a in args if not (a.startswith("invariant-") or a.startswith("decreases-"))]
            olds = self.names["needs"]
            for k, a in enumerate(skip):
                if a.startswith("("):
                    b = a[1:-1].strip()
                    q = re.match(r"λ ((?:\S+ )*?)?(\S+)\. (.*)$", b, re.S)
                    if q and q.group(3).strip() in ("search rules", "tt", "omega arith"):
                        continue
                    if len(skip) == len(olds) and q:
                        inline.append((olds[k][1], b))
                    else:
                        self.say(f"unnamed answer {k} of {len(skip)} (there are {len(olds)} goals): {a[:160]}")
        for name, p in kept:
            helper = re.search(r"tie\.((?:Else|Then|After|At|In|Past)\S*?)[\s)]", p)
            p = self.body(p, self.places.get(names[name]) if name else helper.group(1) if helper else None)
            if name:
                new = names[name]
                p = re.sub(r"^(?:pub )?" + re.escape(name) + r" : tie\.Need-\S+( invariant-\S+| decreases-\S+)*", lambda m: f"pub {new} : goal.{new}", p, flags=re.M)
                p = re.sub(r"^" + re.escape(name) + r"(?= )", lambda m: new, p, flags=re.M)
                p = re.sub(r"^(" + re.escape(new) + r" \S+) κs(?= =)", r"\1", p, flags=re.M)
                if re.search(r"^pub [^\n]*\n(?:unfolding[^\n]*\n)?" + re.escape(new) + r" \S+ = search rules$", p, re.M):
                    continue
            answers.append(p)
        for new, b in inline:
            q = re.match(r"λ (.*?)\. (.*)$", b, re.S)
            var = q.group(1).split()[0]
            answers.append(self.body(f"pub {new} : goal.{new}\n{new} {var} = {q.group(2)}", self.places.get(new)))
        out = "\n\n".join(answers)
        if "tie." in out:
            self.say("`tie` is still cited")
            out = re.sub(r"\btie\.", "goal.", out)
            out = out.replace(" invariant-loop decreases-loop", "")
        path = f"Rattle.{self.crate}.proofs.{self.path}"
        have = "\n".join(uses)
        for word, module in (("opened", "borrow.Enum.Refused"), ("not", "mathlib.Core.Bool"), ("ap", "mathlib.Core.Path")):
            if re.search(r"\((?:ap )?" + word + r" ", out) and not re.search(r"[{ ]" + word + r"[,}]", have):
                uses.append(f"use {module}.{{{word}}}")
        header = "\n".join(head)
        if invariants:
            with open(f"{self.folder}/Invariants.antt", "w", encoding="utf-8") as f:
                f.write((header + "\n" if header else "") + "\n".join(uses + [f"use {path}.Given as goal"]) + "\n\n" + "\n\n".join(invariants) + "\n")
        if answers:
            with open(f"{self.folder}/Answers.antt", "w", encoding="utf-8") as f:
                f.write((header + "\n" if header else "") + "\n".join(uses + [f"use {path}.Goals as goal"]) + "\n\n" + out + "\n")
        os.remove(f"{self.folder}/Proof.antt")
        return self.said


def main():
    crate, wanted = sys.argv[1], sys.argv[2:]
    folder = tempfile.mkdtemp()
    subprocess.run(["rt", "check", "--generated", folder, "--old-names"], cwd=f"crates/{crate}", stdout=subprocess.DEVNULL, stderr=subprocess.DEVNULL)
    with open(f"{folder}/names.json", encoding="utf-8") as f:
        table = json.load(f)
    for here, _, files in sorted(os.walk(f"crates/{crate}/proofs")):
        if "Proof.antt" not in files:
            continue
        dotted = os.path.relpath(here, f"crates/{crate}/proofs").replace("/", ".")
        if wanted and dotted not in wanted:
            continue
        key = f"Rattle-{crate}-proofs.{dotted}.Lts"
        if key not in table:
            print(f"{here}: no names ({key})")
            continue
        for line in Function(crate, here, table[key]).turn():
            print(line)


main()
