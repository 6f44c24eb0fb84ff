#!/usr/bin/env python3
"""Turns proofs that walk the code by hand, proofs/F/Proof.antt, into proofs/F/Invariants.antt and proofs/F/Answers.antt.

usage: tools/answers.py CRATE NAMES.json [F ..]    in the repository; NAMES.json is what `rt check --generated DIR --old-names` writes as
       DIR/names.json in the crate's folder, of a crate whose Proof.antt files are still there and whose code is accepted

Needs get the names of today's goals, steps theirs; an answer that only says `search rules` goes, since the check tries that anyway; an
invariant's arguments become the fields of its record. Imports are those of the old file; `rt check --fix-imports` drops what nothing uses.
"""

import json
import os
import re
import sys

TOKEN = r"[^\s(){}\[\];,:@\"«»`]+"


def dashed(name):
    return name.replace("_", "-")


def items(lines):
    """The top-level pieces of a file: a declaration with its comment and clauses, a use line, a module block."""
    out, piece = [], []
    for i, line in enumerate(lines):
        if line.startswith("use "):
            if piece:
                out.append(piece)
            out.append([line])
            piece = []
        elif line.strip():
            piece.append(line)
        elif piece:
            rest = [l for l in lines[i:] if l.strip()]
            if rest and rest[0].startswith(" "):
                piece.append(line)
            else:
                out.append(piece)
                piece = []
    if piece:
        out.append(piece)
    return out


class Function:
    def __init__(self, made):
        self.needs = {dashed(a): b for a, b in made["needs"]}
        self.places = {dashed(p[0]): n for p, n in zip(made["places"], made["places_by_name"])}
        self.steps, self.fields = {}, {}
        for p in made["places"]:
            old, new = p[2]
            if old:
                self.steps[dashed(old)] = new
                for a, b in p[4]:
                    self.fields[(dashed(old), a)] = b
        self.loops = {}
        for (old, new), names, changed in ((l[0], l[1], c) for l, c in zip(made["loops"], made["changed"])):
            self.loops[old] = (new, names, changed)
        words = set()

        def collect(x):
            if isinstance(x, str):
                words.update(re.findall(r"\w+", x))
            elif isinstance(x, list):
                for y in x:
                    collect(y)
            elif isinstance(x, dict):
                for k, v in x.items():
                    collect(k)
                    collect(v)

        collect(made["params"])
        collect(made["loops"])
        collect(made["typed"])
        collect(made["places"])
        self.named = set()
        self.words = {dashed(w): w for w in words if "_" in w}

    def need(self, name):
        plain = dashed(name)
        for it in (plain, re.sub(r"^(overflow|nonzero|bounds|slice-bounds)-", "", plain)):
            if it in self.needs:
                return self.needs[it]
        return None

    def path(self, m):
        """A chain of projections, each step spelled anew."""
        parts = m.group(0).split(".")[1:]
        out, step = [], None
        for p in parts:
            plain = dashed(p)
            if step is not None and (step, p) in self.fields:
                out.append(self.fields[(step, p)])
                step = None
            elif plain in self.steps and (step is None):
                out.append(self.steps[plain])
                step = plain
            elif p == "pre":
                out.append("requires")
            else:
                out.append(self.words.get(plain, p))
                if p != "before":
                    step = None
        return "." + ".".join(out)

    def text(self, text):
        def need(m):
            it = self.need(m.group(1))
            return "goal." + it if it else m.group(0)

        text = re.sub(rf"tie\.Need-({TOKEN})", need, text)
        def place(m):
            it = self.places.get(dashed(m.group(1)), m.group(1))
            self.named.add(it)
            return it

        text = re.sub(r"(tie\.[^\s)]+|goal\.[^\s)]+)((?: (?:invariant|decreases)-[^\s)]+)+)", r"\1", text)
        text = re.sub(r"tie\.((?:Start|After|Then|Else|In|At)[^\s()]*)", place, text)
        return re.sub(r"(?<=[\w)'₀-₉])(?:\.(?!\.)[^\s(){}\[\].;,:@\"«»]+)+", self.path, text)


def substituted(body, at):
    return re.sub(r"(?<![\w.'-])([A-Za-z_]\w*[₀-₉']*)(?![\w'₀-₉-])", lambda m: at.get(m.group(1), m.group(1)), body)


def turned(crate, name, text, made):
    f = Function(made)
    uses, invariants, answers, head = [], [], [], None
    rename = {}
    pieces = items(text.split("\n"))
    for piece in pieces:
        for line in piece:
            m = re.match(rf"\s*(?:pub )?({TOKEN}) : tie\.Need-({TOKEN})", line)
            if m:
                rename[m.group(1)] = f.need(m.group(2)) or m.group(1)
    for piece in pieces:
        body = [l for l in piece if not l.startswith("--")]
        if not body:
            if head is None:
                head = piece
            else:
                answers.append("\n".join(piece))
            continue
        first = body[0]
        if first.startswith("use "):
            if not re.search(r"\.(Statement\.\{statement\}|Tie as tie)$", first):
                uses.append(first)
            continue
        if re.match(r"pub \S+-spec : ", first) or re.match(r"pub \S+_spec : ", first):
            continue
        m = re.match(r"abbrev (?:pub )?(invariant|decreases)-(\S+) : tie\.", first)
        if m:
            kind, loop = m.group(1), m.group(2)
            new, names, changed = f.loops[loop]
            clause = "\n".join(body[1:])
            c = re.match(rf"{kind}-{re.escape(loop)}((?: [^\s=]+)*) =\s*", clause)
            args, rest = c.group(1).split(), clause[c.end():]
            at = {}
            order = [("l.initial." if ch else "l.") + n for n, ch in zip(names, changed)] + ["l." + n for n, ch in zip(names, changed) if ch]
            for a, to in zip(args, order):
                if a != "_":
                    at[a] = to
            if len(args) != len(order):
                print(f"{crate}::{name}: {kind}-{loop} has {len(args)} arguments, and its loop {len(order)} names: {order}")
            lead = [l for l in piece if l.startswith("--")]
            sep = "\n    " if clause[c.start():c.end()].endswith("\n    ") else " "
            invariants.append("\n".join(lead + [f"abbrev pub {kind}-{new} : goal.{kind}-{new}", f"{kind}-{new} l ={sep}" + substituted(rest, at)]))
            continue
        whole = "\n".join(piece)
        m = re.match(rf"(?:pub )?({TOKEN}) : tie\.Need-({TOKEN})", first)
        if m:
            rest = [l for l in body[1:] if not l.startswith("unfolding")]
            if re.fullmatch(rf"{re.escape(m.group(1))} c(?: κs)? =\s*search rules", " ".join(l.strip() for l in rest)) and len(rest) == len(body) - 1:
                continue
        for old, new in rename.items():
            whole = re.sub(rf"(?m)^( *)(?:pub )?{re.escape(old)} : (?=tie\.Need-)", lambda m: f"{m.group(1)}pub {new} : ", whole)
            whole = re.sub(rf"(?m)^( *){re.escape(old)}((?: [^\s=]+)*) =", lambda m: f"{m.group(1)}{new}{m.group(2).replace(' κs', '')} =", whole)
        if m and f.need(m.group(2)) is None:
            print(f"{crate}::{name}: no goal for {m.group(2)}")
        answers.append(f.text(whole))
    out = {}
    title = "\n".join(head or [])
    if invariants:
        inv = [re.sub(r"^use .*$", lambda m: m.group(0), u) for u in uses]
        out["Invariants.antt"] = "\n".join([title] + inv + [f"use Rattle.{crate}.proofs.{name}.Given as goal", ""]) + "\n" + "\n\n".join(invariants) + "\n"
    if answers:
        if f.named:
            uses = uses + [f"use Rattle.{crate}.proofs.{name}.Goals.{{{', '.join(sorted(f.named))}}}"]
        out["Answers.antt"] = "\n".join([title] + uses + [f"use Rattle.{crate}.proofs.{name}.Goals as goal", ""]) + "\n" + "\n\n".join(answers) + "\n"
    return out


def main(argv):
    crate, names = argv[0], argv[1]
    with open(names, encoding="utf-8") as it:
        made = json.load(it)
    root = os.path.join("crates", crate, "proofs")
    for folder, _, files in os.walk(root):
        if "Proof.antt" not in files:
            continue
        name = os.path.relpath(folder, root).replace("/", ".")
        if len(argv) > 2 and name not in argv[2:]:
            continue
        key = f"Rattle-{crate}-proofs.{name}.Lts"
        if key not in made or "needs" not in made[key]:
            print(f"{crate}::{name}: the names are not told")
            continue
        path = os.path.join(folder, "Proof.antt")
        with open(path, encoding="utf-8") as it:
            text = it.read()
        out = turned(crate, name, text, made[key])
        os.remove(path)
        for f, t in out.items():
            with open(os.path.join(folder, f), "w", encoding="utf-8") as it:
                it.write(t)
    return 0


if __name__ == "__main__":
    raise SystemExit(main(sys.argv[1:]))
