#!/usr/bin/env python3
"""Spells the repository's own definitions and lemmas as today's Rattle spells names: words in snake case.

usage: tools/respell.py    at the top of the repository, once, after the toolchain's own script (port.py) has turned it

A word that begins with a small letter and has a capital later on gets underscores, as `freshBoard` `fresh_board`, and so does each such
part of a lemma's name, whose parts a dash joins, as `natAbs-clip` `nat_abs-clip`. It turns crates/**/*.antt, the clauses, ghost lines and
comments of crates/**/*.rt (the code itself has no such word), and crates/*/must-fail/*.edit. The edits, which port.py leaves, get port.py's
spelling too: a projection is written tight, `f a .b` as `(f a).b`, and the words of WORDS are turned.

It writes nothing and ends with 1 where two names of one kind would fall together, or where a clause's word would be hidden by a parameter,
a field or a constant of that file.
"""

import glob
import re

NAME = re.compile(r"[^\s(){}\[\].;,:@\"«»`]+")
PART = re.compile(r"(?<![\w'·])[a-z]\w*")
# A declaration's name, a record's field among them, and the names that a file brings in.
DECLARED = re.compile(r"(?m)^ *(?:(?:pub|abbrev|unfoldable|data|record) )*([^\s(){}:]+)(?: \{[^{}\n]*\})* :")
USED = re.compile(r"(?m)^use \S+\.\{([^{}]*)\}")
# What port.py made of words that the edits have.
WORDS = {"getD": "get_or", "negℤ": "neg_ℤ"}
# Lemmas that would have the name of the definition they are about.
APART = {"count_at": "count_at-said", "none_above": "none_above-entry", "put_last": "put_last-here", "no_nan": "eq-no_nan"}


def snake(word):
    return re.sub(r"(?<=[a-z0-9])([A-Z]+)", lambda m: "_" + m.group(1).lower(), word)


def respelled(text):
    return PART.sub(lambda m: snake(m.group(0)), text)


def tight(text):
    """The text with each projection of the older form, ` .f`, behind all that stands before it in its application, in parentheses."""
    closing = {"(": ")", "[": "]", "{": "}"}
    token = re.compile(r"\s+|\.(?:[a-z][\w'-]*|\d+)(?![\w'])|[\w'·₀-₉]+(?:[-.][\w'·₀-₉]+)*|.")

    def group(i, end):
        out, spine = "", []

        def flush():
            nonlocal out
            out += " ".join(spine)
            spine.clear()

        gap = ""
        while i < len(text) and text[i] != end:
            m = token.match(text, i)
            it, i = m.group(0), m.end()
            if it.isspace():
                gap = it
                continue
            if gap and it.startswith(".") and len(it) > 1 and spine:
                spine[:] = [(spine[0] if len(spine) == 1 else "(" + " ".join(spine) + ")") + it]
            elif it in closing:
                inner, i = group(i, closing[it])
                if gap and not spine:
                    out += gap
                spine.append(it + inner + closing[it])
            elif re.match(r"[\w'·]", it) and it not in ("λ", "in", "let", "then", "else", "unless", "as", "elim"):
                if gap and not spine:
                    out += gap
                spine.append(it)
            elif it.startswith(".") and spine and not gap:
                spine[-1] += it
            else:
                flush()
                out += gap + it
            gap = ""
        flush()
        return out + gap, i + 1

    whole = r"\(((?:[\w'·]+|\([^()]*\))(?:\.(?!\d*[A-Z])[\w']+)+)\)"
    return re.sub(r"(?<![\w'])" + whole, r"\1", group(0, None)[0])


def turned_edit(text, antt):
    lines = []
    for line in text.split("\n"):
        m = re.match(r"((?:old|new): *)(.*)", line)
        if m and antt:
            body = m.group(2)
            if re.search(r"[\w)] \.[a-z0-9]", body):
                body = tight(body)
            body = re.sub(r"[\w']+", lambda w: WORDS.get(w.group(0), w.group(0)), body)
            line = m.group(1) + respelled(body)
        elif m or line.startswith("#"):
            line = respelled(line)
        lines.append(line)
    return "\n".join(lines)


def main():
    read = {}
    for p in ("crates/*/src/**/*.rt", "crates/*/specs/**/*.antt", "crates/*/proofs/**/*.antt", "crates/*/must-fail/*.edit"):
        for f in sorted(glob.glob(p, recursive=True)):
            with open(f, encoding="utf-8") as it:
                read[f] = it.read()
    for f in read:
        if f.endswith(".antt"):
            read[f] = NAME.sub(lambda m: APART.get(m.group(0), m.group(0)), read[f])
    bad, told = [], {}
    for f, t in read.items():
        if f.endswith(".antt"):
            for w in DECLARED.findall(t) + USED.findall(t):
                for it in NAME.findall(w):
                    told.setdefault(respelled(it), {}).setdefault(it, f)
    for new, olds in sorted(told.items()):
        if len(olds) > 1:
            bad.append(f"{new}: " + ", ".join(f"{w} ({f})" for w, f in sorted(olds.items())))
    for f, t in read.items():
        if f.endswith(".rt"):
            clauses = set(snake(w) for w in PART.findall(t) if snake(w) != w)
            hides = set(re.findall(r"(?<![\w:])(\w+): [&\[\w]", t)) | set(re.findall(r"const (\w+)", t))
            bad += [f"{f}: {w} is a parameter, a field or a constant too" for w in sorted(clauses & hides)]
    for line in bad:
        print(line)
    if bad:
        return 1
    for f, t in read.items():
        with open(f, "w", encoding="utf-8") as it:
            it.write(turned_edit(t, re.search(r"(?m)^file: (specs|proofs)/", t)) if f.endswith(".edit") else respelled(t))
    return 0


if __name__ == "__main__":
    raise SystemExit(main())
