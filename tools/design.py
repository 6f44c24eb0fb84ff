#!/usr/bin/env python3
"""Counts, at a commit or in the work tree, the places that docs/DESIGN-PASS.md speaks of: point by point, in src/ (point 8: in proofs/).

    tools/design.py [COMMIT] [--list]

--list prints each place. A row is a place to look at and no verdict: what was decided about it stands on the page.
"""
import re
import subprocess
import sys


def sh(*args):
    return subprocess.run(args, capture_output=True, text=True, check=True).stdout


def files(commit, suffix):
    if commit:
        names = sh("git", "ls-tree", "-r", "--name-only", commit, "crates").split("\n")
    else:
        names = sh("git", "ls-files", "crates").split("\n")
    for n in names:
        if n.endswith(suffix):
            try:
                yield n, sh("git", "show", f"{commit}:{n}") if commit else open(n).read()
            except FileNotFoundError:
                pass


def functions(text):
    """(line, signature with its clauses, body) of each function with a body that begins at the left edge or in an impl."""
    lines = text.split("\n")
    i = 0
    while i < len(lines):
        m = re.match(r"( *)(?:pub(?:\([a-z]+\))? )?(?:extern \"C\" )?(?:const )?(?:final )?fn \w+", lines[i])
        if not m or lines[i].rstrip().endswith(";"):
            i += 1
            continue
        pad = m.group(1)
        sig, k = [], i
        while k < len(lines) and lines[k] != pad + "{" and not lines[k].endswith(" {"):
            sig.append(lines[k])
            k += 1
        if k == len(lines):
            break
        if lines[k] != pad + "{":
            sig.append(lines[k])
        body, k = [], k + 1
        while k < len(lines) and lines[k] != pad + "}":
            body.append(lines[k])
            k += 1
        yield i + 1, "\n".join(sig), "\n".join(body)
        i = k + 1


def name_of(sig):
    return re.search(r"fn (\w+)", sig).group(1)


def shape(body):
    """What is left of a body when names, numbers and types are taken out."""
    t = re.sub(r"//[^\n]*", "", body)
    t = re.sub(r"\b(while|for|in|if|else|match|return|let|mut|loop|break|continue|true|false|as)\b", lambda m: m.group(1).upper(), t)
    t = re.sub(r"[a-z_][A-Za-z0-9_]*(::[A-Za-z0-9_]+)*|\b[A-Z][a-z]\w*(::\w+)*|\b\d[\w.]*", "x", t)
    return re.sub(r"\s+", " ", t).strip()


def main():
    args = [a for a in sys.argv[1:] if not a.startswith("-")]
    commit = args[0] if args else None
    listing = "--list" in sys.argv
    src = list(files(commit, ".rt"))
    rows = []

    def row(point, what, places):
        rows.append((point, what, places))

    def grep(pattern, keep=lambda line: True):
        return [f"{n}:{k}: {line.strip()}" for n, t in src for k, line in enumerate(t.split("\n"), 1) if re.search(pattern, line) and keep(line)]

    # 1
    own = []
    for n, t in src:
        for m in re.finditer(r"(?ms)^(?:pub )?enum (\w+) \{(.*?)^\}", t):
            if re.search(r"\b(Refused|Bad|Nothing|Nowhere|Unbounded|Other)\b", m.group(2)):
                own.append(f"{n}: enum {m.group(1)}")
    row("1", "own enums of the shape of Option or Result", own)
    row("1", "a flag or number with a value beside it (`refused: u8`)", grep(r"^\s*pub refused: u8|^\s*refused: u8,"))
    row("1", "numbers for refusals: constants", grep(r"^pub const (SHAPE|LENGTH|COUNT|CELL|NUMBER|PLACE|TYPE|TAKEN|BARE|ROOM): u8"))
    nums, tests = [], []
    for n, t in src:
        for k, sig, body in functions(t):
            if re.search(r"-> u8\b", sig) and re.search(r"refusal|refused", sig):
                nums.append(f"{n}:{k}")
            for m in re.finditer(r"if (\w+) != 0 \{\s*return", body):
                tests.append(f"{n}:{k}: {m.group(1)}")
    row("1", "functions that answer a refusal's number, 0 for none", nums)
    row("1", "`if no != 0 { return .. }` in place of `?`", tests)
    # 2
    groups = {}
    for n, t in src:
        if n.split("/")[1].endswith("_c"):
            continue
        for k, sig, body in functions(t):
            s = shape(body)
            if len(s) > 60 and body.count("\n") >= 2:
                groups.setdefault(s, []).append(f"{n}:{k}: {name_of(sig)}")
    twins = [" = ".join(v) for v in groups.values() if len(v) > 1]
    row("2", "groups of functions whose bodies differ in names, types and numbers alone (three lines and more)", twins)
    typed = {}
    for n, t in src:
        for k, sig, body in functions(t):
            name = name_of(sig)
            stem = re.sub(r"(^|_)(u8|u32|u64|f64|i32|bytes?|words?|floats?|longs?|signed)(?=_|$)", r"\1", name)
            if stem != name:
                typed.setdefault((n.split("/")[1].split("_")[0], stem), []).append(f"{n}:{k}: {name}")
    row("2", "groups of functions whose names differ in a type", [" = ".join(v) for v in typed.values() if len(v) > 1])
    # 3
    loops = []
    for n, t in src:
        for k, sig, body in functions(t):
            for m in re.finditer(r"while [^{]*\{", body):
                head = m.group(0)
                v = re.search(r"while (?:\d+|\w+) < (\w+)|while (\w+) [<!]", head)
                names = [x for x in re.findall(r"\b[a-z]\w*\b", head) if x not in ("while", "len")]
                if any(re.search(rf"\b{x} (\+|-)= 1;", body[m.end():]) for x in names):
                    loops.append(f"{n}:{k}: {name_of(sig)}: {head[:-1].strip()}")
    row("3", "loops that count an index by hand", loops)
    # 4
    row("4", "the larger, the smaller, the difference or a bound by an `if`", [
        f"{n}:{k}: {name_of(sig)}" for n, t in src for k, sig, body in functions(t)
        if re.fullmatch(r"\s*if (\w+) (<|<=|>|>=) (\w+) \{\s*[^{};]+\s*\} else \{\s*[^{};]+\s*\}\s*", body) and re.search(r"-> (u8|u32|u64|usize|i32|i64|f64)", sig)])
    row("4", "`if a { b } else { false }` in place of `&&`", [
        f"{n}:{k}" for n, t in src for k, sig, body in functions(t) for _ in re.finditer(r"\} else \{\s*false\s*\}", body)])
    row("4", "functions that only convert or hand on", [
        f"{n}:{k}: {name_of(sig)}" for n, t in src for k, sig, body in functions(t)
        if re.fullmatch(r"\s*(\w+ as \w+|if \w+ \{ 1 \} else \{ 0 \}|let (\w+) = [\w.]+;\s*\2)\s*", body)])
    row("4", "equality written by hand", [
        f"{n}:{k}: {name_of(sig)}" for n, t in src for k, sig, body in functions(t)
        if re.search(r"fn same_\w+", sig) and "==" in body])
    # 5
    sigs = [(n, k, re.sub(r"\s+", " ", sig.split("\n    requires")[0].split("\n    ensures")[0])) for n, t in src for k, sig, _ in functions(t)]

    def together(*names):
        return [f"{n}:{k}" for n, k, s in sigs if all(re.search(rf"\b{x}: ", s) for x in names)]

    row("5", "`rows, cols`", together("rows", "cols"))
    row("5", "`pieces, weights, counts`", together("pieces", "weights", "counts"))
    row("5", "`tiles, count`", together("tiles", "count"))
    row("5", "`place, offset`", together("place", "offset"))
    row("5", "`rowspan, colspan`", together("rowspan", "colspan"))
    row("5", "`queuerows, queuecols, queuecolours`, with where the queue stands", together("queuerows", "queuecols", "queuecolours") + [p for p in together("rows", "cols", "colours", "at")] + [p for p in together("rows", "cols", "first", "len")])
    facts = {}
    for n, t in src:
        for k, sig, _ in functions(t):
            for name in set(re.findall(r"\b([A-Z][A-Za-z]+) \w", "\n".join(l for l in sig.split("\n") if "requires" in l))):
                facts.setdefault(name, []).append(f"{n}:{k}")
    row("5", "facts that three or more functions require", [f"{f}: {len(v)}" for f, v in sorted(facts.items()) if len(v) >= 3])
    # 6
    row("6", "an array with a length beside it", grep(r"^\s*pub (entries|colours): \["))
    row("6", "parallel arrays", grep(r"(queuerows|queuecols|queuecolours|heads|nexts): (&mut |&)\["))
    # 7
    row("7", "a flag that chooses a step", grep(r"^\s*(reverse|squared): bool|\((reverse|squared): bool|, (reverse|squared): bool"))
    # 8
    ants = list(files(commit, "Answers.antt"))
    goals = sum(len(re.findall(r"^pub [\w-]+ : goal\.", t, re.M)) for _, t in ants)
    plain = [f"{n}: {m.group(1)}" for n, t in ants for m in re.finditer(r"^([\w-]+) (?:g )?c = search rules$", t, re.M)]
    inv = list(files(commit, "Invariants.antt"))
    row("8", "files of answers", [n for n, _ in ants])
    row("8", "answers in them", ["-"] * goals)
    row("8", "answers that say no more than `search rules`", plain)
    row("8", "files of invariants", [n for n, _ in inv])
    row("8", "lines of both", ["-"] * sum(t.count("\n") for _, t in ants + inv))

    for point, what, places in rows:
        print(f"{point}  {len(places):5}  {what}")
        if listing and not what.startswith(("answers in", "lines of")):
            for p in places:
                print(f"            {p}")


main()
