#!/usr/bin/env python3
"""Brings the definitions and lemmas of specs/ and proofs/ to snake case, and their folders to camel case, after port.py.

usage: python3 tools/respell.py [--said]     at the top of the repository, once; with --said it changes nothing and prints what falls together

A dash stays where it joins the names of two definitions. A lemma that would get a definition's name gets `_lem` behind it.
"""

import collections
import os
import re
import sys

WORD = re.compile(r"[^\W\d][\w'₀₁₂₃₄₅₆₇₈₉]*(?:-[\w'₀₁₂₃₄₅₆₇₈₉]+)*")
DECLARED = re.compile(r"^\s*(?:(?:abbrev|unfoldable|pub)\s+)*([^\W\d][\w'₀-₉-]*(?:\s+[^\W\d][\w'₀-₉-]*)*)\s*:(?![:=])(.*)", re.M)
# Names that would fall together with a parameter, a field or a definition, by hand: (start of a path, name as port.py leaves it) -> name.
BY_HAND = {
    ("crates/hex_law/", "is-data"): "has_data",
    ("crates/hex_law/proofs/Digits.antt", "is_digit"): "is_digit_lem",
    ("crates/pin_page/proofs/Firsts.antt", "marked_all"): "marked_all_lem",
    ("crates/cs_data_law/", "num-commoned"): "commoned_number",
    ("crates/cs_data_layout/", "num-data"): "data_number",
    ("crates/order_law/", "read_back"): "read_back_law",
    ("crates/cs_data_law/proofs/Lines.antt", "select_line"): "select_line_lem",
}
STD = {
    "length", "take", "drop", "map", "get_or", "set", "append", "bit_or", "bit_and", "bit_xor", "ones", "min", "max", "replicate",
    "reverse", "sum", "cond", "not", "pow", "add", "sub", "mul", "div", "mod", "suc", "zero",
}


def files():
    for folder, dirs, names in os.walk("crates"):
        dirs[:] = sorted(d for d in dirs if d != "out")
        for n in sorted(names):
            if n.endswith((".antt", ".rt")):
                yield os.path.join(folder, n)


def bare(path, text):
    return re.sub(r"--.*", "", text) if path.endswith(".antt") else re.sub(r"//.*", "", text)


def standing(path, text):
    """The words that can hide another: of a source its parameters and variables, of a proof all but paths, fields and labels."""
    if path.endswith(".rt"):
        for m in re.finditer(r"\blet (?:mut )?(\w+)|[(,]\s*(?:mut )?(\w+):(?!:)", text):
            yield m.group(1) or m.group(2)
        for m in re.finditer(r"ghost use [\w.'+-]+\.\{([^}]*)\}|(?:requires|ensures)[^{]*\{(.*)\}", text):
            yield from WORD.findall(m.group(1) or m.group(2))
        return
    for m in WORD.finditer(text):
        before, after = text[: m.start()], text[m.end() : m.end() + 3]
        if before.endswith(".") or after.startswith(".") or (re.match(r" =(?![=>])", after) and re.search(r"[{;]\s*$", before[-400:])):
            continue
        yield m.group(0)


def snake(part):
    part = re.sub(r"(?<=[a-z0-9'₀-₉])([A-Z])", lambda m: "_" + m.group(1).lower(), part)
    return part


def is_fact(word):
    return word[:1].isupper()


def folders(text):
    """Modules are in camel case: the folder `design` of specs/ is one."""
    text = re.sub(r"\bspecs\.design\b", "specs.Design", text)
    return re.sub(r"^((?:pub )?mod )design$", r"\1Design", text, flags=re.M)


def respell_edits(turned):
    """The edits name the text of the sources, the specs and the proofs: it is spelt as in the file of the edit."""
    for folder in sorted(os.listdir("crates")):
        edits = os.path.join("crates", folder, "must-fail")
        for n in sorted(os.listdir(edits)) if os.path.isdir(edits) else []:
            p = os.path.join(edits, n)
            lines, turn = [], None
            for line in open(p, encoding="utf-8").read().split("\n"):
                if line.startswith("file: "):
                    turn = turned.get(os.path.join("crates", folder, line[6:].strip()))
                elif line.startswith(("old:", "new:")) and turn:
                    line = line[:4] + folders(WORD.sub(turn, line[4:]))
                lines.append(line)
            open(p, "w", encoding="utf-8").write("\n".join(lines))


def respell_pages(new, spelt, names):
    """In a page a name stands in backticks, in the oldest spelling."""

    def turn(m):
        w = m.group(0)
        if w in new or w in names:
            return new.get(w, w)
        return spelt(w) if spelt(w) in names else w

    pages = ["README.md"] + [os.path.join("docs", n) for n in sorted(os.listdir("docs")) if n.endswith(".md")]
    for p in pages:
        t = open(p, encoding="utf-8").read()
        s = re.sub(r"`[^`\n]+`", lambda m: WORD.sub(turn, m.group(0)), t)
        s = s.replace("specs/design/", "specs/Design/")
        if s != t:
            open(p, "w", encoding="utf-8").write(s)


def rename_folders():
    for folder in sorted(os.listdir("crates")):
        old = os.path.join("crates", folder, "specs", "design")
        for end in ("", ".antt"):
            if os.path.exists(old + end):
                os.rename(old + end, os.path.join("crates", folder, "specs", "Design" + end))


def main():
    texts = {p: open(p, encoding="utf-8").read() for p in files()}
    declared, in_specs = collections.defaultdict(set), set()
    for p, t in texts.items():
        if not p.endswith(".antt"):
            continue
        for m in DECLARED.finditer(bare(p, t)):
            if m.group(2).strip().startswith("tie."):
                continue
            for w in m.group(1).split():
                declared[w].add(p)
                if "/specs/" in p:
                    in_specs.add(w)
    words = {p: set(standing(p, bare(p, t))) for p, t in texts.items()}
    foreign = {}
    for p, t in texts.items():
        foreign[p] = set()
        for m in re.finditer(r"^\s*(?:pub )?(?:ghost )?use ([\w.'+-]+)\.\{([^}]*)\}", t, re.M):
            own = m.group(1).startswith("Rattle.") and os.path.isdir("crates/" + m.group(1).split(".")[1])
            if not own:
                for w in m.group(2).split(","):
                    foreign[p].add(w.split(" as ")[0].strip())
                    foreign[p].add(w.split(" as ")[-1].strip())
    definitions = STD | {snake(w) for w in in_specs}

    def spelt(w):
        if is_fact(w):
            # A fact keeps its capital: only what follows it is spelt.
            head, *rest = w.split("-")
            return head + "".join("_" + snake(r) for r in rest)
        w = w.replace("getD", "get_or")
        parts = [snake(x) for x in w.split("-")]
        for i in range(1, len(parts)):
            if "_".join(parts[:i]) in definitions and "_".join(parts[i:]) in definitions:
                return "_".join(parts[:i]) + "-" + "_".join(parts[i:])
        return "_".join(parts)

    new = {}
    for w in declared:
        s = spelt(w)
        if s != w:
            new[w] = s
    # Names of definitions first: a lemma gives way.
    taken = collections.defaultdict(set)
    for p, ws in words.items():
        for w in ws:
            if w not in new:
                taken[w].add(p)
    used = {w: {p for p, ws in words.items() if w in ws} for w in new}
    clashes = []
    given = collections.defaultdict(list)
    for w in sorted(new, key=lambda w: (w not in in_specs, w)):
        s = new[w]

        def meets(s):
            rt = [p for p in used[w] & taken[s] if p.endswith(".antt") or w in words[p]]
            return rt + [p for o in given[s] for p in used[w] & used[o]]

        hits = meets(s)
        if hits and w not in in_specs:
            clashes.append((w, s, s + "_lem", hits[:3]))
            s = s + "_lem"
            hits = meets(s)
        if hits:
            clashes.append((w, s, "!!", hits[:3]))
        new[w] = s
        given[s].append(w)
    for c in clashes:
        print("falls together:", *c)
    if "--said" in sys.argv:
        print(len(new), "names")
        return
    turned = {}
    for p, t in texts.items():
        by_hand = {w: to for (start, w), to in BY_HAND.items() if p.startswith(start)}

        def turn(m):
            w = m.group(0)
            if w in by_hand:
                return by_hand[w]
            return w if w in foreign[p] or w not in new else new[w]

        turned[p] = turn
        s = folders(WORD.sub(turn, t))
        if s != t:
            open(p, "w", encoding="utf-8").write(s)
    respell_edits(turned)
    respell_pages(new, spelt, {snake(w) for w in declared} | set(new.values()))
    rename_folders()


main()
