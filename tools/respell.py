#!/usr/bin/env python3
"""Spells this repository's own definitions, fields and lemmas as today's Rattle does: words in snake case, and a dash only where it joins two names.

usage: respell.py TOP          TOP is a checkout in which port.py ran once. Files are rewritten in place. Run it once.

Only names that the repository's own specs/ and proofs/ declare are turned: in .antt files, in the clauses of .rt files, and in code spans of .md files.
A file that has one of these spellings from elsewhere (a `use` of a library of the kit) keeps it. The table of what was turned stands in respelled.tsv.
"""
import collections
import glob
import os
import re
import sys

HERE = os.path.dirname(os.path.realpath(__file__))
TABLE = os.path.join(HERE, "respelled.tsv")
WORD = r"[^\s(){}.;,@\"«»\[\]`]+"
TOKEN = re.compile(r"\"(?:[^\"\\\n]|\\.)*\"|(?<![^\s(){}.;,])--[^\n]*|" + WORD + r"|\.")
HEAD = re.compile(r"^(?P<in> *)(?:(?:pub|abbrev|unfoldable|opaque|private|mutual) )*(?:record |data )?(?P<name>" + WORD + r")(?: [({][^\n]*?)? :(?: |$)", re.M)
USE = re.compile(r"^( *(?:pub )?(?:ghost )?use )([^\s{;]+?)(?:\.\{([^}]*)\}|\.(" + WORD + r"))?;?( as \S+)?$", re.M)
# What the names of the older library's words were turned to.
WORDS = {"getD": "get_or"}
# Two names that would meet, and names whose parts read better otherwise.
BY_HAND = {"in-float": "in_float_lem", "in-unsigned": "in_unsigned_lem", "open_done": "open_done_lem"}
# As above, but only in the files below these folders: elsewhere a function of the code has the name.
THERE = {"is_digit": ("is_digit_lem", "/crates/theory/")}


def below(top):
    for folder in ("specs", "proofs"):
        yield from sorted(glob.glob(os.path.join(top, "crates", "*", folder, "**", "*.antt"), recursive=True))


def declared(top):
    """Every name that the repository's antt declares, with whether it stands at the margin."""
    names = collections.defaultdict(set)
    for path in below(top):
        text = re.sub(r"(?m)--.*$", "", open(path, encoding="utf-8").read())
        proof = os.path.basename(path) == "Proof.antt"
        for m in HEAD.finditer(text):
            line = text[m.start() : text.find("\n", m.start())]
            if proof and re.search(r" : tie\.(Need|invariant|decreases)", line):
                continue
            name = m["name"]
            if name.startswith(("λ", "(", "|", "⊢", "--", "?", "_")) or name in ("let", "in", "where", "use", "module", "syntax", "infixl", "infixr", "infix"):
                continue
            names[name].add("top" if not m["in"] else "inner")
    return names


def snake(name):
    name = re.sub(r"(?<=[a-z0-9])([A-Z])(?![a-z])", lambda m: "_" + m[1].lower(), name)
    return re.sub(r"(?<=[a-z0-9])([A-Z])", lambda m: "_" + m[1].lower(), name)


def spelled(name, known):
    if name in BY_HAND:
        return BY_HAND[name]
    if "◌" in name or not re.match(r"[A-Za-z]", name):
        return name
    parts = name.split("-")
    new = [p if p[:1].isupper() else WORDS.get(p, snake(p)) for p in parts]
    out = new[0]
    for i in range(1, len(parts)):
        joins = len(parts) == 2 and parts[1] != "spec" and parts[i - 1] in known and parts[i] in known
        out += ("-" if joins else "_") + new[i]
    return out


def table(top):
    names = declared(top)
    plain = {n for n, at in names.items() if "top" in at and "-" not in n}
    plain |= set("length take drop map append mem set upto rev split_at get_or concat sum min max".split())
    # A lemma that would have its function's name gets `_lem`.
    taken = {n for n in names if "-" not in n and snake(n) == n} | {snake(n) for n in names if "-" not in n}
    rows = {}
    for name, at in names.items():
        new = spelled(name, plain if "top" in at else ())
        if "-" in name and new in taken and name not in BY_HAND:
            new += "_lem"
        if new != name:
            rows[name] = new
    return rows


def foreign(text, crates):
    """The names that a file has from a library of the kit."""
    found = set()
    for m in USE.finditer(text):
        head = m[2].split(".")
        own = head[0] == "Rattle" and len(head) > 1 and head[1] in crates
        if not own:
            for it in re.split(r"[,\s]+", m[3] or m[4] or ""):
                found.add(it)
    return found


def turned(text, rows, keep):
    def one(m):
        it = m[0]
        if it.startswith('"'):
            return it
        if it.startswith("--"):
            # of a comment only words with an inner capital: others may be English
            return re.sub(WORD, lambda w: rows[w[0]] if w[0] in rows and w[0] not in keep and re.search(r"[a-z][A-Z]", w[0]) else w[0], it)
        return rows[it] if it in rows and it not in keep else it

    return TOKEN.sub(one, text)


def clauses(text, rows, keep):
    """Turns what antt reads of a .rt file: `ghost use` items, clauses, ghost members."""
    out, at = [], 0
    for m in re.finditer(r"(?m)^ *ghost use [^;]*;|^ *(?:requires|ensures|ghost)\*? ?(?:\w+)?:? ?(?=\{)", text):
        if m.start() < at:
            continue
        out.append(text[at : m.start()])
        if m[0].lstrip().startswith("ghost use"):
            out.append(turned(m[0], rows, keep))
            at = m.end()
            continue
        out.append(m[0])
        i, depth = m.end(), 0
        while True:
            depth += {"{": 1, "}": -1}.get(text[i], 0)
            i += 1
            if depth == 0:
                break
        out.append(turned(text[m.end() : i], rows, keep))
        at = i
    out.append(text[at:])
    return "".join(out)


def spans(text, rows):
    camel = {k: v for k, v in rows.items() if re.search(r"[a-z][A-Z]", k)}
    return re.sub(r"`[^`\n]+`", lambda m: re.sub(WORD, lambda w: camel.get(w[0], w[0]), m[0]), text)


def meets(path, text, rows, keep):
    """Two names of one file that would get one spelling."""
    seen = collections.defaultdict(set)
    for m in TOKEN.finditer(text):
        it = m[0]
        if not it.startswith(('"', "--", ".")):
            seen[rows[it] if it in rows and it not in keep else it].add(it)
    for new, olds in seen.items():
        if len(olds) > 1:
            print(f"meets: {path}: {' '.join(sorted(olds))} -> {new}")


def main():
    top = sys.argv[1]
    crates = set(os.listdir(os.path.join(top, "crates")))
    if os.path.exists(TABLE):
        rows = dict(line.rstrip("\n").split("\t") for line in open(TABLE, encoding="utf-8"))
    else:
        rows = table(top)
        with open(TABLE, "w", encoding="utf-8") as f:
            f.writelines(f"{a}\t{b}\n" for a, b in sorted(rows.items()))
    paths = list(below(top)) + sorted(glob.glob(os.path.join(top, "crates", "*", "src", "*.rt")))
    for path in paths:
        text = open(path, encoding="utf-8").read()
        keep = foreign(text, crates)
        for old, (to, folder) in THERE.items():
            if folder in os.path.abspath(path):
                text = re.sub(rf"(?<![\w.-]){old}(?![\w-])", to, text)
        new = (clauses if path.endswith(".rt") else turned)(text, rows, keep)
        if path.endswith(".antt"):
            meets(os.path.relpath(path, top), text, rows, keep)
        if new != text:
            open(path, "w", encoding="utf-8").write(new)
    for path in glob.glob(os.path.join(top, "*.md")) + glob.glob(os.path.join(top, "docs", "*.md")) + glob.glob(os.path.join(top, "docs", "notes", "*.md")):
        if os.path.basename(path)[:2] in ("01", "02"):
            continue
        text = open(path, encoding="utf-8").read()
        new = spans(text, rows)
        if new != text:
            open(path, "w", encoding="utf-8").write(new)


main()
