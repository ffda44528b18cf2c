#!/usr/bin/env python3
"""Counts the places of each point of docs/DESIGN-PASS.md: tools/places.py [ROOT [POINT]]

With a point it prints that point's places, a line each. It reads the .rt files of crates/*/src as text, without comments; it finds what is written in the forms
that it knows, and a person reads what it finds.
"""
import collections
import re
import sys
from pathlib import Path

ROOT = Path(sys.argv[1] if len(sys.argv) > 1 else Path(__file__).parent.parent)


def lines_of(text):
    return [re.sub(r"//.*", "", line) for line in text.split("\n")]


FILES = {str(f.relative_to(ROOT / "crates")): lines_of(f.read_text()) for f in sorted((ROOT / "crates").glob("*/src/*.rt"))}


class Function:
    """A function as written: its name, its parameters, the parts of its requires, and its body."""

    def __init__(self, where, name, text):
        self.where, self.name = where, name
        opened = text.index("(")
        depth, at = 0, opened
        while True:
            depth += {"(": 1, ")": -1}.get(text[at], 0)
            if depth == 0:
                break
            at += 1
        parts = re.split(r",(?![^<(\[]*[>)\]])", text[opened + 1 : at])
        self.params = [" ".join(p.split()).removeprefix("mut ") for p in parts if p.strip()]
        rest = text[at + 1 :]
        body = re.search(r"^ *\{\n(.*)\n *\}", rest, flags=re.S | re.M) or re.search(r"\{\n(.*)\n *\}", rest, flags=re.S)
        self.body = body.group(1) if body else ""
        head = rest[: body.start()] if body else rest
        clauses = re.findall(r"requires[^{]*\{(.*?)\}\s*(?=requires|ensures|$)", head + "\n", flags=re.S)
        self.facts = [re.sub(r"\s+", " ", part).strip(" ()") for clause in clauses for part in clause.split("×")]


def functions():
    found = []
    for where, lines in FILES.items():
        text = "\n".join(lines)
        starts = [m for m in re.finditer(r"^( *)(?:pub(?:\(\w+\))? )?(?:unsafe )?(?:extern \"C\" )?(?:const )?fn (\w+)", text, flags=re.M)]
        for m in starts:
            end = re.search(rf"^{m.group(1)}\}}$", text[m.end() :], flags=re.M)
            found.append(Function(where, m.group(2), text[m.start() : m.end() + (end.end() if end else 0)]))
    return found


def matching(*patterns):
    return [f"{where}:{i + 1}: {line.strip()}" for where, lines in FILES.items() for i, line in enumerate(lines) if any(re.search(p, line) for p in patterns)]


def shape(body):
    """A body with its names numbered in the order in which they come, and each number as 0."""
    names = {}
    tokens = re.findall(r"[A-Za-z_]\w*|\d[\w.]*|[^\s\w]", body)
    keep = {"let", "mut", "if", "else", "for", "in", "while", "return", "loop", "break", "match", "as", "true", "false"}
    out = [t if t in keep else "0" if t[0].isdigit() else names.setdefault(t, f"n{len(names)}") if t[0].isalpha() or t[0] == "_" else t for t in tokens]
    return " ".join(out) if len(out) >= 14 else None


def refusals():
    """Numbers for refusals and kinds, a flag with a value beside it, a value that stands for none."""
    return matching(
        r"\b(number|early|refusal) != 0", r"refused(_report)?\(\d+\)", r"kept\(state, \d+\)", r"put_refused\(\d+", r"-> u32$.*number",
        r"^\s*(pub )?found: bool", r"^\s*(pub )?(kind|part): u32", r"^const (BLANK|WORD|COMMENT|JUNK)\b", r"^pub const (NONE|PADDING)\b", r"\bseat: usize",
        r"\b(let|match) kind\b",
    ) + [f"{where}:{i + 1}: {line.strip()}" for where, lines in FILES.items() if where.startswith("checks_") for i, line in enumerate(lines) if re.search(r"return [1-9]\d*;|^    0$", line)]


def twins():
    """Functions whose bodies are the same but for names and numbers."""
    groups = collections.defaultdict(list)
    for f in functions():
        s = shape(f.body)
        if s:
            groups[s].append(f"{f.where} {f.name}")
    return [" ~ ".join(group) for group in groups.values() if len(group) > 1]


def counted():
    """Loops by hand, and the lesser of two by hand."""
    return matching(r"^\s*(while|loop|'\w+: loop)\b", r"\b(laws::)?least\(")


def by_hand():
    """What the library or a derive has: extremes, wrapping sums and products, widening, exchanges, copies."""
    names = "higher|lower|least|raised|wrapping_mul|ten_times|after|mark_of|is_new|is_hit|past|byte|widened|target_of|increment_of|next_alpha|run_end|put_digits|digit|is_digit"
    return matching(rf"\bfn ({names})\b", r"std::num::wrapping_add_u", r"\bas u64\b", r"\b(held|tmp) = \w+\[")


def together():
    """Facts in the requires of three or more functions, and three or more parameters that stand side by side in three or more functions."""
    facts, params = collections.defaultdict(set), collections.defaultdict(set)
    for f in functions():
        for fact in f.facts:
            if fact:
                facts[fact].add(f"{f.where} {f.name}")
        for size in range(3, len(f.params) + 1):
            for at in range(len(f.params) - size + 1):
                params[tuple(f.params[at : at + size])].add(f"{f.where} {f.name}")
    often = {p: fs for p, fs in params.items() if len(fs) >= 3}
    longest = [p for p in often if not any(p != q and often[q] >= often[p] and any(q[i : i + len(p)] == p for i in range(len(q))) for q in often)]
    return [f"{fact}: {len(fs)} functions" for fact, fs in facts.items() if len(fs) >= 3] + [f"({', '.join(p)}): {len(often[p])} functions" for p in longest]


def lengths():
    """A slice with a count beside it, in a function's parameters."""
    return [f"{f.where} {f.name}: {p}" for f in functions() for p in f.params if re.fullmatch(r"(len|count|most|many|visited|m|n|k): usize", p) and not p.startswith(("n:", "k:"))
            and any("[" in q for q in f.params)]


def switches():
    """Switches on what to do."""
    return matching(r"^\s*(pub )?keep: bool", r"\bmatch kind\b") + [g for g in twins() if "show_search" in g]


def proofs():
    """Files of proofs, and their lines."""
    files = [f for f in (ROOT / "crates").glob("*/proofs/**/*.antt")]
    return [f"{f.relative_to(ROOT)}" for f in files]


POINTS = [refusals, twins, counted, by_hand, together, lengths, switches, proofs]

if len(sys.argv) > 2:
    print("\n".join(POINTS[int(sys.argv[2]) - 1]()))
else:
    for i, point in enumerate(POINTS, 1):
        print(f"{i}. {len(point())}: {point.__doc__}")
    print("   lines of proofs:", sum(len(f.read_text().split("\n")) for f in (ROOT / "crates").glob("*/proofs/**/*.antt")))
