#!/usr/bin/env python3
"""Counts the places in crates/*/src that docs/DESIGN-PASS.md speaks of, a line for each kind.
usage: tools/places.py [-v]    with each place"""
import collections
import pathlib
import re
import sys

ROOT = pathlib.Path(__file__).resolve().parent.parent / "crates"
CODE = {p: re.sub(r"//[^\n]*", "", p.read_text()) for p in sorted(ROOT.glob("*/src/*.rt"))}
HEAD = r"^ *(?:pub(?:\(crate\))? )?(?:const )?(?:extern \"C\" )?fn (\w+)(?:<[^(]*>)?\(([^)]*)\)"

LINES = [
    ("1 enums", r"^ *(?:pub(?:\(crate\))? )?enum \w+"),
    ("1 refusals beside a value or handed on as a number", r"\brefusal: u8"),
    ("1 functions that answer a refusal's number or 0", r"fn (?:check|\w+_refusal|planner_\w+)\([^)]*\) -> u8"),
    ("1 refusals told by a number written out", r"break '\w+ [1-9]\d*;|refused\(\d+\)|return [1-9]\d*;"),
    ("1 kinds told by a number", r"\b(?:edition|code): (?:u8|u16|usize)"),
    ("3 while loops", r"^ *while "),
    ("3 loops over a range of indices", r"for \w+ in [^{]*\.\."),
    ("3 loops that stand for a labelled block", r"'\w+: loop"),
    ("4 conversions by `as`", r"\bas (?:u8|u16|u32|u64|usize|i16|i64)\b"),
    ("6 a number of entries beside a list", r"[,(]\s*(?:k|n|nodes|count|arcs|potentials): usize"),
    ("7 a match on which step or kind", r"match \*?(?:code|kind|field|self)\b"),
]


def place(path, text, start):
    return f"{path.relative_to(ROOT)}:{text.count(chr(10), 0, start) + 1}"


def shape(body):
    """The tokens of a body, with names, types and numbers made alike."""
    words = {"let", "mut", "if", "else", "while", "for", "in", "loop", "break", "continue", "return", "match", "as"}
    tokens = re.findall(r"[A-Za-z_]\w*|\d\w*|[^\sA-Za-z_\d]", body)
    return tuple(t if t in words or not re.match(r"\w", t) else "x" for t in tokens)


def functions():
    """File, name, parameters and body of each function."""
    for path, text in CODE.items():
        for m in re.finditer(HEAD, text, re.M):
            indent = re.match(r" *", m[0].lstrip("\n"))[0]
            end = text.find(f"\n{indent}}}\n", m.start())
            body = text.find(f"\n{indent}{{\n", m.start())
            body = body if 0 <= body < end else text.find("{", m.end())
            yield path, m[1], [p.split(":")[0].strip() for p in m[2].split(",") if p.strip()], text[body:end]


def found():
    for name, pattern in LINES:
        yield name, [f"{place(p, t, m.start())} {' '.join(m[0].split())}" for p, t in CODE.items() for m in re.finditer(pattern, t, re.M)]
    alike = collections.defaultdict(list)
    for path, name, parameters, body in functions():
        if len(shape(body)) >= 14:
            alike[shape(body)].append(f"{path.relative_to(ROOT)} {name}")
    yield "2 functions whose bodies read alike", [f for group in alike.values() if len(group) > 1 for f in group]
    yield "5 functions of six parameters or more", [f"{p.relative_to(ROOT)} {n} {len(a)}" for p, n, a, _ in functions() if len(a) > 5]
    facts = collections.Counter(" ".join(m[1].split()) for t in CODE.values() for m in re.finditer(r"requires[ \w]*(\{[^}]*\})", t))
    yield "5 facts required by three functions or more", [f"{n} times {f}" for f, n in facts.items() if n > 2]
    answers = [p for p in sorted(ROOT.glob("*/proofs/**/Answers.antt"))]
    yield "8 answers", [f"{p.relative_to(ROOT)} {n}" for p in answers for n in re.findall(r"^pub (\S+) : goal\.", p.read_text(), re.M)]


for name, places in found():
    print(f"{len(places):5} {name}")
    if "-v" in sys.argv[1:]:
        for p in places:
            print(f"        {p}")
