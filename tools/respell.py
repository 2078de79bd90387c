#!/usr/bin/env python3
"""Spells the names that this repository's specs/ and proofs/ declare as today's Rattle does: words in snake case.

usage: tools/respell.py [--check]      at the top of the repository, once, on what port.py left

A name in camel case with a small first letter, as cornerAt, becomes corner_at. In a name with dashes a dash stays where it
joins two functions of lists and numbers, as in length-take, and before or behind an operator; elsewhere it becomes an
underscore: front-stays is front_stays. A lemma that would have its function's name gets _lem. Types, records and facts have their capital already. Names of functions in src/,
names that Rattle makes for a proof's parts (declared at a type of `tie.`) and names of the library stay.
Names that would fall together with another are told, and nothing is written.
"""
import collections
import pathlib
import re
import sys

WORD = re.compile(r"[^\s(){}.;,@\"«»\[\]|`]+")
QUIET = re.compile(r'"(?:[^"\\\n]|\\.)*"')
USE = re.compile(r"\buse ([^\s;{]+)(?:\.\{([^}]*)\})?(?: as (\S+))?")
DECLARED = re.compile(
    r"^\s*(?:abbrev |unfoldable )?(?:pub )?(?:abbrev |unfoldable )?(?:record |data )?([^\s:({,|=]+)((?: [({][^:]*:[^\n]*?[)}])*)(?: [^\s:({]+)* :(?= |$)(.*)$"
)
JOINED = set(
    "length get_or take drop append map zip replicate set reverse sum mul add sub le lt min max mod div pow"
    " cond eqb ltb leb bit_and bit_or".split()
)
# Names that would fall together with another name of the repository or of a file that cites them, each with its spelling.
OTHERWISE = {
    name: name.replace("-", "_") + "_lem"
    for name in "clocks-from cost-of cycle-pairs edge-step eight-at few-clocks four-at is-lasso is-number least-of of-clock one-more-if"
    " past-edge record-at reward-of some-whole start-node stem-pairs units-asked until-edge"
    " comes_back each_step same_at same_codes".split()
}
# Fields of records and names private to a file that meet a function of another file, where neither file has both.
APART = {"clocks_in", "edges_in", "locations_in", "in_range", "node_in", "same_list"}


def respelled(name):
    if name in OTHERWISE:
        return OTHERWISE[name]
    if re.match(r"^[a-z]", name):
        name = re.sub(r"(?<=[a-z0-9])([A-Z])(?=[a-z0-9-]|$)", lambda m: "_" + m.group(1).lower(), name)
    if "-" in name and re.search(r"\w", name):
        parts = name.split("-")
        out = parts[0]
        for a, b in zip(parts, parts[1:]):
            symbol = not re.match(r"^[\w']+$", a) or not re.match(r"^[\w']+$", b)
            out += ("-" if (a in JOINED and b in JOINED) or symbol else "_") + b
        name = out
    return name


def turned(word, table):
    """A word of a page's code span, without the backticks that stand round it."""
    bare = word.strip("`")
    return word.replace(bare, table[bare]) if bare in table and re.search(r"[A-Z-]", bare) else word


def sources():
    root = pathlib.Path("crates")
    files = sorted(root.glob("*/specs/**/*.antt")) + sorted(root.glob("*/proofs/**/*.antt"))
    return [f for f in files if "/out/" not in str(f)]


def main():
    check = "--check" in sys.argv[1:]
    antt = sources()
    rt = sorted(pathlib.Path("crates").glob("*/src/**/*.rt"))
    text = {f: f.read_text() for f in antt + rt}
    declared = collections.defaultdict(set)
    made = collections.defaultdict(set)
    for f in antt:
        for line in text[f].splitlines():
            if line.strip().startswith("--"):
                continue
            m = DECLARED.match(line)
            if m and not line.strip().startswith(("use ", "pub use ", "mod ", "pub mod ", "let ", "module ")):
                (made[f] if re.match(r"\s*(tie|goal|given)\.", m.group(3)) else declared[f]).add(m.group(1))
            for m in re.finditer(r"\b(?:let|in) ([a-z][^\s:({]*) :", line):
                declared[f].add(m.group(1))
    names = set().union(*declared.values())
    table = {n: respelled(n) for n in names if respelled(n) != n}
    # what each file imports from the library and not from this repository
    own = {d.name for d in pathlib.Path("crates").iterdir()}
    lent = {}
    for f in text:
        lent[f] = set()
        for m in USE.finditer(text[f]):
            steps = m.group(1).split(".")
            if steps[0] == "Rattle" and len(steps) > 1 and steps[1] in own:
                continue
            for it in (m.group(2) or "").split(","):
                lent[f].add(it.split(" as ")[-1].strip())
    bad = []
    back = collections.defaultdict(set)
    for old, new in table.items():
        back[new].add(old)
        if new in names and new not in table and new not in APART:
            bad.append(f"{old} -> {new}: declared too, in {[str(f) for f in declared if new in declared[f]][:4]}; {old} in {[str(f) for f in declared if old in declared[f]][:4]}")
    for new, olds in back.items():
        if len(olds) > 1 and new not in APART:
            bad.append(f"{sorted(olds)} -> {new}")
    for f in text:
        words = set(w for l in text[f].splitlines() for w in WORD.findall(l))
        for old in words & set(table):
            if table[old] in lent[f]:
                bad.append(f"{f}: {old} -> {table[old]}, which it imports from the library")
    if check or bad:
        print("\n".join(sorted(bad)))
        print(f"{len(table)} names, {len(bad)} fall together")
        if bad or check:
            return 1 if bad else 0
    pages = [pathlib.Path("README.md"), *pathlib.Path("docs").glob("*.md"), *pathlib.Path("docs/landings").glob("*.md")]
    for f in pages:
        t = f.read_text()
        after = re.sub(r"`[^`\n]+`", lambda s: re.sub(WORD, lambda m: turned(m.group(), table), s.group()), t)
        if after != t:
            f.write_text(after)
    for f, t in text.items():
        keep = lent[f] | made[f]
        after = re.sub(
            WORD,
            lambda m: table[m.group()] if m.group() in table and m.group() not in keep else m.group(),
            t,
        )
        if after != t:
            f.write_text(after)
    print(f"{len(table)} names respelled")
    return 0


if __name__ == "__main__":
    sys.exit(main())
