#!/usr/bin/env python3
"""Turns the names that this repository's specs/ and proofs/ declare from dashes to snake case, once.

Run at the top of the repository, after the toolchain's own script. What the prover names after the code (goals,
invariants, measures) keeps its dashes. Names of the standard library are left alone, since only names that a line
of this repository declares are turned; so are functions of src/, strings, inputs and outputs. It prints each name
that would fall together with another, and then writes nothing.

  tools/snake_names.py --anyway   writes all the same, where such names were looked at and are kept apart
"""
import re
import sys
from pathlib import Path

WORD = r"[^\W\d][\w'-]*"
TOKEN = re.compile(rf"(?<![\w'-])({WORD})")
DECLARED = re.compile(rf"^\s*(?:abbrev |unfoldable )?(?:pub )?(?:record |data )?({WORD}) :\s")
BOUND = re.compile(rf"(?:\blet |λ |[({{])({WORD})(?= [:=.])|\blet ({WORD}) =")
RENAMED = re.compile(rf"^(?:ghost )?use .*")
AS = re.compile(rf" as ({WORD})")
# bound by patterns
PATTERNS = "breaks-pair breaks-range breaks-session either-assoc found-there hv-not hv-old hw-not hw-old l-is r-is rank-p no-nearer in-range is-len".split()
GOAL = re.compile(rf"^\s*(?:abbrev )?(?:pub )?({WORD}) : (?:goal|need)\.")


def antt():
    return sorted(Path("crates").glob("*/specs/**/*.antt")) + sorted(Path("crates").glob("*/proofs/**/*.antt"))


def main():
    names, goals, every = {}, set(), set()
    for path in antt():
        for line in path.read_text().splitlines():
            every |= set(TOKEN.findall(line))
            goal = GOAL.match(line)
            if goal:
                goals.add(goal.group(1))
                continue
            found = [m.group(1) for m in [DECLARED.match(line)] if m]
            found += [a or b for a, b in BOUND.findall(line)]
            if RENAMED.match(line):
                found += AS.findall(line)
            for name in found:
                if "-" in name:
                    names.setdefault(name, path)
    for path in sorted(Path("crates").glob("*/src/**/*.rt")):
        for line in path.read_text().splitlines():
            if RENAMED.match(line):
                for name in AS.findall(line):
                    if "-" in name:
                        names.setdefault(name, path)
    for name in PATTERNS:
        names.setdefault(name, Path("a pattern"))
    turned = {n: n.replace("-", "_") for n in names if n not in goals}
    bad = False
    for old, new in sorted(turned.items()):
        if new in every:
            print(f"falls together: {old} ({names[old]}) and {new}")
            bad = True
    if bad and "--anyway" not in sys.argv:
        return 1
    files = antt() + sorted(Path("crates").glob("*/src/**/*.rt")) + sorted(Path("crates").glob("*/must-fail/*.edit"))
    for path in files:
        text = path.read_text()
        lines = []
        for line in text.split("\n"):
            # Rust's own names have no dash, and strings and comments are not read here
            code = not line.lstrip().startswith(("--", "//")) and not (path.suffix == ".rt" and '"' in line)
            lines.append(TOKEN.sub(lambda m: turned.get(m.group(1), m.group(1)), line) if code else line)
        new = "\n".join(lines)
        if new != text:
            path.write_text(new)
    print(f"{len(turned)} names turned")
    return 0


if __name__ == "__main__":
    raise SystemExit(main())
