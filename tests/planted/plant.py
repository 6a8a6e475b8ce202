#!/usr/bin/env python3
"""Planted bugs. Each list here plants bugs in one crate, one at a time, in its code or in its definitions, and each must be refused.

  plant.py count [CRATE..]   how many bugs are planted in each function and each definition, and where there are too few
  plant.py table [CRATE..]   how many bugs are planted in each crate, and what becomes of them
  plant.py try [CRATE..]     plants each bug of the lists, and says which does not end as its list says

A list is blocks of lines: `name: WORD`, `file: PATH` in the crate, and pairs of lines `old: TEXT` and `new: TEXT`, of which each old text
stands in that file once. The prover refuses such a bug when it checks the crate. One line more says what else becomes of it:

  above: CRATE    the crate does not see it, and the check of that crate, which rests on it, refuses it
  shown: SCRIPT   no contract speaks of it, and that script fails once the program is built with it
  stays: WHY      nothing refuses it, and why that is right

The edits that the gate tries, of must-fail/, are counted with those of the lists.
"""
import re
import shutil
import subprocess
import sys
import tempfile
from collections import Counter
from pathlib import Path

HERE = Path(__file__).resolve().parent
TOP = HERE.parents[1]
FN = re.compile(r"^(?P<indent>[ \t]*)(?P<pub>pub )?(?:pub\(crate\) )?(?:const )?(?:extern \"C\" )?fn (?P<name>\w+)", re.M)
# (but for those in the lengths of arrays in a function's type)
SEMICOLON = re.compile(r";(?![^\[\]\n]*\])")
DEFINITION = re.compile(
    r"^(?P<indent> *)(?:(?:abbrev|unfoldable) )?(?:pub )?(?P<has_fields>(?:record|data) )?(?P<name>[\w◌]\S*)(?: [({][^)}]*[)}])* :(?= )|^ *module _", re.M
)


class Bug:
    def __init__(self, crate, name):
        self.crate, self.name, self.file, self.pairs, self.above, self.shown, self.stays = crate, name, "", [], None, None, None

    def edit(self):
        return f"file: {self.file}\n" + "".join(f"old: {old}\nnew: {new}\n" for old, new in self.pairs)

    def plant(self, top):
        """Plants the bug in a tree, and returns whether it could: each old text is there once."""
        at = top / "crates" / self.crate / self.file
        text = at.read_text()
        for old, new in self.pairs:
            if text.count(old) != 1:
                return False
            text = text.replace(old, new)
        at.write_text(text)
        return True


def bugs_in(text, crate):
    bug = None
    for line in text.split("\n"):
        key, _, value = line.partition(": ")
        if key == "name":
            bug = Bug(crate, value)
            yield bug
        elif bug and key == "old":
            bug.pairs.append((value, ""))
        elif bug and key == "new":
            bug.pairs[-1] = (bug.pairs[-1][0], value)
        elif bug and key in ("file", "above", "shown", "stays"):
            setattr(bug, key, value)


def listed(crate):
    at = HERE / f"{crate}.list"
    found = list(bugs_in(at.read_text(), crate)) if at.is_file() else []
    twice = [name for name, times in Counter(it.name for it in found).items() if times > 1]
    if twice:
        sys.exit(f"{at.name} has two bugs of one name: {', '.join(twice)}")
    return found


def edits(crate):
    found = sorted((TOP / "crates" / crate / "must-fail").glob("*.edit"))
    return [bug for it in found for bug in bugs_in(f"name: {it.stem}\n{it.read_text()}", crate)]


def functions(text):
    """Each function that has a body: its name, its first and last line, and how many bugs it wants: three where anybody can call it, as the method of
    a trait, or where it is long. What `fmt` prints is not promised."""
    of_traits = [(m.start(), m.end()) for m in re.finditer(r"^impl\b[^\n]* for (?:.|\n)*?^\}", text, re.M)]
    for m in FN.finditer(text):
        end, semicolon = re.compile(rf"^{m['indent']}\}}", re.M).search(text, m.end()), SEMICOLON.search(text, m.end())
        if not end or "{" not in text[m.end() : semicolon.start() if semicolon else None]:
            continue
        first, last = text.count("\n", 0, m.start()) + 1, text.count("\n", 0, end.start()) + 1
        body = text.find(f"\n{m['indent']}{{\n", m.end(), end.start())
        lines = text.count("\n", body + 1, end.start()) - 1 if body > 0 else last - first - 1
        is_of_a_trait = m["name"] != "fmt" and any(start < m.start() < stop for start, stop in of_traits)
        yield m["name"], first, last, 3 if m["pub"] or is_of_a_trait or lines > 10 else 0


def definitions(text):
    """Each definition, with the fields of a record: the same of it."""
    starts, within = [], None
    for m in DEFINITION.finditer(text):
        if not m["name"]:
            within = None
        elif within is None or len(m["indent"]) <= within:
            within = len(m["indent"]) if m["has_fields"] else None
            starts.append((m["name"], text.count("\n", 0, m.start()) + 1))
    ends = [line - 1 for _, line in starts[1:]] + [text.count("\n") + 1]
    for (name, first), last in zip(starts, ends):
        yield name, first, last, 1


def count(crates):
    lacking = 0
    for crate in crates:
        top, bugs = TOP / "crates" / crate, [*listed(crate), *edits(crate)]
        for path in sorted([*top.glob("src/**/*.rt"), *top.glob("specs/*.antt")]):
            text, here = path.read_text(), str(path.relative_to(top))
            lines = [{text.count("\n", 0, text.find(old)) + 1 for old, _ in it.pairs if old in text} for it in bugs if it.file == here]
            for name, first, last, wanted in (functions if path.suffix == ".rt" else definitions)(text):
                found = sum(any(first <= it <= last for it in bug) for bug in lines)
                lacking += found < wanted
                print(f"{crate}/{here}:{first}: {name} {found}{f'  too few of {wanted}' if found < wanted else ''}")
    print(f"{lacking} have too few")


def table(crates):
    whole = Counter()
    for crate in crates:
        found = Counter()
        for bug in [*listed(crate), *edits(crate)]:
            found["definitions" if bug.file.startswith("specs/") else "functions"] += 1
            found["stays" if bug.stays else "shown" if bug.shown else "above" if bug.above else "refused"] += 1
        whole += found
        print(crate, *(f"{name} {found[name]}" for name in ("functions", "definitions", "refused", "above", "shown", "stays")), sep="; ")
    print("all", *(f"{name} {whole[name]}" for name in ("functions", "definitions", "refused", "above", "shown", "stays")), sep="; ")


def copied(room):
    top = Path(room) / "top"
    shutil.copytree(TOP, top, ignore=shutil.ignore_patterns(".git", "out", "target"))
    (top / ".git").mkdir()
    return top


def run(words, folder):
    ran = subprocess.run(words, cwd=folder, stdin=subprocess.DEVNULL, stdout=subprocess.PIPE, stderr=subprocess.STDOUT, text=True)
    return ran.returncode, ran.stdout


def by_checks(bugs, top):
    """What rt must-fail says of the bugs, with these as the only edits."""
    crates = sorted({it.crate for it in bugs})
    for crate in crates:
        shutil.rmtree(top / "crates" / crate / "must-fail", ignore_errors=True)
        (top / "crates" / crate / "must-fail").mkdir()
    for it in bugs:
        (top / "crates" / it.crate / "must-fail" / f"{it.name}.edit").write_text(it.edit())
    _, said = run(["rt", "must-fail", *crates], top) if bugs else (0, "")
    for m in re.finditer(r"must-fail (\w+)/(\w+)\.edit: (.*)", said):
        # (that a name of a proof is gone says nothing of the contract, nor does a bug that the borrow checker cannot follow)
        is_refused = m[3].startswith("refused") and not re.search("only because a proof file names|large solution", m[3])
        yield (m[1], m[2]), ("refused" if is_refused else "let through" if m[3].startswith("NOT REFUSED") else "bad", m[3])


def by_check_above(bug, top):
    status, said = run(["rt", "check"], top / "crates" / bug.above)
    told = [it for it in said.split("\n") if re.search(r":\d+:\d+: (error|it is not proved|`search` found no proof)", it)]
    return ("let through", "") if not status else ("refused", told[0]) if told else ("bad", said[-200:])


def by_script(bug, top):
    status, said = run(["rt", "run"], top / "crates" / bug.crate)
    if "logic=proved" not in said:
        return "bad", f"no program is built of it: {said[-200:]}"
    status, said = run([bug.shown], top)
    return ("let through", "") if not status else ("refused", said[-200:])


def tries(crates):
    bugs = [bug for crate in crates for bug in listed(crate)]
    with tempfile.TemporaryDirectory() as room:
        found = dict(by_checks([it for it in bugs if not it.above and not it.shown], copied(room)))
    for one in (it for it in bugs if it.above or it.shown):
        with tempfile.TemporaryDirectory() as room:
            top = copied(room)
            told = (by_check_above if one.above else by_script)(one, top) if one.plant(top) else ("bad", "an old text is not there once")
            found[one.crate, one.name] = told
    wrong = 0
    for it in bugs:
        kind, told = found.get((it.crate, it.name), ("bad", "nothing was said of it"))
        is_well = kind == ("let through" if it.stays else "refused")
        wrong += not is_well
        told = (it.stays or told).replace("\n", " / ")
        print(f"{'' if is_well else 'WRONG: '}{it.crate}/{it.name}: {kind}: {told[:220]}")
    print(f"{len(bugs)} planted, {wrong} not as the lists say")
    return min(wrong, 99)


def main(words):
    every = [line.split(":")[0].split()[0] for line in (TOP / "crates.txt").read_text().split("\n") if line and line[0] != "#"]
    verbs = {"count": count, "table": table, "try": tries}
    if not words or words[0] not in verbs or any(it not in every for it in words[1:]):
        sys.exit(__doc__)
    return verbs[words[0]](words[1:] or every)


sys.exit(main(sys.argv[1:]))
