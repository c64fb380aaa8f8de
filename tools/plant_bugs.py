#!/usr/bin/env python3
"""Plants bugs in a clone of the repository, and says which the prover lets through.

A bug is one line of one function's body changed as somebody might by mistake: a comparison that takes its bound in or leaves
it out, a sum for a difference, one more or one less, a wrong end of two, a condition turned round. Of all such changes in a
crate's `src/` so many are drawn by the seed, and `rt must-fail` tries each alone, as it tries the kept wrong bodies; those
that don't compile or can't be read, and those whose check was stopped, are void. It prints each that was proved, with its file and
line, and a count for each crate.
Whether one that was proved is a bug at all is for a reader to tell: some changes leave what the function does as it was.

It works in a clone of the repository that is thrown away afterwards, whose kept wrong bodies it removes. The clone's crates
are proved first where they weren't.
Usage: tools/plant_bugs.py CLONE COUNT SEED CRATE..   (COUNT changes of each of these crates)
"""
import pathlib
import random
import re
import shutil
import subprocess
import sys

HERE = pathlib.Path(__file__).resolve().parent.parent
CHANGES = [
    (r" < ", " <= "),
    (r" <= ", " < "),
    (r" == ", " != "),
    (r" != ", " == "),
    (r" \+ ", " - "),
    (r" - ", " + "),
    (r" \* ", " + "),
    (r" / ", " % "),
    (r" % ", " / "),
    (r" && ", " || "),
    (r" \|\| (?!->)", " && "),
    (r" \+= ", " -= "),
    (r"\bif (\w+(\.\w+)*(\([^()]*\))?) \{", r"if !\1 {"),
    (r"\b0\b", "1"),
    (r"\b1\b", "2"),
    (r"\b1\b", "0"),
    (r"\btrue\b", "false"),
    (r"\bfalse\b", "true"),
    (r"\bmin\(", "max("),
    (r"\bmax\(", "min("),
    (r"\.first\(", ".last("),
    (r"\((\w+), (\w+)\)", r"(\2, \1)"),
    (r"\.0\b", ".1"),
    (r"\.lo\b", ".hi"),
    (r"\.hi\b", ".lo"),
    (r"\.w\b", ".h"),
    (r"\.h\b", ".w"),
    (r"\.x\b", ".y"),
    (r"\.y\b", ".x"),
]
# lines of contracts, of what only the prover reads, and of what is no code
LEFT_OUT = re.compile(r"^\s*(//|ghost |use |pub use|#\[|requires|ensures|\)|'?\w*:? *$|fn |pub fn|pub\(crate\) fn|impl|const|pub const)")


def changes_of(path, name):
    """Each change of a line that stands once in its file."""
    lines = path.read_text().split("\n")
    tests = next((i for i, line in enumerate(lines) if line.startswith("#[test]")), len(lines))
    inside = False
    for i, line in enumerate(lines[:tests]):
        if line in ("{", "    {"):
            inside = True
        elif line in ("}", "    }"):
            inside = False
        if not inside or LEFT_OUT.match(line) or sum(line in other for other in lines) != 1:
            continue
        for pattern, new in CHANGES:
            changed = re.sub(pattern, new, line, count=1)
            if changed != line:
                yield name, i + 1, line, changed


def plant(crate, count, seed):
    """Writes so many edits into the crate's folder of wrong bodies, in place of the kept ones."""
    every = []
    for path in sorted((crate / "src").rglob("*.rt")):
        every += changes_of(path, path.relative_to(crate).as_posix())
    random.Random(f"{seed} {crate.name}").shuffle(every)
    shutil.rmtree(crate / "must-fail", ignore_errors=True)
    (crate / "must-fail").mkdir()
    planted = {}
    for number, (name, line, old, new) in enumerate(every[:count]):
        edit = f"planted_{number:03}"
        (crate / "must-fail" / f"{edit}.edit").write_text(f"# {name}, line {line}\nfile: {name}\nold: {old}\nnew: {new}\n")
        planted[edit] = f"{crate.name}/{name}, line {line}:\n    {old.strip()}\n    {new.strip()}"
    return planted


def report(crate, planted, text):
    """Prints what was proved, and counts what the prover said of each."""
    said = dict(re.findall(rf"must-fail {crate}/(\w+)\.edit: (.*)", text))
    refused = [edit for edit in planted if said.get(edit, "").startswith("refused")]
    void = [edit for edit in planted if said.get(edit, "").startswith(("BAD EDIT", "NOT TRIED"))]
    proved = [edit for edit in planted if edit in said and edit not in refused and edit not in void]
    for edit in proved:
        print(f"let through: {planted[edit]}")
    untold = len(planted) - len(said)
    print(f"{crate}: {len(refused)} refused, {len(proved)} let through, {len(void)} void, {untold} of which nothing was said", flush=True)


def main():
    if len(sys.argv) < 5 or pathlib.Path(sys.argv[1]).resolve() == HERE:
        sys.exit(__doc__)
    clone, count, seed, names = pathlib.Path(sys.argv[1]), int(sys.argv[2]), sys.argv[3], sys.argv[4:]
    for name in names:
        planted = plant(clone / "crates" / name, count, seed)
        tried = subprocess.run(["rt", "must-fail", name], cwd=clone, stdout=subprocess.PIPE, stderr=subprocess.STDOUT, text=True)
        report(name, planted, tried.stdout)


main()
