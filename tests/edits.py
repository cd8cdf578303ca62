#!/usr/bin/env python3
"""Holds each must-fail edit to its reason, which `rt ci` does not look at. Lines of the edit say which:
at: FILE            the first error of FILE is a fact of it that fails: a computed example, or a statement on a contract
run: examples       the program, run without proof on the edited sources, writes something else than its file `stdout`,
                    or stops at a fault before it has written that
run: lister NAME    the lister does so on the stored text tests/lister/NAME.in
`tests/edits.py CRATE/LABEL ...` holds only these."""
import os
import re
import shutil
import subprocess
import sys
import tempfile
from concurrent.futures import ThreadPoolExecutor
from pathlib import Path

ROOT = Path(__file__).resolve().parent.parent
STORED = ROOT / "tests/lister"
BY_SHAPE = "a trial run of this declaration was admitted"  # noted where only an `unfolding` is missing
FOLLOWS = re.compile(r"\d+ declarations? that depends? on |was not admitted")  # a consequence of another error
OTHERWISE = re.compile(r"^case=case run=(fault\b|.* output=differs\b)", re.M)  # it wrote something else, or stopped
PROGRAMS = {"examples": 1, "lister": 2}  # how many words a reason has
LONG = "900"  # seconds that a run may take: under a minute where it has a core of its own


def edited(edit, folder):
    """A copy of the crates in the folder, with the edit's replacements made."""
    crates = Path(folder) / "crates"
    shutil.copytree(ROOT / "crates", crates, ignore=shutil.ignore_patterns("out", "must-fail"))
    shutil.copy(ROOT / "crates.txt", folder)
    file = old = None
    for line in edit.read_text(encoding="utf-8").splitlines():
        if line.startswith("file: "):
            file = crates / edit.parent.parent.name / line[6:]
        elif line.startswith("old: "):
            old = line[5:]
        elif line.startswith("new:"):
            file.write_text(file.read_text(encoding="utf-8").replace(old, line[5:], 1), encoding="utf-8")
    return crates


def said(words, crate):
    """Whether a command in a crate's folder ends badly, and all that it says."""
    done = subprocess.run(words, cwd=crate, stdin=subprocess.DEVNULL, capture_output=True, text=True, check=False)
    return done.returncode != 0, done.stdout + done.stderr


def refused_at(edit, file):
    """Whether a fact of the named file fails, and not its shape or a consequence; other files' errors may stand above."""
    with tempfile.TemporaryDirectory() as folder:
        refused, text = said(["rt", "check"], edited(edit, folder) / edit.parent.parent.name)
    there = [line for line in text.splitlines() if re.match(rf"(\./)?{re.escape(file)}:\d+:\d+: ", line)]
    first = next((line for line in there if ": error: " in line), "was not admitted")
    return refused and not FOLLOWS.search(first) and not any(BY_SHAPE in line for line in there)


def writes_otherwise(edit, program, text=None):
    """Whether the program writes something else on the edited sources."""
    with tempfile.TemporaryDirectory() as folder:
        crate, cases = edited(edit, folder) / program, Path(folder) / "cases"
        cases.mkdir()
        (cases / "case").write_bytes((STORED / f"{text}.in").read_bytes() if text else b"")
        shutil.copy(STORED / f"{text}.out" if text else crate / "stdout", cases / "case.stdout")
        otherwise, told = said(["rt", "try", "--seconds", LONG, "--cases", str(cases)], crate)
    return otherwise and bool(OTHERWISE.search(told))


def fault(edit):
    """What is amiss with an edit's reasons, or nothing."""
    reasons = re.findall(r"^(at|run): (.+)$", edit.read_text(encoding="utf-8"), re.M)
    if not reasons:
        return "gives no reason"
    for kind, what in reasons:
        words = what.split()
        stored = STORED / f"{words[-1]}.in"
        if kind == "run" and (PROGRAMS.get(words[0]) != len(words) or len(words) > 1 and not stored.exists()):
            return f"no such run: {what}"
        if not (refused_at(edit, what) if kind == "at" else writes_otherwise(edit, *words)):
            return f"not refused for its reason: {kind}: {what}"
    return None


def main():
    edits = sorted(ROOT.glob("crates/*/must-fail/*.edit"))
    if sys.argv[1:]:
        edits = [ROOT / "crates" / name.replace("/", "/must-fail/", 1) for name in sys.argv[1:]]
        edits = [edit.with_suffix(".edit") for edit in edits]
    with ThreadPoolExecutor(os.cpu_count()) as pool:
        faults = list(pool.map(fault, edits))
    failed = [f"{edit.relative_to(ROOT)}: {why}" for edit, why in zip(edits, faults) if why]
    print("\n".join(failed) if failed else f"{len(edits)} edits, each refused for its reason")
    print(f"{len(edits) - len(failed)} passed, {len(failed)} failed")
    sys.exit(bool(failed) or not edits)


main()
