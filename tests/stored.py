#!/usr/bin/env python3
"""Holds the stored runs of the lister to their table, tests/lister/README.md: each run has its row and each row its
run, in order, and each number from 20 to 33 comes out at the first line where it can and at a later one."""
import re
import sys
from pathlib import Path

ROOT = Path(__file__).resolve().parent.parent
STORED = ROOT / "tests/lister"
# The first line at which each number can come out; those of ONE_LINE come out at no other.
FIRST = {20: 0, 21: 1, 22: 1, 23: 1, 24: 2, 25: 2, 26: 3, 27: 2, 28: 2, 29: 34, 30: 6, 31: 3, 32: 6, 33: 1}
ONE_LINE = {20, 23, 33}


def files(name):
    """The text of a run, and what is printed of it."""
    example = re.fullmatch(r"example_(\w+)", name)
    text = ROOT / f"examples/{example[1]}.cosim" if example else STORED / f"{name}.in"
    return [text, STORED / f"{name}.out"]


def group(name):
    """Where a run stands in the table: refusals by their number, then orders and cycles, then examples."""
    number = re.match(r"(\d\d)_", name)
    return int(number[1]) if number else 99 + name.startswith("example_")


def refusal(name):
    """The number and the line that a run prints, or nothing."""
    out = files(name)[1]
    told = re.fullmatch(r"refused\t(\d+)\t(\d+)\n", out.read_text(encoding="utf-8")) if out.exists() else None
    return (int(told[1]), int(told[2])) if told else None


def run_fault(name, rows):
    """What is amiss with a run, or nothing."""
    lost = [file.name for file in files(name) if not file.exists()]
    if lost:
        return f"there is no {' and no '.join(lost)}"
    if rows.count(name) != 1:
        return f"has {rows.count(name)} rows"
    number, _ = refusal(name) or (None, None)
    if number != (group(name) if group(name) < 99 else None):
        return f"prints the refusal {number}" if number else "prints no refusal"
    return None


def number_fault(number, lines):
    """Where a number is missing, or nothing."""
    if FIRST[number] not in lines:
        return f"no run at line {FIRST[number]}"
    if number not in ONE_LINE and max(lines) == FIRST[number]:
        return "no run at a later line"
    return None


def main():
    rows = re.findall(r"^\| `([^`]+)` \|", (STORED / "README.md").read_text(encoding="utf-8"), re.M)
    names = {path.stem for path in STORED.iterdir() if path.suffix in (".in", ".out")}
    names |= {f"example_{path.stem}" for path in ROOT.glob("examples/*.cosim")}
    faults = {name: run_fault(name, rows) for name in sorted(names.union(rows))}
    told = [refusal(name) for name in names]
    for number in FIRST:
        faults[number] = number_fault(number, [line for found, line in filter(None, told) if found == number])
    ordered = sorted(rows, key=group) == rows
    faults["README.md"] = None if ordered else "its rows are not by number, then orders and cycles, then examples"
    failed = [f"{name}: {fault}" for name, fault in faults.items() if fault]
    print("\n".join(failed) if failed else f"{len(rows)} stored runs, each with its row")
    print(f"{len(faults) - len(failed)} passed, {len(failed)} failed")
    sys.exit(bool(failed))


main()
