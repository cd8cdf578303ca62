#!/usr/bin/env python3
"""Holds what `rt fmt` leaves open of the sources' layout: no line of Rattle or antt is above 100 columns, and each
proof file begins with a comment line, which says what the proof rests on."""
import sys

sys.dont_write_bytecode = True
from sources import CRATES, rows  # noqa: E402

COLUMNS = 100


def counted():
    """The lines of the definitions that docs/BELIEVE.md lists: it counts them as they stand."""
    return {(path, line) for row in rows() for path, d in row.listed for line in d.lines}


def faults(path, kept):
    """What is amiss with a file's lines, each with its place."""
    where, lines = path.relative_to(CRATES), path.read_text(encoding="utf-8").splitlines()
    for number, line in enumerate(lines, 1):
        if len(line) > COLUMNS and (path, line) not in kept:
            yield f"{where}:{number}: {len(line)} columns"
    if where.parts[1] == "proofs" and not (lines and lines[0].startswith("-- ")):
        yield f"{where}:1: no comment line at its head"


def main():
    files = [path for end in ("antt", "rt") for path in sorted(CRATES.rglob(f"*.{end}"))]
    files = [path for path in files if path.relative_to(CRATES).parts[1] != "out"]
    kept = counted()
    found = [list(faults(path, kept)) for path in files]
    failed = [fault for each in found for fault in each]
    print("\n".join(failed) if failed else f"{len(files)} files held to their layout")
    print(f"{found.count([])} passed, {len(failed)} failed")
    sys.exit(bool(failed) or not files)


main()
