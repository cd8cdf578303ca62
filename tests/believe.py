#!/usr/bin/env python3
"""Holds docs/BELIEVE.md to the sources: each definition is there, its lines are counted right, their sum is what the
page says; and each word of a listed definition, of a named theorem and of a contract is listed itself."""
import re
import sys

sys.dont_write_bytecode = True
from sources import CRATES, PAGE, brought_in, contracts, defined, fold, rows, words  # noqa: E402


def counted():
    """What is amiss with the counts: of a row, of a name that is not there, of the sum."""
    total = 0
    for row in rows():
        heads = {(path, head) for path, d in row.listed for head in d.heads}
        lines = sum(len(d.lines) for _, d in row.listed) + len(heads)
        total += lines
        if lines != row.count:
            yield f"{row.cell}: {lines} lines, and the page says {row.count}"
        for name in set(row.named) - {d.name for _, d in row.listed}:
            yield f"{row.cell}: no {name}"
    said = sum(map(int, re.findall(r"^\| (?:the base|request \d+) \| (\d+) \|", PAGE, re.M)))
    if said != total:
        yield f"{total} lines of definitions, and the page says {said}"


def theorems():
    """For each theorem that the page names: its file and its statement, or nothing where no file has it."""
    public, others = {}, {name for row in rows() for name in row.named}
    for path in [path for part in ("proofs", "specs") for path in CRATES.glob(f"*/{part}/*.antt")]:
        public |= {d.name: (path, d) for d in defined(path) if d.lines[0].strip().startswith("pub ")}
        for listed in re.findall(r"use Rattle\.std\.[\w.]+\.\{([^}]*)\}", path.read_text(encoding="utf-8")):
            others |= set(re.findall(r"\w+", listed))
    for path in CRATES.glob("*/src/*.rt"):
        others |= set(re.findall(r"\bfn (\w+)", path.read_text(encoding="utf-8"))) - set(public)
    for name in sorted(set(re.findall(r"`([a-z]+(?:[-_]\w+)+)`", PAGE)) - others):
        path, theorem = public.get(name, (None, None))
        yield path, name, theorem and theorem.statement()


def statements():
    """What the page speaks of: listed definitions, named theorems, contracts of the files named above its tables."""
    for row in rows():
        yield from ((path, d.name, fold([*d.heads, *d.lines])) for path, d in row.listed)
    yield from theorems()
    for name in re.findall(r"`(\w+/src/\w+\.rt)`", PAGE.partition("\n## ")[0]):
        yield from ((CRATES / name, "a contract", text) for text in contracts(CRATES / name))


def unlisted():
    """Words that the page's statements use and its rows do not have."""
    known = {(path, d.name) for row in rows() for path, d in row.listed}
    for path, name, text in statements():
        if path is None:
            yield f"the page names {name}, and no file has it"
            continue
        own = [d.name for d in defined(path) if path.suffix == ".antt" or d.name[0].isupper()]
        names = {**{word: (path, word) for word in own}, **brought_in(path)}
        for there, word in sorted({names[word] for word in words(text) - {name} if word in names} - known):
            where, there = path.relative_to(CRATES), there.relative_to(CRATES)
            yield f"{where}: {name} uses {word} of {there}, which is not listed"


def main():
    failed = [*counted(), *unlisted()]
    print("\n".join(failed) if failed else f"{sum(row.count for row in rows())} lines of definitions")
    print(f"{0 if failed else 1} passed, {len(failed)} failed")
    sys.exit(bool(failed))


main()
