"""The sources taken apart: definitions by name, what a file brings in, contracts; and the rows of docs/BELIEVE.md."""
import re
from pathlib import Path
from typing import NamedTuple

ROOT = Path(__file__).resolve().parent.parent
CRATES = ROOT / "crates"
PAGE = (ROOT / "docs/BELIEVE.md").read_text(encoding="utf-8")
MODIFIERS = re.compile(r"^(unfoldable |abbrev )?(pub )?(record |data |struct |enum )?")


def indent(line):
    return len(line) - len(line.lstrip())


def fold(lines):
    """The lines as one text with single spaces."""
    return " ".join(" ".join(lines).split())


class Definition(NamedTuple):
    """A definition's lines, and the headers of the modules that it stands in."""

    name: str
    heads: tuple
    lines: list

    def whole(self):
        return self.heads, fold(self.lines)

    def statement(self):
        """The headers and the signature, without clauses and proof."""
        depth = indent(self.lines[0])
        rest = next((i for i, line in enumerate(self.lines) if i and indent(line) <= depth), None)
        return fold([*self.heads, *self.lines[:rest]])


def definitions(lines, heads=()):
    """The definitions of one depth: signature, clauses and what is indented below; modules are entered."""
    found, depth, place = [], indent(lines[0]) if lines else 0, 0
    while place < len(lines):
        line, place = lines[place], place + 1
        if indent(line) == depth and line.lstrip().startswith("module "):
            head = [line]
            while not head[-1].rstrip().endswith("where"):
                head, place = [*head, lines[place]], place + 1
            end = next((i for i in range(place, len(lines)) if indent(lines[i]) <= depth), len(lines))
            found += definitions(lines[place:end], (*heads, fold(head)))
            place = end
            continue
        name = MODIFIERS.sub("", line.strip()).split()[0]
        goes_on = indent(line) > depth or name == "unfolding" or name[0] in "])}"
        if found and (goes_on or (found[-1].name == name and found[-1].heads == heads)):
            found[-1].lines.append(line)
        else:
            found.append(Definition(name, heads, [line]))
    return found


def defined(path):
    """The definitions of a file; a line that is an import, a comment or blank is none of theirs."""
    lines, importing = [], False
    for line in path.read_text(encoding="utf-8").splitlines():
        if importing or re.match(r"(ghost )?use ", line):
            importing = "}" not in line and ("{" in line or importing)
        elif line.strip() and not line.strip().startswith(("--", "//")):
            lines.append(line)
    return definitions(lines)


def declared(crate, parts):
    """Where a type stands that is declared in code, and its name: `declared.records.Record` and the like."""
    parts = [part for part in parts if part != "TheVariants"]
    return CRATES / crate / "src" / f"{(['lib'] + parts[1:-1])[-1]}.rt", parts[-1]


def brought_in(path):
    """For each name that a file brings in from the project: the file it stands in, and its name there."""
    text, names = path.read_text(encoding="utf-8"), {}
    used = re.findall(r"use Rattle\.(\w+)\.(specs|proofs)\.([\w.]+)\.\{([^}]*)\}", text)
    for crate, part, module, listed in used:
        if not (CRATES / crate).is_dir():
            continue
        parts = module.split(".")
        for entry in filter(None, map(str.strip, listed.split(","))):
            there, _, here = entry.partition(" as ")
            at = CRATES / crate / part / f"{module}.antt", there
            names[here or there] = declared(crate, parts) if parts[0] == "declared" else at
    for crate, name in re.findall(r"^use (\w+)::([A-Z]\w*);", text, re.M):
        names[name] = (path.parent / "lib.rt" if crate == "crate" else CRATES / crate / "src/lib.rt", name)
    return names


def contracts(path):
    """The signatures and contracts of a file's public functions."""
    text = path.read_text(encoding="utf-8")
    return re.findall(r"^ *pub (?:extern \"C\" )?fn .*?\n *\{\n", text, re.M | re.S)


def words(text):
    """The words of a text but the fields that it asks of records, as in `s.units`."""
    return set(re.findall(r"[^\s(){}\[\].;,:|&]+", re.sub(r"(?<=[\w')])\.[\w-]+", " ", text)))


class Row(NamedTuple):
    """A row of the page: its first cell, the lines that it says, the names in it, the definitions with their files."""

    cell: str
    count: int
    named: list
    listed: list


def rows():
    for cell, count in re.findall(r"^\| (`[^|]*\.(?:antt|rt)`[^|]*) \| (\d+) \|", PAGE, re.M):
        paths, _, names = cell.partition(":")
        named, folder, listed = re.findall(r"`([^`]+)`", names), CRATES, []
        for name in re.findall(r"`([^`]+)`", paths):
            path = CRATES / name if "/" in name else folder / name
            folder = path.parent
            listed += [(path, d) for d in defined(path) if not named or d.name in named]
        yield Row(cell, int(count), named, listed)
