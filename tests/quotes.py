#!/usr/bin/env python3
"""Holds the transcription under tests/transcribed/ to the sources: each quote stands word for word in its file, each
definition that docs/BELIEVE.md lists is quoted, and below each quote stands what transcribes it."""
import re
import sys
import textwrap

sys.dont_write_bytecode = True
from sources import ROOT, defined, definitions, rows  # noqa: E402

ITEM = re.compile(r"pub (?:fn|struct|enum|type|const) (\w+)")
NOT_COMPUTED = "// Not computed."


def transcription():
    """The quoted lines by their files; and each quote or item: where it stands, the quote, the line below it."""
    quoted, places = {}, []
    for path in sorted((ROOT / "tests/transcribed").rglob("*.rs")):
        source, quote = None, []
        for number, line in enumerate([*path.read_text(encoding="utf-8").splitlines(), ""], 1):
            between = line.startswith(("// ", "#[")) and line != NOT_COMPUTED
            if line.startswith("// ---- "):
                source = ROOT / line[8:]
            elif line.startswith("//| "):
                quote.append(line[4:])
            elif source and (ITEM.match(line) or quote and not between):
                quoted.setdefault(source, []).extend(quote)
                places.append((f"{path.relative_to(ROOT)}:{number}", quote, line))
                quote = []
    return quoted, places


def spellings(name):
    """A definition's name in Rust: of a relation or a type, of a function, of a fixed number."""
    snake = re.sub(r"(?<=[a-z])(?=[A-Z])", "_", name).lower()
    return name, snake, snake.upper()


def faults(quoted, places):
    """What is quoted and not in its file, listed and not quoted, or above an item of another name."""
    texts = {path: {d.whole() for d in definitions(lines)} for path, lines in quoted.items()}
    for path, found in texts.items():
        for _, text in found - {d.whole() for d in (defined(path) if path.exists() else ())}:
            yield f"{path.relative_to(ROOT)} has no {text}"
    for path, d in (listed for row in rows() for listed in row.listed):
        if d.whole() not in texts.get(path, ()):
            yield f"{path.relative_to(ROOT)}: {d.name} is listed and not quoted"
    for where, quote, below in places:
        names = [d.name for d in definitions(textwrap.dedent("\n".join(quote)).splitlines())]
        item = ITEM.match(below)
        if below != NOT_COMPUTED and not (item and names and item[1] in spellings(names[-1])):
            yield f"{where}: {names} stands above `{below}`"


def main():
    quoted, places = transcription()
    failed = list(faults(quoted, places))
    print("\n".join(failed) if failed else f"{len(places)} definitions quoted from {len(quoted)} files")
    print(f"{0 if failed else 1} passed, {len(failed)} failed")
    sys.exit(bool(failed))


main()
