#!/usr/bin/env python3
"""Holds the pages to the tree: links, paths and cited rules lead somewhere, every number has its line, and every
must-fail edit stands in EDITS.md (which `tests/pages.py --write` writes) and is named in PROMISES.md.
A page of what was done once may name a file that has stood in the tree at some commit.

A page cites a rule by a link to its section and its number, a source by words: SPECIFICATION, Precedence 3."""
import re
import subprocess
import sys
from functools import lru_cache
from pathlib import Path

ROOT = Path(__file__).resolve().parent.parent
PAGES = [ROOT / "README.md", *sorted((ROOT / "docs").rglob("*.md")), *sorted((ROOT / "examples").glob("*.md"))]
PAST = [*(ROOT / f"docs/{name}.md" for name in ("PORT", "DESIGN-PASS", "LOOK-BACK")), *(ROOT / "docs/changes").glob("*.md")]
ROOMS = ("crates", "tests", "bench", "include", "demo")
SPECIFICATION = ROOT / "docs/SPECIFICATION.md"
NUMBERS = [*range(0, 10), *range(11, 19), *range(20, 35)]
EDITS = ROOT / "docs/EDITS.md"
CITED = r"((?:(?: |, | and | to )\d+\b)*)"  # the rules behind a section's name


def read(path):
    return path.read_text(encoding="utf-8", errors="replace")


def is_source(path):
    """A file, and none that the toolchain made."""
    return path.is_file() and not (path.is_relative_to(ROOT / "crates") and path.relative_to(ROOT / "crates").parts[1] == "out")


def is_there(path):
    """In the tree, under crates/, or in some crate; words in capitals stand for any name."""
    path = re.sub(r"\b(NAME|LABEL)\b", "*", path).rstrip("/")
    if path.startswith("target"):
        return True
    return any(any(ROOT.glob(start + path)) for start in ("", "crates/", "crates/*/"))


def git(*words):
    """What git says of the tree; nothing where the tree has no history."""
    return subprocess.run(["git", "-C", ROOT, *words], capture_output=True, text=True).stdout


@lru_cache
def stood():
    """Every path that some commit has, each with the start that `is_there` allows left out too; None where the history is cut off."""
    if git("rev-parse", "--is-shallow-repository").strip() != "false":
        return None
    paths = set(git("log", "--format=", "--name-only").split())
    return paths | {path.partition("/")[2] for path in paths} | {path.split("/", 2)[-1] for path in paths}


def is_gone(path):
    """Did it stand in the tree, and does no longer? Where the history is cut off the page is taken at its word."""
    return not is_there(path) and (stood() is None or path in stood())


def anchor(heading):
    """The name that a heading has in links."""
    return re.sub(r"[^\w\- ]", "", heading.lower()).replace(" ", "-")


def anchors(page):
    return [anchor(heading) for heading in re.findall(r"^#+ (.+)$", read(page), re.M)]


def sections():
    """The sections of SPECIFICATION.md by name, each with the numbers of its rules as they stand there."""
    parts = re.split(r"^## (.+)$", read(SPECIFICATION), flags=re.M)
    rule = re.compile(r"^(?:\*\*(\d+)\.|\| (\d+) \|)", re.M)
    return {name: [int(a or b) for a, b in rule.findall(text)] for name, text in zip(parts[1::2], parts[2::2])}


def unruled(name, cited, rules):
    """The rules cited of a section that it does not have."""
    return [f"{name} {number}" for number in re.findall(r"\d+", cited) if int(number) not in rules]


def broken(page, rules):
    """The links of a page that lead to no file, to no heading, or to a section without the rule cited."""
    wrong = []
    for path, to, cited in re.findall(rf"\]\(([^)#:]*)(?:#([^):]*))?\){CITED}", read(page)):
        file = (page.parent / path).resolve() if path else page
        if not file.exists() or (to and to not in anchors(file)):
            wrong.append(f"{path}#{to}" if to else path)
        elif to and file == SPECIFICATION:
            wrong += unruled(to, cited, rules.get(to, []))
    return wrong


def lost(page):
    """The quoted paths of a page that lead nowhere, or to no heading."""
    wrong = []
    for quoted in re.findall(r"`(\w[\w.-]*/[^`\s]*)", read(page)):
        path, _, to = quoted.partition("#")
        if page in PAST and not to and is_gone(path):
            continue
        if re.search(r"\.\w+$|/$", path) and not (is_there(path) and (not to or to in anchors(ROOT / path))):
            wrong.append(quoted)
    return wrong


def misnamed(source, known):
    """What a source cites of SPECIFICATION.md that is not there: a section, or a rule of one."""
    wrong = []
    for words in re.findall(r"SPECIFICATION, ([A-Z].*)", read(source)):
        name = next((name for name in known if re.match(rf"{name}\b", words)), None)
        wrong += unruled(name, re.match(CITED, words[len(name):])[1], known[name]) if name else [words]
    return wrong


def edits_page():
    """All must-fail edits: what each does, and the fact that it is refused by."""
    lines = ["# Edits that must fail", "",
             "Each file `crates/NAME/must-fail/LABEL.edit` changes a few words of its crate. The prover must refuse the crate with "
             "it, and for the reason that the edit gives, which the gate looks at (`tests/edits.py`): the first error of the "
             "file named is a fact of it that fails, a computed example or a statement on a contract; or the program named, run on the edited sources, "
             "writes something else. [PROMISES.md](PROMISES.md) says which promise each edit breaks. "
             "This page is written by `tests/pages.py --write`.", "",
             "| edit | what it does | refused by |", "|---|---|---|"]
    for edit in sorted(ROOT.glob("crates/*/must-fail/*.edit")):
        text = read(edit)
        reasons = re.findall(r"^(?:at: (.+)|run: (.+))$", text, re.M)
        reasons = "; ".join(f"`{at}`" if at else f"a run of `{run}`" for at, run in reasons)
        lines.append(f"| `{edit.parent.parent.name}/{edit.stem}` | {text.splitlines()[0]} | {reasons} |")
    return "\n".join(lines) + "\n"


def unpromised():
    """Must-fail edits that PROMISES.md does not name, and those it names that are not there."""
    text = read(ROOT / "docs/PROMISES.md")
    edits = [(edit.parent.parent.name, edit.stem) for edit in sorted(ROOT.glob("crates/*/must-fail/*.edit"))]
    crates = {crate.name for crate in (ROOT / "crates").iterdir()}
    lost = [f"{crate}/{label}" for crate, label in re.findall(r"`(\w+)/(\w+)`", text)
            if crate in crates and (crate, label) not in edits]
    return lost + [f"{crate}/{label}" for crate, label in edits if not re.search(rf"`({crate}/)?{label}`", text)]


def main():
    if sys.argv[1:] == ["--write"]:
        EDITS.write_text(edits_page(), encoding="utf-8")
    known = sections()
    rules = {anchor(name): numbers for name, numbers in known.items()}
    failed = [f"SPECIFICATION.md: a rule of {name} stands twice"
              for name, numbers in known.items() if len(numbers) != len(set(numbers))]
    for page in PAGES:
        failed += [f"{page.name}: {path} is not there" for path in broken(page, rules) + lost(page)]
    for source in (path for room in ROOMS for path in sorted((ROOT / room).rglob("*")) if is_source(path)):
        failed += [f"{source.relative_to(ROOT)}: no SPECIFICATION, {rule}" for rule in misnamed(source, known)]
    if known.get("Numbers") != NUMBERS:
        failed.append(f"SPECIFICATION.md: the numbers' lines are {known.get('Numbers')}")
    rows = re.findall(r"^\| (\d+) \|", read(ROOT / "docs/INTEGRATE.md"), re.M)
    if [int(row) for row in rows] != NUMBERS:
        failed.append(f"INTEGRATE.md: the numbers' lines are {rows}")
    headers = "".join(read(path) for path in sorted((ROOT / "include").glob("*.h")))
    enums = "".join(re.findall(r"^enum oorlichday_\w*number \{(.*?)^\}", headers, re.M | re.S))
    named = [int(number) for number in re.findall(r"^    OORLICHDAY_\w+ = (\d+)", enums, re.M)]
    if named != NUMBERS:
        failed.append(f"include: the numbers named are {named}")
    failed += [f"PROMISES.md: {edit} is named there and is not in the tree, or the other way round" for edit in unpromised()]
    if not EDITS.exists() or read(EDITS) != edits_page():
        failed.append("EDITS.md is not what the tree has: look at the change, then tests/pages.py --write")
    print("\n".join(failed) if failed else f"{len(PAGES)} pages")
    print(f"{0 if failed else 1} passed, {len(failed)} failed")
    sys.exit(bool(failed))


main()
