#!/usr/bin/env python3
"""Gives the names of specs/ and proofs/ today's spelling; run once, at the top, after the kit's own script.

A value in camel case goes into snake case. A dash stays where each of its parts is a name of its own,
of the repository or of the library, and is an underscore elsewhere. A name that would fall together
with another keeps its spelling, and is printed. Types, functions of src/ and strings are left alone.
"""
import pathlib
import re

DECLARED = re.compile(
    r"^( *)((?:(?:pub|abbrev|unfoldable|data|record|mutual|\|) )*)([^\s(){}:,.;]+)"
    r"((?: *[({][^:]*:[^=].*?[)}])*) *: (.*)$"
)
IMPORT = re.compile(r"^\s*(?:pub |ghost )?use (\S+?)\.\{([^}]*)\}", re.M)
WORD = re.compile(r"[^\s(){}\[\],;.\"`]+")
# The kit's script gave these the names that definitions get here: the spelling they had, or one of their own.
APART = {"in_entry": "in-entry", "no_output": "no-output", "one_more": "one-more", "unitLines": "the_unit_lines"}
SKIPPED = {"let", "where", "in", "λ", "|", "--", "use"}


def theory(top):
    """The files of definitions, laws and proofs."""
    return sorted(p for part in ("specs", "proofs") for p in top.glob(f"crates/*/{part}/**/*.antt"))


def sources(top):
    return sorted(top.glob("crates/*/src/**/*.rt"))


def answers(path):
    """Is this the proof of one function? Its own names are the goals', which the toolchain makes."""
    return path.name == "Proof.antt"


def declared(path):
    for line in path.read_text().split("\n"):
        bare = line.lstrip()
        if bare.startswith(("--", "let ", "use ", "pub use ")):
            continue
        found = DECLARED.match(line)
        if found and found.group(3) not in SKIPPED:
            yield found.group(3)


def snake(name):
    """camelCase as snake_case; a name that begins with a capital is a type's, or begins with one."""
    if not re.match(r"[a-z]", name):
        return name
    return re.sub(r"(?<=[a-z0-9])([A-Z])(?=[a-z]|\b|-|$)", lambda m: "_" + m.group(1).lower(), name)


def plan(top):
    names, library, aliases = set(), set(), set()
    for path in theory(top):
        if not answers(path):
            names.update(declared(path))
    for path in theory(top) + sources(top):
        for where, what in IMPORT.findall(path.read_text()):
            for one in what.split(","):
                name, *alias = one.replace(" as ", " ").split() or [""]
                aliases.update(alias)
                if not where.startswith("Rattle.") or where.startswith("Rattle.std."):
                    library.add(name)
    parts = names | library
    ours = (names | aliases) - library
    renamed, taken = dict(APART), (parts | aliases) - set(APART)

    def give(name, new):
        if new == name or name in renamed:
            return
        if new in taken:
            print("kept, since the new name is taken:", name, "->", new)
            return
        renamed[name] = new
        taken.add(new)

    for name in sorted(name for name in ours if "-" not in name):
        give(name, snake(name))
    for name in sorted(name for name in ours if "-" in name):
        new = snake(name)
        if not all(part in parts or snake(part) in parts for part in name.split("-")):
            new = new.replace("-", "_")
        give(name, new if new not in taken else snake(name))
    return renamed


def respelled(text, renamed, steps=False):
    """steps: a name with a dash that follows a dot is a step of the code there, and stays."""
    def one(found):
        name = found.group(0)
        if steps and "-" in name and text[: found.start()].endswith("."):
            return name
        return renamed.get(name, name)
    return WORD.sub(one, text)


CLAUSE = re.compile(r"^\s*(requires|ensures|ghost)\b")
BODY = re.compile(r"^\s*\{\s*$|^\S")


def source(text, renamed):
    """A source file: its ghost imports and its clauses alone, which stand before the body."""
    out, importing, inside = [], False, False
    for line in text.split("\n"):
        importing = importing or line.startswith("ghost use ")
        inside = not importing and bool(CLAUSE.match(line) or inside and not BODY.match(line))
        out.append(respelled(line, renamed) if importing or inside else line)
        importing = importing and not line.rstrip().endswith(";")
    return "\n".join(out)


def main():
    top = pathlib.Path(__file__).resolve().parent.parent
    renamed = plan(top)
    for path in theory(top):
        path.write_text(respelled(path.read_text(), renamed, answers(path)))
    for path in sources(top):
        path.write_text(source(path.read_text(), renamed))
    for name, new in sorted(renamed.items()):
        print(name, new)


if __name__ == "__main__":
    main()
