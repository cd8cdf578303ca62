#!/usr/bin/env python3
"""Holds the contracts of the public functions, as the toolchain stored them beside each proved crate:
crates/NAME/proofs/Settled.antt states of each that it settles a call, and docs/CONTRACTS.md quotes each clause.
One that asks something of its caller is stated to settle a call where that holds, and docs/PROMISES.md lists it.
Of a static library nothing is stored: its contracts are read from its source.
`tests/contracts.py --write` writes the page."""
import functools
import re
import sys
from pathlib import Path

ROOT = Path(__file__).resolve().parent.parent
PAGE = ROOT / "docs/CONTRACTS.md"
PROMISES = ROOT / "docs/PROMISES.md"
LIVES, LENT = r"(?:< '[^>]*> )?", r"(?: < '[^>]* >)?"  # the lifetimes of a type that borrows, as an impl names them
SEEN = r"r\.now|result_map_both \(λ t\. t\.bytes\.now\) \(λ e\. e\) r"  # what is seen of an answer that borrows
HEADING = """# The contract of each public function

Public is whatever another crate or C can call. Each clause is quoted as the toolchain stored it beside the proved crate (it stores nothing of an archive, `firmware_c` and `desk_c`: these as they stand in the source), with the definitions it cites; the page is written by `tests/contracts.py --write` and held to the proved crates by the gate. `crates/NAME/proofs/Settled.antt` proves of each contract that it asks nothing and permits one answer, with every lent byte; of the few that ask something, that they permit one answer where it holds. [PROMISES.md](PROMISES.md) says each in words, and lists those that ask.
"""


def crates():
    """The listed crates that are libraries with functions, in the list's order, and whether each is static."""
    for line in (ROOT / "crates.txt").read_text(encoding="utf-8").splitlines():
        words = line.partition("#")[0].partition(":")[0].split()
        if words and (ROOT / f"crates/{words[0]}/src/lib.rt").exists():
            yield words[0], "staticlib" in words


def signature(crate, function):
    """Where the contracts of a crate stand, and a pattern of a function with them: as stored, or in the source."""
    if dict(crates())[crate]:
        return ROOT / f"crates/{crate}/src", rf"\bfn {function}\(.*?\n *{{$"
    top = ROOT / f"crates/{crate}/out/rlib/{crate}.rlib/lang/src"
    if not top.exists():
        sys.exit(f"{crate} is not proved yet: run rt ci, or rt lib in its folder\n0 passed, 1 failed")
    return top, rf"\bfn {function} \(.*? ;$"


def impl_of_trait(name=r"\w+"):
    """The line that opens an impl of a trait: what it is, and the name that it is stored under."""
    return rf"(?:# \[.*\] )?(impl .* for .*) as ({name}) {{$"


def files(top):
    """The modules below a folder: the path, the text, and whether another crate can name it."""
    for file in sorted(top.rglob("*.rt")):
        module = file.relative_to(top).with_suffix("").parts
        own = len(module) == 1 and re.search(rf"^mod {module[0]} ;$", (top / "lib.rt").read_text(encoding="utf-8"), re.M)
        yield () if module == ("lib",) else module, file.read_text(encoding="utf-8"), not own


def public_functions(crate):
    """The paths of the functions that another crate or C can call, those of a trait's impl by the impl's name."""
    top, _ = signature(crate, "")
    public = top.parents[1] / "interface/lang/src"  # without the modules and functions that are the crate's own
    top = public if public.exists() else top
    hidden = {name for _, text, known in files(top)
              for pub, name in re.findall(r"^(?:# .*\] )?(pub )?(?:struct|enum|trait) (\w+)", text, re.M) if not (pub and known)}
    for module, text, known in files(top):
        owner, pub = (), r"\bpub (?:extern \"C\" )?"
        for line in text.splitlines() if known else []:
            if opened := re.match(impl_of_trait(), line):
                owner, pub = (opened[2],), "^" if hidden.isdisjoint(re.findall(r"\w+", opened[1])) else "(?!)"
            elif opened := re.match(rf"impl {LIVES}(\w+)", line):
                owner = (opened[1],)
            elif line.startswith("}"):
                owner, pub = (), r"\bpub (?:extern \"C\" )?"
            elif named := re.search(rf"{pub}fn (\w+)", line):
                yield module + owner + (named[1],)


def lacking(crate, path, text):
    """What a crate's file does not state of a function, to the end of the line."""
    base = re.escape(".".join(path))
    says = re.search(rf"^use Rattle\.{crate}\.proofs\.{base}\.Reads as ([\w-]+)$", text, re.M)
    if whole := re.search(rf"^use Rattle\.{crate}\.specs\.contracts\.{base} as ([\w-]+)$", text, re.M):
        name = whole[1]
        settled = rf"SettlesClauses {name}\.ended \(λ m\. {name}\.clauses [^→]*\)"
    elif says and (kinds := re.search(rf"^use Rattle\.{crate}\.proofs\.{base}\.Kinds as ([\w-]+)$", text, re.M)):
        name = kinds[1]
        at = rf"{name}\.ps {name}\.r {says[1]}\.Asked {says[1]}\.Learnt"
        settled = rf"(Settles {at}|SettlesSeen {at} \(λ κs r\. ({SEEN})\))"
        if asks(crate, path):
            settled = rf"SettlesWhere {at} {seen(crate, path)}"
    else:
        return True
    stated = re.sub("[-_]", "[-_]", name)  # the statement's name has dashes or none
    return not re.search(rf"^pub {stated}[-_]settled : {settled}$", text, re.M)


@functools.lru_cache(None)
def stored(crate, path):
    """The contract of a function as the toolchain stored it: what it brings in, and its clauses."""
    top, pattern = signature(crate, path[-1])
    modules = [part for part in path[:-1] if part[0].islower()] or ["lib"]
    owner = next((part for part in path[:-1] if part[0].isupper()), None)
    text = top.joinpath(*modules).with_suffix(".rt").read_text(encoding="utf-8")
    opens = rf"impl {LIVES + owner + LENT} {{$|{impl_of_trait(owner)}" if owner else ".*impl .* {$"
    block = re.compile(rf"^(?:{opens})(?s:.*?)^}}$", re.M)
    whole = block.search(text)[0] if owner else block.sub("", text)
    found = re.search(pattern, whole, re.M | re.S)[0]
    clauses = re.split(r"\n +(?=requires |ensures )", re.sub(r"(\n *{| ;)$", "", found))[1:]
    if given := re.match(impl_of_trait(), whole.partition("\n")[0]):
        clauses = [given[1], *re.findall(r"^ +(ghost \w+ = {.*?}) ?;$", whole, re.M | re.S), *clauses]
    uses = re.findall(r"^ghost use ([^;]*);", text, re.M)
    return [" ".join(use.split()) for use in uses], [" ".join(clause.split()) for clause in clauses]


def asks(crate, path):
    """Whether a function asks something of its caller."""
    return any(clause.startswith("requires ") for clause in stored(crate, path)[1])


def listed():
    """The functions that the page of promises lists as asking something, each with the fields of its answer left open."""
    part = PROMISES.read_text(encoding="utf-8").partition("\n## What asks")[2].partition("\n## ")[0]
    entries = re.findall(r"^- \*\*`(\w+(?:::\w+)+)`\*\*(.*)$", part, re.M)
    return {name: re.findall(r"leaves `(\w+)` open", text) for name, text in entries}


def seen(crate, path):
    """What of an answer is stated to be one: all of it, the bytes of a part, or the fields that are not listed as left open."""
    left = listed().get("::".join((crate, *path)), [])
    if not left:
        return r"\(λ κs r\. r(\.now)?\)"
    interface = (signature(crate, "")[0] / "lib.rt").read_text(encoding="utf-8")
    answer = re.search(rf"fn {path[-1]} \(.*\) -> (\w+)$", interface, re.M)[1]
    fields = re.findall(r"pub (\w+) :", re.search(rf"struct {answer} {{(.*)}}", interface)[1])
    return r"{B = [^{}]*} \(λ κs r\. \(" + ", ".join(rf"r\.{field}" for field in fields if field not in left) + r"\)\)"


def cited(clauses, uses):
    """The project's definitions that the clauses cite, and where each stands."""
    found = {}
    for use in uses:
        named = re.match(r"Rattle\.(\w+)\.specs\.([\w.]+)\.\{(.*)\}$", use)
        if named and (ROOT / f"crates/{named[1]}").is_dir():
            words = [word.strip() for word in named[3].strip(", ").split(",")]
            words = [word for word in words if stands(word.split()[-1].strip("◌"), clauses)]
            if words:
                found.setdefault(f"{named[1]}/specs/{named[2].replace('.', '/')}", []).extend(words)
    return [f"{', '.join(words)} of {where}" for where, words in found.items()]


def stands(word, clauses):
    """Whether the word stands in the clauses, by itself and not as a field."""
    return re.search(rf"(?<![\w.'-]){re.escape(word)}(?![\w'-])", clauses)


def entry(crate, path):
    """The page's entry of one function."""
    uses, clauses = stored(crate, path)
    lines = [f"`{crate}::{'::'.join(path)}`", "", *("    " + clause for clause in clauses)]
    words = sorted(cited(" ".join(clause.partition("{")[2] for clause in clauses), uses))
    return "\n".join(lines + (["", f"Where: {'; '.join(words)}."] if words else [])) + "\n"


def page(functions):
    parts = [HEADING]
    for crate in dict.fromkeys(crate for crate, _ in functions):
        parts += [f"## {crate}\n", *(entry(crate, path) for of, path in functions if of == crate)]
    return "\n".join(parts)


def main():
    functions, failed = [], []
    for crate, _ in crates():
        file = ROOT / f"crates/{crate}/proofs/Settled.antt"
        text = re.sub(r"\n +", " ", file.read_text(encoding="utf-8")) if file.exists() else ""
        if re.search(r"^(\w+ )*(Settles\w*|Says) :", text, re.M):
            failed.append(f"{crate}: Settled.antt has words of its own")
        for path in public_functions(crate):
            functions.append((crate, path))
            if lacking(crate, path, text):
                failed.append(f"{crate}: {'.'.join(path)} is not stated in Settled.antt")
            if crate.endswith("_c") and stored(crate, path)[1] != stored(crate[:-2], path)[1]:
                failed.append(f"{crate}: {'.'.join(path)} promises something else than that of {crate[:-2]}")
    asking = {"::".join((crate, *path)) for crate, path in functions if asks(crate, path)}
    failed += [f"docs/PROMISES.md lists {name} as asking, or the function asks: only one of the two"
               for name in sorted(asking ^ set(listed()))]
    if sys.argv[1:] == ["--write"]:
        PAGE.write_text(page(functions), encoding="utf-8")
    if not PAGE.exists() or PAGE.read_text(encoding="utf-8") != page(functions):
        failed.append("docs/CONTRACTS.md is not what the crates say: look at the change, then tests/contracts.py --write")
    print("\n".join(failed) if failed else f"{len(functions)} public functions, each settled by its contract")
    print(f"{len(functions) if not failed else 0} passed, {len(failed)} failed")
    sys.exit(bool(failed) or not functions)


main()
