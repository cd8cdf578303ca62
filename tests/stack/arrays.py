"""Looks for local arrays above 256 bytes in the .rt files of each folder: arrays.py FOLDER...

An array that is only lent, as `&[u8; 644]`, is another function's. What cannot be measured is refused.
"""
import pathlib
import re
import sys

LIMIT = 256
SIZES = {"bool": 1, "u8": 1, "i8": 1, "u16": 2, "i16": 2, "u32": 4, "i32": 4, "f32": 4,
         "u64": 8, "i64": 8, "usize": 8, "isize": 8, "f64": 8, "true": 1, "false": 1}
LENT = re.compile(r"&\s*(?:'\w+\s+)?(?:mut\s+)?$")
CONSTANT = re.compile(r"\bconst\s+([A-Z_0-9]+)\s*:\s*usize\s*=\s*([0-9_]+)")
# An array whose type is written beside it is measured by that type.
TYPED = re.compile(r"(:\s*\[[^=;]+;[^=\]]+\]\s*=\s*)\[\s*[0-9_]+\s*;[^\]]*\]")


def refuse(place, text):
    sys.exit(f"arrays: {place}: {text}")


def parts(text, start):
    """The element and the length of the array that opens at a bracket; nothing where it is no array."""
    depth, split = 0, None
    for place in range(start, len(text)):
        depth += (text[place] in "[({") - (text[place] in "])}")
        if depth == 1 and text[place] == ";":
            split = place
        if depth == 0:
            return split and (text[start + 1:split].strip(), text[split + 1:place].strip())
    return None


def length(text, constants, place):
    text = re.sub(r"[A-Z][A-Z_0-9]*", lambda name: constants.get(name[0], name[0]), text)
    text = re.sub(r"_|usize", "", text)
    if not re.fullmatch(r"[0-9+*() ]+", text):
        refuse(place, f"how long is an array of [{text}]?")
    return eval(text)


def size(element, count, constants, place):
    """Bytes: by the element's type, its literal's or its cast's, or its own parts; 8 for a bare number."""
    if element.startswith("["):
        one = size(*parts(element, 0), constants, place)
    elif re.fullmatch(r"[0-9_]+", element):
        one = 8
    else:
        word = re.fullmatch(r"(?:[0-9_]+|.* as )?([a-z]+[0-9]*)", element)
        one = SIZES.get(word[1] if word else None)
        if one is None:
            refuse(place, f"how wide is an element of [{element}; {count}]?")
    return one * length(count, constants, place)


def main():
    seen = 0
    for folder in map(pathlib.Path, sys.argv[1:]):
        files = sorted(folder.rglob("*.rt"))
        if not files:
            refuse(folder, "no source")
        texts = {file: re.sub(r"//.*", "", file.read_text(encoding="utf-8")) for file in files}
        constants = dict(pair for text in texts.values() for pair in CONSTANT.findall(text))
        for file, text in texts.items():
            text = TYPED.sub(r"\1_", text)
            for bracket in re.finditer(r"\[", text):
                array = parts(text, bracket.start())
                if not array or LENT.search(text[:bracket.start()]):
                    continue
                if (bytes_ := size(*array, constants, file)) > LIMIT:
                    refuse(file, f"[{array[0]}; {array[1]}] has {bytes_} bytes")
                seen += 1
    print(f"{seen} arrays, none above {LIMIT} bytes")


main()
