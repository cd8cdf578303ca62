"""The most stack an exported function can use, from its machine code and call graph.

bound.py DISASSEMBLY EXPORT LIMIT: prints the bytes. Counted are pushes, frames, return addresses
and what is kept below the stack pointer. Refuses more than the limit, recursion, indirect calls, a
stack pointer it cannot follow, and calls of anything outside but memcpy and memset.
"""
import re
import sys

OUTSIDE = {"memcpy", "memset"}
FUNCTION = re.compile(r"^[0-9a-f]+ <(.+)>:$")
INSTRUCTION = re.compile(r"^\s+([0-9a-f]+):\s+(\S+)\s*(.*)$")
RELOCATION = re.compile(r"^\s+[0-9a-f]+: R_X86_64_(?:PLT32|PC32)\s+(\S+?)(?:[-+]0x[0-9a-f]+)?$")
PREFIXES = {"notrack", "bnd", "rep", "repz", "repnz", "lock", "data16", "cs"}


def fail(text):
    sys.exit("stack: " + text)


def read(lines):
    """For each function its instructions in order: [address, word, operands, symbol or None]."""
    functions, body = {}, None
    for line in lines:
        if match := FUNCTION.match(line):
            body = functions.setdefault(match[1], [])
        elif (match := RELOCATION.match(line)) and body:
            body[-1][3] = re.sub(r"^\.text\.(unlikely\.)?", "", match[1])
        elif (match := INSTRUCTION.match(line)) and body is not None:
            word, operands = match[2], match[3]
            while word in PREFIXES and operands:
                word, _, operands = operands.partition(" ")
            body.append([int(match[1], 16), word, operands.strip(), None])
    return functions


def moved(word, operands, name):
    """How many bytes an instruction moves the stack pointer down."""
    if word in ("push", "pop"):
        return 8 if word == "push" else -8
    if not re.match(r"rsp\b", operands) or word in ("cmp", "test"):
        return 0
    amount = re.fullmatch(r"rsp,(0x[0-9a-f]+|\d+)", operands)
    if word in ("sub", "add") and amount:
        count = int(amount[1], 0)
        count -= (count >> 63) << 64
        return count if word == "sub" else -count
    offset = re.fullmatch(r"rsp,\[rsp([-+])(0x[0-9a-f]+)\]", operands)
    if word == "lea" and offset:
        return int(offset[2], 16) * (1 if offset[1] == "-" else -1)
    return fail(f"{name}: cannot follow '{word} {operands}'")


def kept_below(operands):
    """How far below the stack pointer an instruction reads, writes or points."""
    below = re.search(r"\[rsp(?:\+\w+\*\d)?-(0x[0-9a-f]+)\]", operands)
    return int(below[1], 16) if below and not operands.startswith("rsp,") else 0


class Walk:
    """Every way through one function, with the depth at each instruction."""

    def __init__(self, name, body, most):
        self.name, self.body, self.most = name, body, most
        self.place = {instruction[0]: index for index, instruction in enumerate(body)}
        self.depth, self.todo, self.deepest, self.switches = {}, [], 0, set()

    def reach(self, index, depth):
        if index >= len(self.body):
            return
        if index not in self.depth:
            self.depth[index] = depth
            self.todo.append(index)
        elif self.depth[index] != depth:
            fail(f"{self.name}: two depths at one place")

    def leave(self, operands, symbol, depth):
        """A call, or a jump out of the function."""
        named = re.fullmatch(r"[0-9a-f]+ <(.+?)(?:\+0x[0-9a-f]+)?>", operands)
        if symbol is None and not named:
            fail(f"{self.name}: indirect call '{operands}'")
        self.deepest = max(self.deepest, depth + self.most(symbol or named[1]))

    def take(self, index):
        _, word, operands, symbol = self.body[index]
        depth = self.depth[index] + moved(word, operands, self.name)
        self.deepest = max(self.deepest, depth + kept_below(operands))
        named = re.match(r"([0-9a-f]+) <", operands)
        inside = self.place.get(int(named[1], 16)) if named and symbol is None else None
        if word == "call":
            self.leave(operands, symbol, depth)
        elif word.startswith("j") and inside is not None:
            self.reach(inside, depth)
        elif word.startswith("j") and symbol is None and not named:
            if not self.by_table(index):
                fail(f"{self.name}: indirect jump '{operands}'")
            self.switches.add(depth)
        elif word.startswith("j"):
            self.leave(operands, symbol, depth - 8)
        if word not in ("jmp", "ret", "ud2", "hlt"):
            self.reach(index + 1, depth)

    def by_table(self, index):
        """Is the jump to an offset just loaded from a table and added to its place?"""
        to = self.body[index][2]
        loaded, added = self.body[max(index - 2, 0):index][-2:] or (None, None)
        return (loaded[1] == "movsxd" and loaded[2].startswith(to + ",DWORD PTR [")
                and added[1] == "add" and added[2].startswith(to + ","))

    def arm(self):
        """Code that only a jump table reaches begins at the depth of the jump."""
        if len(self.switches) > 1:
            fail(f"{self.name}: jump tables at two depths")
        for index, (_, word, _, _) in enumerate(self.body):
            if self.switches and index not in self.depth and word not in ("nop", "int3", "xchg"):
                self.reach(index, min(self.switches))
                return

    def run(self):
        self.reach(0, 0)
        while self.todo:
            self.take(self.todo.pop())
            if not self.todo:
                self.arm()
        return self.deepest


class Graph:
    def __init__(self, functions):
        self.functions, self.known, self.open = functions, {}, []

    def most(self, name):
        """Return address, own frame and the deepest callee."""
        if name in OUTSIDE:
            return 8
        if name not in self.functions:
            fail(f"calls {name}, which the archive does not hold")
        if name in self.open:
            fail("recursion: " + " -> ".join(self.open + [name]))
        if name not in self.known:
            self.open.append(name)
            self.known[name] = 8 + Walk(name, self.functions[name], self.most).run()
            self.open.pop()
        return self.known[name]


def main():
    code, export, limit = sys.argv[1:]
    with open(code, encoding="utf-8") as lines:
        most = Graph(read(lines)).most("oorlichday_" + export)
    if most > int(limit):
        fail(f"{export} can use {most} bytes, more than {limit}")
    print(most)


main()
