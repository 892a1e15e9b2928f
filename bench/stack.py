#!/usr/bin/env python3
"""The deepest stack of functions of a program, an archive or an object file for x86-64, in bytes.

stack.py FILE NAME..: for each function whose name contains one of NAMEs, the deepest chain of direct calls, from the
disassembly. Each function of the chain stands with its return address, pushes, frame and red zone up to the call of the
next. Functions outside FILE, as memcpy, count with their return address alone, and those that are reached are listed.

What cannot be read is said, and the exit status is 1: an indirect call, recursion, a stack pointer set from a register.
"""
import re
import subprocess
import sys

RETURN_ADDRESS = 8
PREFIXES = {"bnd", "notrack", "rep", "repz", "repnz", "lock", "data16", "cs"}
ENDS = {"ret", "retq", "ud2", "hlt"}
JUMP = re.compile(r"j[a-z]+$")
TARGET = re.compile(r"([0-9a-f]+) <(.*?)(?:\+0x[0-9a-f]+)?>$")
RELOCATION = re.compile(r"\s+[0-9a-f]+: R_X86_64_\w+\s+(.*?)([+-]0x[0-9a-f]+)?$")
RED_ZONE = re.compile(r"-(0x[0-9a-f]+)\(%rsp[,)]")


class Unread(Exception):
    """What the disassembly does not tell."""


class Instruction:
    def __init__(self, address, text):
        words = text.split("#")[0].split(None)
        while len(words) > 1 and words[0] in PREFIXES:
            words.pop(0)
        self.address = address
        self.name = words[0]
        self.operands = " ".join(words[1:])
        self.symbol = None  # (name, offset), from a relocation


class Function:
    def __init__(self, place, name):
        self.place = place  # (member of the archive, section, address)
        self.name = name
        self.code = []
        self.deepest = 0  # without calls
        self.calls = []  # (depth at the call, instruction)


def disassemble(path):
    """All functions of a file, by place."""
    command = ["objdump", "-d", "-r", "-C", "--no-show-raw-insn", path]
    text = subprocess.run(command, check=True, capture_output=True, text=True).stdout
    functions, member, section, function = {}, "", "", None
    for line in text.splitlines():
        if ":     file format " in line:
            member = line.split(":")[0]
        elif line.startswith("Disassembly of section "):
            section = line[len("Disassembly of section "):-1]
        elif re.match(r"[0-9a-f]+ <.*>:$", line):
            address, name = line[:-2].split(" <", 1)
            function = Function((member, section, int(address, 16)), name)
            functions[function.place] = function
        elif RELOCATION.match(line):
            name, addend = RELOCATION.match(line).groups()
            function.code[-1].symbol = (name, int(addend or "0", 16) + 4)
        elif re.match(r" +[0-9a-f]+:\t", line):
            address, instruction = line.split(":\t", 1)
            function.code.append(Instruction(int(address, 16), instruction))
    return functions


def fold_probes(code):
    """A frame that is touched page by page in a loop becomes one subtraction; answers the new code."""
    folded, i = [], 0
    while i < len(code):
        texts = [c.name + " " + c.operands for c in code[i:i + 6]]
        size = None
        if len(texts) == 6 and texts[0] == "mov %rsp,%r11":
            size = re.match(r"sub \$(0x[0-9a-f]+),%r11$", texts[1])
            loop = texts[2:]
        elif len(texts) >= 5:
            size = re.match(r"lea -(0x[0-9a-f]+)\(%rsp\),%r11$", texts[0])
            loop = texts[1:5]
        if size and loop[0].endswith(",%rsp") and loop[2] == "cmp %r11,%rsp" and loop[3].startswith("jne "):
            folded.append(Instruction(code[i].address, "sub $%s,%%rsp" % size.group(1)))
            i += len(texts) if texts[0].startswith("mov") else 5
        else:
            folded.append(code[i])
            i += 1
    return folded


def signed(number):
    value = int(number, 0)
    return value - (1 << 64) if value >> 63 else value


def pushed(instruction):
    """By how much an instruction moves the stack pointer down."""
    name, operands = instruction.name, instruction.operands
    if name.startswith("push"):
        return 8
    if name.startswith("pop"):
        return -8
    if not operands.endswith(",%rsp") and name not in ("leave", "enter"):
        return 0
    if name.startswith(("cmp", "test")):
        return 0
    immediate = re.match(r"\$(-?0x[0-9a-f]+),%rsp$", operands)
    if name in ("sub", "subq") and immediate:
        return signed(immediate.group(1))
    if name in ("add", "addq") and immediate:
        return -signed(immediate.group(1))
    offset = re.match(r"(-?0x[0-9a-f]+)\(%rsp\),%rsp$", operands)
    if name == "lea" and offset:
        return -int(offset.group(1), 0)
    raise Unread("%x: %s %s" % (instruction.address, name, operands))


def is_table_jump(code, index):
    """Whether an indirect jump goes through a table of offsets, and so stays in its function."""
    before = " ; ".join(c.name + " " + c.operands for c in code[max(0, index - 8):index])
    register = code[index].operands[1:]
    return re.search(r"movslq (?:0x0)?\([^;]*,4\),%s ;.*add %%\w+,%s( ;|$)" % (register, register), before) is not None


class Reading:
    """The depth before each instruction of a function, along its jumps."""

    def __init__(self, function):
        self.function = function
        self.code = fold_probes(function.code)
        self.index = {c.address: i for i, c in enumerate(self.code)}
        self.depth = {}
        self.table_depths = set()

    def read(self):
        self.follow(0, RETURN_ADDRESS)
        for i, instruction in enumerate(self.code):
            if i in self.depth or instruction.name.startswith(("nop", "xchg", "int3")):
                continue
            if len(self.table_depths) != 1:
                raise Unread("%x: no jump that can be read leads here" % instruction.address)
            self.follow(i, min(self.table_depths))

    def follow(self, index, depth):
        waiting = [(index, depth)]
        while waiting:
            index, depth = waiting.pop()
            if index >= len(self.code):
                continue
            if index not in self.depth:
                self.depth[index] = depth
                waiting += self.step(index, depth)
            elif self.depth[index] != depth:
                raise Unread("%x: two depths, %d and %d" % (self.code[index].address, self.depth[index], depth))

    def step(self, index, depth):
        """Notes what an instruction does; answers the places that follow, with their depths."""
        instruction = self.code[index]
        after = depth + pushed(instruction)
        red_zone = RED_ZONE.search(instruction.operands)
        below = int(red_zone.group(1), 16) if red_zone and not instruction.name.startswith("lea") else 0
        self.function.deepest = max(self.function.deepest, after, depth + below)
        if instruction.name in ENDS:
            return []
        if instruction.name in ("call", "callq"):
            self.function.calls.append((depth, instruction))
        elif JUMP.match(instruction.name):
            return self.jump(index, depth)
        return [(index + 1, after)]

    def jump(self, index, depth):
        instruction = self.code[index]
        falls = [] if instruction.name in ("jmp", "jmpq") else [(index + 1, depth)]
        if instruction.operands.startswith("*"):
            if not is_table_jump(self.code, index):
                raise Unread("%x: indirect jump" % instruction.address)
            self.table_depths.add(depth)
            return falls
        target = TARGET.match(instruction.operands)
        if instruction.symbol is None and target and int(target.group(1), 16) in self.index:
            return falls + [(self.index[int(target.group(1), 16)], depth)]
        self.function.calls.append((depth - RETURN_ADDRESS, instruction))  # a tail jump
        return falls


class Program:
    def __init__(self, path):
        self.functions = disassemble(path)
        self.answers = {}

    def named(self, name, member):
        """The function of a name, of this member of the archive if it has one; or the name, of one outside."""
        functions = [f for f in self.functions.values() if f.name == name]
        near = [f for f in functions if f.place[0] == member] or functions
        return near[0] if near else name

    def callee(self, function, instruction):
        """The function called, or the name of one outside."""
        member, section, _ = function.place
        target = TARGET.match(instruction.operands)
        if instruction.symbol is not None:
            name, offset = instruction.symbol
            place = (member, name, offset)
        elif target:
            name, offset = target.group(2), 0
            place = (member, section, int(target.group(1), 16))
        else:
            raise Unread("%s, %x: indirect call" % (function.name, instruction.address))
        if place in self.functions:
            return self.functions[place]
        found = self.named(name.removesuffix("@plt"), member)
        outside = isinstance(found, str) and not name.startswith(".")
        if outside or name.endswith("@plt") or (instruction.symbol is not None and offset == 0):
            return found
        raise Unread("%s, %x: a call or jump into the middle of %s" % (function.name, instruction.address, name))

    def deepest(self, function, above=()):
        """The bytes of the deepest chain, the chain, and the names of the functions outside."""
        if function in above:
            names = [f.name for f in above[above.index(function):]]
            raise Unread("recursion: " + " > ".join(names + [function.name]))
        if function not in self.answers:
            self.answers[function] = self.read(function, above + (function,))
        return self.answers[function]

    def read(self, function, above):
        try:
            Reading(function).read()
        except Unread as problem:
            raise Unread("%s, %s" % (function.name, problem)) from None
        best, outside = (function.deepest, ["%s %d" % (function.name, function.deepest)]), set()
        for depth, instruction in function.calls:
            callee = self.callee(function, instruction)
            if isinstance(callee, str):
                outside.add(callee)
                found = (depth + RETURN_ADDRESS, ["%s (outside) %d" % (callee, RETURN_ADDRESS)])
            else:
                below, chain, further = self.deepest(callee, above)
                outside |= further
                found = (depth + below, chain)
            if found[0] > best[0]:
                best = (found[0], ["%s %d" % (function.name, depth)] + found[1])
        return best + (outside,)


def report(usage, tell):
    """Tells of each function that the command line names; the exit status is 0 if there is one and all could be read."""
    if len(sys.argv) < 3:
        sys.exit(usage.split("\n\n")[1])
    program = Program(sys.argv[1])
    names = sys.argv[2:]
    wanted = [f for f in program.functions.values() if "@plt" not in f.name and any(name in f.name for name in names)]
    bad = not wanted
    for function in wanted:
        try:
            tell(program, function)
        except Unread as problem:
            print("%8s  %s: %s" % ("not read", function.name, problem))
            bad = True
    sys.exit("no function has such a name" if not wanted else int(bad))


def tell_stack(program, function):
    size, chain, outside = program.deepest(function)
    print("%8d  %s" % (size, " > ".join(chain)))
    if outside:
        print("%8s  outside: %s" % ("", ", ".join(sorted(outside))))


if __name__ == "__main__":
    report(__doc__, tell_stack)
