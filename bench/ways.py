#!/usr/bin/env python3
"""The longest way through functions of a program, an archive or an object file for x86-64.

ways.py FILE NAME..: for each function whose name contains one of NAMEs, the most instructions that one call can run, and
the most conditional jumps, those of the functions that it calls with them, from the disassembly.

Where no way is the longest, it is said, and the exit status is 1: a loop, recursion, a call of a function outside FILE, or
what cannot be read.
"""
import sys

sys.dont_write_bytecode = True
from stack import Reading, Unread, report  # noqa: E402


class Ways:
    """The longest way from each instruction of a function to its end."""

    def __init__(self, program, function, above):
        self.program = program
        self.function = function
        self.above = above
        self.reading = Reading(function)
        self.longest = {}

    def follow(self, index):
        """Instructions and conditional jumps from an instruction on; None marks those that this way is at."""
        if index not in self.longest:
            self.longest[index] = None
            self.longest[index] = self.step(index)
        elif self.longest[index] is None:
            raise Unread("%s, %x: a loop" % (self.function.name, self.reading.code[index].address))
        return self.longest[index]

    def step(self, index):
        instruction = self.reading.code[index]
        if instruction.name.startswith("j") and instruction.operands.startswith("*"):
            raise Unread("%s, %x: indirect jump" % (self.function.name, instruction.address))
        self.function.calls.clear()
        after = [place for place, _ in self.reading.step(index, 0)]
        below = [self.call(callee) for _, callee in self.function.calls]
        ways = [self.follow(place) for place in after] or [(0, 0)]
        jumps = int(instruction.name.startswith("j") and not instruction.name.startswith("jmp"))
        return tuple(
            own + max(way[k] for way in ways) + sum(way[k] for way in below) for k, own in enumerate((1, jumps))
        )

    def call(self, instruction):
        callee = self.program.callee(self.function, instruction)
        if isinstance(callee, str):
            raise Unread("%s, %x: calls %s" % (self.function.name, instruction.address, callee))
        return longest(self.program, callee, self.above)


def longest(program, function, above=()):
    """The most instructions and the most conditional jumps of one call."""
    if function in above:
        raise Unread("recursion: " + " > ".join(f.name for f in above + (function,)))
    return Ways(program, function, above + (function,)).follow(0)


def tell_way(program, function):
    print("%8d instructions, %d conditional jumps  %s" % (*longest(program, function), function.name))


if __name__ == "__main__":
    sys.setrecursionlimit(100000)
    report(__doc__, tell_way)
