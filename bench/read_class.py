#!/usr/bin/env python3
"""Reads class files (JVMS 4), to compare with.

usage: read_class.py FILE [TIMES]

Prints the numbers of constants, fields, methods and instructions.
"""

import struct
import sys

# the bytes behind each opcode of JVMS 6.5; of 170, 171 and 196 they depend on what follows
SIZES = {16: 1, 17: 2, 18: 1, 19: 2, 20: 2, 132: 2, 169: 1, 185: 4, 186: 4, 188: 1, 197: 3, 200: 4, 201: 4}
SIZES.update({op: 1 for op in [*range(21, 26), *range(54, 59)]})
SIZES.update({op: 2 for op in [*range(153, 169), 178, 179, 180, 181, 182, 183, 184, 187, 189, 192, 193, 198, 199]})
SIZES.update({op: 0 for op in range(202) if op not in SIZES and op not in (170, 171, 196)})
# the bytes of each constant behind its tag, but for Utf8
CONSTANTS = {3: 4, 4: 4, 5: 8, 6: 8, 7: 2, 8: 2, 9: 4, 10: 4, 11: 4, 12: 4, 15: 3, 16: 2, 18: 4}


def instructions(code):
    """The offset and the opcode of each instruction."""
    at = 0
    while at < len(code):
        op = code[at]
        yield at, op
        if op == 196:
            at += 6 if code[at + 1] == 132 else 4
        elif op in (170, 171):
            aligned = at + 4 - at % 4
            count = struct.unpack_from(">i", code, aligned + 4)[0]
            if op == 170:
                count = struct.unpack_from(">i", code, aligned + 8)[0] - count + 1
                at = aligned + 12 + 4 * count
            else:
                at = aligned + 8 + 8 * count
        else:
            at += 1 + SIZES[op]


class Reader:
    """The bytes of a class file, and how far they are read."""

    def __init__(self, data):
        self.data, self.at = data, 0
        self.texts, self.codes = {}, []
        self.constants = self.fields = self.methods = 0
        # the offsets of tags that scalazy's format lacks
        self.odd_tags = []

    def number(self, size):
        found = int.from_bytes(self.data[self.at : self.at + size], "big")
        self.at += size
        return found

    def pool(self):
        count, index = self.number(2), 1
        while index < count:
            tag = self.number(1)
            if tag > 12:
                self.odd_tags.append(self.at - 1)
            if tag == 1:
                size = self.number(2)
                self.texts[index] = self.data[self.at : self.at + size]
                self.at += size
            else:
                self.at += CONSTANTS[tag]
            index += 2 if tag in (5, 6) else 1
        self.constants = count - 1

    def attributes(self, in_method):
        for _ in range(self.number(2)):
            name, size = self.number(2), self.number(4)
            if in_method and self.texts.get(name) == b"Code":
                begun = self.at + 8
                length = int.from_bytes(self.data[self.at + 4 : begun], "big")
                self.codes.append((begun, self.data[begun : begun + length]))
            self.at += size

    def members(self, are_methods):
        count = self.number(2)
        for _ in range(count):
            self.at += 6
            self.attributes(are_methods)
        return count

    def read(self):
        if self.number(4) != 0xCAFEBABE:
            raise ValueError("no class file")
        self.at += 4
        self.pool()
        self.at += 6
        interfaces = self.number(2)
        self.at += 2 * interfaces
        self.fields = self.members(False)
        self.methods = self.members(True)
        self.attributes(False)
        return self


def summary(data):
    """The numbers of constants, fields, methods and instructions."""
    read = Reader(data).read()
    return read.constants, read.fields, read.methods, sum(1 for _, code in read.codes for _ in instructions(code))


if __name__ == "__main__":
    with open(sys.argv[1], "rb") as file:
        DATA = file.read()
    for _ in range(int(sys.argv[2]) if len(sys.argv) > 2 else 1):
        FOUND = summary(DATA)
    print(*FOUND)
