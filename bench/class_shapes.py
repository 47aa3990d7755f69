#!/usr/bin/env python3
"""Class files of near 4 MiB in four shapes, for bench/classes.

usage: class_shapes.py pool|code|methods|attributes SIZE FILE
"""

import struct
import sys

SHORT = b"\x1a\x1b\x60\x3c" * 6 + b"\x1a\x57\x00\xb1"


def u2(n):
    return struct.pack(">H", n)


def u4(n):
    return struct.pack(">I", n)


def utf8(text):
    return b"\x01" + u2(len(text)) + text


def attribute(name, info):
    return u2(name) + u4(len(info)) + info


def class_file(constants, methods, attributes):
    """A class `M` below java/lang/Object. Entry 1 is the text Code, 2 to 5 are the two classes, 6 is ()V."""
    first = [utf8(b"Code"), utf8(b"M"), b"\x07" + u2(2), utf8(b"java/lang/Object"), b"\x07" + u2(4), utf8(b"()V")]
    pool = first + constants
    return b"".join(
        [b"\xca\xfe\xba\xbe", u2(0), u2(49), u2(len(pool) + 1)]
        + pool
        + [u2(0x21), u2(3), u2(5), u2(0), u2(0), u2(len(methods))]
        + methods
        + [u2(len(attributes))]
        + attributes
    )


def method(name, content):
    return u2(9) + u2(name) + u2(6) + u2(1) + attribute(1, content)


def body(instructions):
    return b"\x00\x04\x00\x04" + u4(len(instructions)) + instructions + b"\x00\x00\x00\x00"


def of_pool(size):
    """Texts, as many as a pool holds."""
    count = 65000
    length = (size - 1000) // count - 3
    return class_file([utf8(f"{i:08d}".encode() + b"x" * (length - 8)) for i in range(count)], [], [])


def of_code(size):
    """Codes as long as they may be: loads, sums, jumps back, calls of nothing but arithmetic."""
    loop = b"\x1a\x1b\x60\x10\x07\x68\x3c\x84\x00\xff\x1a\x9e\xff\xf5\x15\x02\x3c"
    one = loop * (65000 // len(loop)) + b"\xb1"
    count = size // (len(one) + 40)
    names = [utf8(f"m{i}".encode()) for i in range(count)]
    return class_file(names, [method(7 + i, body(one)) for i in range(count)], [])


def of_methods(size):
    """As many methods as there may be, with short codes."""
    count = 65000
    names = [utf8(f"m{i:05d}".encode()) for i in range(count)]
    return class_file(names, [method(7 + i, body(SHORT)) for i in range(count)], [])


def of_attributes(size):
    """Many attributes that are passed over, of the class."""
    count = 65000
    length = (size - 1000) // count - 6
    return class_file([utf8(b"Other")], [], [attribute(7, b"y" * length)] * count)


SHAPES = {"pool": of_pool, "code": of_code, "methods": of_methods, "attributes": of_attributes}

if __name__ == "__main__":
    with open(sys.argv[3], "wb") as into:
        into.write(SHAPES[sys.argv[1]](int(sys.argv[2])))
