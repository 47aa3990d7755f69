"""Prints what a listing prints: for each line `println(E)` the value of E, in 32 bits with wrap-around."""

import sys


def wrapped(n):
    return (n + 2**31) % 2**32 - 2**31


def value(chain):
    """Adds up products from the left."""
    words = chain.split(" ")
    total, sign, product = 0, 1, int(words[0])
    for operator, literal in zip(words[1::2], words[2::2]):
        if operator == "*":
            product = wrapped(product * int(literal))
        else:
            total += sign * product
            sign, product = 1 if operator == "+" else -1, int(literal)
    return wrapped(total + sign * product)


with open(sys.argv[1]) as listing:
    lines = [it.strip() for it in listing]
sys.stdout.write("".join(f"{value(it[8:-1])}\n" for it in lines if it.startswith("println(")))
