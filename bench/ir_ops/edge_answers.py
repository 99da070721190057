#!/usr/bin/env python3
"""Prints the rows of crates/module_rows for the integer operations: each question with its answer behind it.

A row `int` names a width, an operation and operands at the edges, and is answered for each pair of them; a row
`cast` names two widths and is answered for each operand. What stands before ` =` is a line of `stdin`, and the
whole row one of `stdout`.

The numbers come from Python's unbounded integers and from nothing of the repository: signed numbers
are read by value, a quotient is rounded towards 0, a shift multiplies or divides by a power of two,
and the bitwise operations are counted bit by bit.
"""

WIDTHS = [1, 7, 8, 31, 32, 33, 63, 64]
OPERATIONS = "Add Sub Mul And Or Xor Shl LShr AShr UDiv URem SDiv SRem".split()
PREDICATES = "Eq Ne Ugt Uge Ult Ule Sgt Sge Slt Sle".split()
WIDER = [(1, 8), (7, 8), (8, 31), (31, 64), (33, 63), (63, 64)]
NARROWER = [(8, 1), (8, 7), (31, 8), (64, 31), (63, 33), (64, 63)]


def edges(width):
    """0, 1, the greatest and the least signed number, and all ones."""
    half = 2 ** (width - 1)
    return [0, 1, half - 1, half, 2 * half - 1]


def signed(width, number):
    return number if number < 2 ** (width - 1) else number - 2**width


def quotient(x, y):
    rounded = abs(x) // abs(y)
    return rounded if (x < 0) == (y < 0) else -rounded


def by_bits(width, rule, a, b):
    return sum(2**i for i in range(width) if rule(a // 2**i % 2, b // 2**i % 2))


def answer(width, operation, a, b):
    x, y = signed(width, a), signed(width, b)
    if operation in ("Shl", "LShr", "AShr") and b >= width:
        return "poison"
    if operation in ("UDiv", "URem", "SDiv", "SRem") and b == 0:
        return "undefined"
    if operation in ("SDiv", "SRem") and x == -(2 ** (width - 1)) and y == -1:
        return "undefined"
    number = {
        "Add": lambda: a + b,
        "Sub": lambda: a - b,
        "Mul": lambda: a * b,
        "And": lambda: by_bits(width, lambda p, q: p and q, a, b),
        "Or": lambda: by_bits(width, lambda p, q: p or q, a, b),
        "Xor": lambda: by_bits(width, lambda p, q: p != q, a, b),
        "Shl": lambda: a * 2**b,
        "LShr": lambda: a // 2**b,
        "AShr": lambda: x // 2**b,
        "UDiv": lambda: a // b,
        "URem": lambda: a % b,
        "SDiv": lambda: quotient(x, y),
        "SRem": lambda: x - quotient(x, y) * y,
    }[operation]()
    return f"{number % 2**width:x}"


def holds(width, predicate, a, b):
    if predicate[0] == "S":
        a, b = signed(width, a), signed(width, b)
    return {
        "Eq": a == b,
        "Ne": a != b,
        "gt": a > b,
        "ge": a >= b,
        "lt": a < b,
        "le": a <= b,
    }[predicate[-2:]]


def converted(width, wanted, way, number):
    value = signed(width, number) if way == "signed" else number
    return f"{value % 2**wanted:x}"


def row(question, operands, answers):
    given = " ".join(f"{number:x}" for number in operands)
    print(f"{question} {len(operands)} {given} = {' '.join(answers)}")


def main():
    for width in WIDTHS:
        pairs = [(a, b) for a in edges(width) for b in edges(width)]
        for each in OPERATIONS:
            row(f"int {width} {each}", edges(width), [answer(width, each, a, b) for a, b in pairs])
        for each in PREDICATES:
            row(f"int {width} {each}", edges(width), [str(int(holds(width, each, a, b))) for a, b in pairs])
    for width, wanted in WIDER + NARROWER:
        for way in ("signed", "unsigned") if width < wanted else ("unsigned",):
            row(
                f"cast {width} {wanted} {way}",
                edges(width),
                [converted(width, wanted, way, number) for number in edges(width)],
            )


main()
