#!/usr/bin/env python3
"""Writes crates/doubles/waits.txt, the stored waits of the program doubles, or the tables of crates/doubles/WAITS.md.

    tools/make_doubles.py > crates/doubles/waits.txt
    tools/make_doubles.py cases                what the records show
    tools/make_doubles.py orders               the wrong orders of operations, and how many records tell each
    tools/make_doubles.py million              a million records, for a measurement

The waits are worked out by tools/model.py, whose doubles are Python's.
"""

import argparse
import itertools
import sys
from fractions import Fraction

sys.dont_write_bytecode = True

import command
import doubles
import model
from selftest import below, draws

E, G = 900000.0, 1e-7


# Wrong orders of operations: each takes C, c, s and p, the first three as doubles


def power(o, factors=10):
    d = 1.0
    for _ in range(factors):
        d = d * o
    return d


def f_of(C, c):
    return 1.0 / power(1.0 - c / C)


def x_of(C, s, p):
    return (s / C + p / 32.0) + G


def squared(o):
    """o^10 by squaring: o^8 · o^2."""
    two = o * o
    four = two * two
    return (four * four) * two


def rounded_once(o):
    """o^10 as the nearest double, as the best power function has it."""
    return float(Fraction(o) ** 10)


WRONG = {
    "s/C + (p/32 + G)": lambda C, c, s, p: (E * f_of(C, c)) * (s / C + (p / 32.0 + G)),
    "(s/C + G) + p/32": lambda C, c, s, p: (E * f_of(C, c)) * ((s / C + G) + p / 32.0),
    "E·(f·x)": lambda C, c, s, p: E * (f_of(C, c) * x_of(C, s, p)),
    "(E·x)·f": lambda C, c, s, p: (E * x_of(C, s, p)) * f_of(C, c),
    "(E/d)·x": lambda C, c, s, p: (E / power(1.0 - c / C)) * x_of(C, s, p),
    "(E·x)/d": lambda C, c, s, p: (E * x_of(C, s, p)) / power(1.0 - c / C),
    "nine factors": lambda C, c, s, p: (E * (1.0 / power(1.0 - c / C, 9))) * x_of(C, s, p),
    "eleven factors": lambda C, c, s, p: (E * (1.0 / power(1.0 - c / C, 11))) * x_of(C, s, p),
    "f as 1/o multiplied ten times": lambda C, c, s, p: (E * power(1.0 / (1.0 - c / C))) * x_of(C, s, p),
    "f as C/(C - c) multiplied ten times": lambda C, c, s, p: (E * power(C / (C - c))) * x_of(C, s, p),
    "d by squaring": lambda C, c, s, p: (E * (1.0 / squared(1.0 - c / C))) * x_of(C, s, p),
    "d by a power function": lambda C, c, s, p: (E * (1.0 / rounded_once(1.0 - c / C))) * x_of(C, s, p),
    "o as (C - c)/C": lambda C, c, s, p: (E * (1.0 / power((C - c) / C))) * x_of(C, s, p),
    "o as 1 - c·(1/C)": lambda C, c, s, p: (E * (1.0 / power(1.0 - c * (1.0 / C)))) * x_of(C, s, p),
    "s·(1/C)": lambda C, c, s, p: (E * f_of(C, c)) * ((s * (1.0 / C) + p / 32.0) + G),
    "(s + p·C/32)/C": lambda C, c, s, p: (E * f_of(C, c)) * ((s + p * C / 32.0) / C + G),
    "G as 1e-6": lambda C, c, s, p: (E * f_of(C, c)) * ((s / C + p / 32.0) + 1e-6),
    "G left out": lambda C, c, s, p: (E * f_of(C, c)) * (s / C + p / 32.0),
    "p/33": lambda C, c, s, p: (E * f_of(C, c)) * ((s / C + p / 33.0) + G),
    "E as 900": lambda C, c, s, p: (900.0 * f_of(C, c)) * x_of(C, s, p),
}
# these two give every bit alike, so that no stored value can tell them
ALIKE = {
    "G as 1/10^7": lambda C, c, s, p: (E * f_of(C, c)) * ((s / C + p / 32.0) + 1.0 / 10000000.0),
    "p·(1/32)": lambda C, c, s, p: (E * f_of(C, c)) * ((s / C + p * (1.0 / 32.0)) + G),
}
RARE = ("s·(1/C)", "(s + p·C/32)/C", "(s/C + G) + p/32")


def differs(order, numbers):
    """Whether a wrong order gives other bits for these numbers."""
    C, c, s, p = map(float, numbers)
    return order(C, c, s, p) != model.double_wait(*numbers)


# The records


class Waits:
    def __init__(self):
        self.lines = ["# The stored waits of the program doubles, written by tools/make_doubles.py. WAITS.md says which record shows what."]
        self.shown = []             # [first record, last record, what they show]
        self.numbers = []           # C, c, s, p of the records whose wait is the right one
        self.records = 0

    def case(self, text):
        """What the records from here to the next case show."""
        self.lines += ["", f"# {text}"]
        self.shown.append([self.records + 1, self.records, text])

    def add(self, numbers, bits, expected):
        line = " ".join(map(str, numbers)) + f" 0x{bits:016x}"
        answer = model.compared_line(self.records + 1, doubles.record_of(line)).split()[1:]
        assert answer[: len(expected)] == expected, (line, answer)
        self.lines.append(line)
        self.records += 1
        self.shown[-1][1] = self.records

    def same(self, *numbers):
        self.numbers.append(numbers)
        self.add(numbers, right(*numbers), ["SAME", "0"])

    def off(self, by, *numbers):
        self.add(numbers, right(*numbers) + by, ["DIFF", str(-by)])

    def bad(self, bits, *numbers):
        self.add(numbers, bits, ["BAD"])


def right(*numbers):
    return model.bits_of(model.double_wait(*numbers))


def ends(waits):
    waits.case("the ends: capacities 1, 2, 3, 100, 999 and 1,000; c = 0, a half and C - 1; s = 0 and c; p = 0, 1 and 32")
    for capacity in (1, 2, 3, 100, 999, 1000):
        for occupied in sorted({0, capacity // 2, capacity - 1}):
            for same, similar in itertools.product(sorted({0, occupied}), (0, 1, 32)):
                waits.same(capacity, occupied, same, similar)
    waits.case("an empty registrar of other capacities: the factor is exactly 1.0")
    for capacity in (7, 49, 64, 256, 333, 512, 997):
        waits.same(capacity, 0, 0, 0)
        waits.same(capacity, 0, 0, 17)


def drawn(seed):
    source = draws(seed)
    while True:
        capacity = 1 + below(source, 1000)
        occupied = below(source, capacity)
        yield capacity, occupied, below(source, occupied + 1), below(source, 33)


def spread(waits):
    waits.case("drawn from all capacities, occupancies, services and points")
    for numbers in itertools.islice(drawn("waits"), 100):
        waits.same(*numbers)


def chosen(waits):
    """Drawn until each order of operations that is hard to tell is told often enough."""
    for name in RARE:
        waits.case(f"chosen so that {name} gives other bits")
        for numbers in itertools.islice((numbers for numbers in drawn(name) if differs(WRONG[name], numbers)), 12):
            waits.same(*numbers)


def last_bits(waits):
    waits.case("the last bit changed, up and down: the sign of the difference is that of ours less theirs")
    for numbers in ((1, 0, 0, 0), (1000, 500, 500, 0), (2, 1, 0, 32), (3, 1, 0, 0), (1000, 999, 999, 32), (100, 90, 45, 16), (256, 200, 20, 31)):
        for by in (1, -1):
            waits.off(by, *numbers)
    waits.case("two, ten and more doubles away, with 2 to 19 digits")
    for by in (2, -2, 9, 10, -10, 99, 100, 2**10, -(2**20), 2**32, -(2**32), 2**52, -(2**52), 10**18):
        waits.off(by, 100, 50, 7, 5)
    waits.case("a wait of +0.0, the least and the largest subnormal, the least normal and the largest finite number are in order")
    for bits in (0, 1, 2**52 - 1, 2**52, 0x7FEFFFFFFFFFFFFF):
        waits.add((3, 1, 0, 0), bits, ["DIFF", str(right(3, 1, 0, 0) - bits)])


def bad(waits):
    good = right(100, 10, 1, 1)
    for text, wrong, beside in (
        ("a capacity of 0", (0, 0, 0, 0), (1, 0, 0, 0)),
        ("a capacity of 1,001", (1001, 10, 1, 1), (1000, 10, 1, 1)),
        ("a capacity of 65,535", (65535, 10, 1, 1), (999, 10, 1, 1)),
        ("c = C", (100, 100, 1, 1), (100, 99, 1, 1)),
        ("c = C = 1", (1, 1, 0, 0), (1, 0, 0, 32)),
        ("c above C", (100, 101, 1, 1), (101, 100, 1, 1)),
        ("s = c + 1", (100, 10, 11, 1), (100, 10, 10, 1)),
        ("s = 1 on an empty registrar", (100, 0, 1, 1), (100, 0, 0, 1)),
        ("p = 33", (100, 10, 1, 33), (100, 10, 1, 32)),
        ("p = 255", (100, 10, 1, 255), (100, 10, 1, 31)),
    ):
        waits.case(f"{text}: BAD; beside it a record that is in order")
        waits.bad(good, *wrong)
        waits.same(*beside)
    for text, bits in (
        ("-0.0", 2**63),
        ("-1.0", 0xBFF0000000000000),
        ("the right wait with its sign bit set", 2**63 + good),
        ("infinity", 0x7FF0000000000000),
        ("minus infinity", 0xFFF0000000000000),
        ("no number: the first of them", 0x7FF0000000000001),
        ("no number: the usual one", 0x7FF8000000000000),
        ("no number: all bits set", 2**64 - 1),
    ):
        waits.case(f"{text}: BAD; beside it the right wait")
        waits.bad(bits, 100, 10, 1, 1)
        waits.same(100, 10, 1, 1)
    waits.case("everything at once: BAD, and counted like every other")
    waits.bad(2**64 - 1, 65535, 65535, 65535, 255)
    waits.bad(2**63, 0, 0, 1, 33)
    waits.same(1000, 999, 0, 0)


def whole():
    """The stored waits, with the text of the file."""
    waits = Waits()
    for part in (ends, spread, chosen, last_bits, bad):
        part(waits)
    waits.lines += ["", "# a byte other than 15: STOP, and the record behind it gets no line", "raw 05" + model.simulated(1, 0, 0, 0, right(1, 0, 0, 0)).hex()]
    return waits


def text():
    return "\n".join(whole().lines) + "\n"


def cases():
    yield "| records | what they show |"
    yield "|---|---|"
    for first, last, shows in whole().shown:
        yield f"| {first if first == last else f'{first} to {last}'} | {shows} |"


def orders():
    numbers = whole().numbers
    yield f"| instead | told by, of {len(numbers)} |"
    yield "|---|---|"
    for name, order in (WRONG | ALIKE).items():
        yield f"| {name} | {sum(differs(order, each) for each in numbers)} |"


def million():
    """Nine in ten have the right wait, the others differ, by one double or by more, or are BAD."""
    source = draws("million")
    for at, numbers in enumerate(itertools.islice(drawn("a million"), 10_000)):
        bits = right(*numbers)
        if at % 10 == 9:
            bits = (bits + (1, 2**64 - 1, below(source, 1000), 2**63)[at // 10 % 4]) % 2**64
        yield model.simulated(*numbers, bits)


def main():
    layout = argparse.RawDescriptionHelpFormatter
    parser = argparse.ArgumentParser(description=__doc__, formatter_class=layout, usage="tools/make_doubles.py [cases|orders|million]")
    parser.add_argument("what", nargs="?", choices=("cases", "orders", "million"), help=argparse.SUPPRESS)
    what = parser.parse_args().what
    if what == "million":
        sys.stdout.buffer.write(b"".join(million()) * 100)
    elif what:
        print("\n".join(cases() if what == "cases" else orders()))
    else:
        sys.stdout.write(text())


if __name__ == "__main__":
    command.run("tools/make_doubles.py", main)
