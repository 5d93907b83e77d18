#!/usr/bin/env python3
"""Compares a simulator's waits with the registrar's, by the proved program doubles: text to records, and answers in words.

    tools/doubles.py try waits.txt      runs the proved program on a text, and prints each line with its answer in words
    tools/doubles.py encode waits.txt   text to the program's input, records of kind 15
    tools/doubles.py decode waits.bin   the text again; the waits stand there as hex digits
    tools/doubles.py run waits.bin      the lines that the program must print, by tools/model.py
    tools/doubles.py table              how far the recipe is from the doubles, by occupancy: the table of docs/DOUBLES.md

Without a file they read standard input. try compares the program's answers with the model's.

The text has one wait to a line. '#' starts a comment.

    C c s p WAIT

C             the capacity, c the live ads, s those of the newcomer's service, each 0 to 65535; p the points, 0 to 255.
              What the program calls BAD can be written too, to see that it does.
WAIT          the simulator's wait in milliseconds: a decimal, as 92.16 or 1.5e3, which is read to the nearest double, or
              its 64 bits as 16 hex digits, as 40f5f90000000000. inf, nan and negative numbers are read, and are BAD.
              Sixteen digits without a letter could be either: write 0x before bits, or .0 behind a number.
raw HEX       bytes as they are: a cut or an unknown record. Only at the end.

Status: 0; 1 for bad lines and for answers that differ; 2 for bad usage, a missing file or a missing program.
"""

import argparse
import re
import subprocess
import sys
import tempfile
from fractions import Fraction

sys.dont_write_bytecode = True

import command
import model

DECIMAL = re.compile(r"[+-]?(\d+\.?\d*|\.\d+)([eE][+-]?\d+)?|[+-]?(inf|nan)")
HEX = re.compile(r"(0x)?[0-9a-fA-F]{16}")
LARGEST = {"C": 2**16 - 1, "c": 2**16 - 1, "s": 2**16 - 1, "p": 2**8 - 1}


class Wrong(command.Failed):
    """What is wrong with a line, or with the whole text."""


def wait_bits(word):
    """The 64 bits that a WAIT stands for."""
    if re.fullmatch(r"\d{16}", word):
        raise Wrong(f"'{word}' could be bits or a number: write 0x before bits, or .0 behind a number")
    if HEX.fullmatch(word):
        return int(word.removeprefix("0x"), 16)
    if DECIMAL.fullmatch(word):
        return model.bits_of(float(word))
    raise Wrong(f"'{word}' is no wait: a decimal, as 92.16, or 16 hex digits")


def small_number(name, word):
    if not re.fullmatch(r"\d+", word) or int(word) > LARGEST[name]:
        raise Wrong(f"{name} is '{word}', and must be a number from 0 to {LARGEST[name]}")
    return int(word)


def record_of(line):
    """The bytes of one line: a record, raw bytes, or none."""
    words = line.partition("#")[0].split()
    if not words:
        return b""
    if words[0] == "raw":
        if len(words) != 2 or not re.fullmatch(r"([0-9a-fA-F]{2})+", words[1]):
            raise Wrong("raw takes pairs of hex digits")
        return bytes.fromhex(words[1])
    if len(words) != 5:
        raise Wrong(f"a line has five words, C c s p WAIT, and this one {len(words)}")
    numbers = [small_number(name, word) for name, word in zip("C c s p".split(), words)]
    return model.simulated(*numbers, wait_bits(words[4]))


def encode_lines(lines):
    """Each line with its bytes. All bad lines are told at once."""
    rows, faults, ended = [], [], False
    for at, line in enumerate(lines, 1):
        try:
            data = record_of(line)
            if data and ended:
                raise Wrong("nothing may follow raw bytes")
            ended = ended or line.split()[:1] == ["raw"]
            rows.append((line, data))
        except Wrong as wrong:
            faults.append(f"line {at}: {wrong}")
    if faults:
        raise Wrong("\n".join(faults))
    return rows


def encode(lines):
    return b"".join(data for _, data in encode_lines(lines))


def decode(data):
    """The text of an input: encoding it gives the input back, whatever it is."""
    at, size = 0, 1 + model.SIMULATED_BODY
    while data[at : at + 1] == bytes([model.SIMULATED]) and len(data) - at >= size:
        *numbers, bits = (model.number(field) for field in model.cut(data[at + 1 : at + size], 2, 2, 2, 1, 8))
        yield " ".join(map(str, numbers)) + f" 0x{bits:016x}"
        at += size
    if at < len(data):
        yield f"raw {data[at:].hex()}"


# Trying a text


def in_words(line, record):
    """A line of the program, and what it says of the record."""
    parts = re.fullmatch(r"\d+ (SAME|DIFF) (-?\d+) (\d+)", line)
    if not parts:
        return f"{line}: not numbers that a registrar can have, or no wait" if line.endswith("BAD") else line
    distance, recipe = int(parts[2]), int(parts[3])
    wait = "the recipe gives the longest wait there is" if recipe == model.NEVER else f"the recipe gives {recipe} ms"
    if parts[1] == "SAME":
        return f"{line}: the very same double; {wait}"
    steps = "the next double" if abs(distance) == 1 else f"{abs(distance)} doubles"
    side = "above" if distance > 0 else "below"
    ours = model.double_of(model.number(record[8:]) + distance)
    return f"{line}: ours is {ours!r}, {steps} {side} theirs; {wait}"


def proved_lines(data):
    """What the proved program prints."""
    import log

    with tempfile.TemporaryFile() as file:
        file.write(data)
        file.seek(0)
        done = subprocess.run([log.program("doubles")], stdin=file, capture_output=True)
    if done.returncode or done.stderr:
        raise command.Failed(f"doubles ended with status {done.returncode} and said: {done.stderr.decode(errors='replace')}")
    return done.stdout.decode(errors="replace").split("\n")[:-1]


def try_waits(lines):
    """Prints each line with the proved program's answer in words, and fails where the model's differs."""
    rows = encode_lines(lines)
    data = b"".join(record for _, record in rows)
    printed, right = proved_lines(data), list(model.compared(data))
    left = list(printed)
    for line, record in rows:
        print(line)
        if record and left:
            print(f"    {in_words(left.pop(0), record)}")
    for line in left:
        print(line)
    if printed != right:
        at = next((at for at, (ours, theirs) in enumerate(zip(printed, right)) if ours != theirs), min(len(printed), len(right)))
        raise command.Failed(f"from answer {at + 1} on the proved program prints {printed[at:at + 1]}, the model {right[at:at + 1]}")
    print(f"{len(printed)} answers of the proved program: the model's are the same.")


# How far the recipe is from the doubles

OCCUPANCIES = (0, 25, 50, 75, 80, 85, 90, 95)


def tenths(most):
    """0, a tenth of it, and so on to all of it."""
    return sorted({most * part // 10 for part in range(11)})


def row(capacity, percent):
    """One row: over s in tenths of c and all p, the recipe's wait less the double, where the recipe's is not the longest."""
    occupied = capacity * percent // 100
    factor = Fraction(capacity, capacity - occupied) ** model.FACTORS
    gaps, others, out = [], 0, 0
    for same in tenths(occupied):
        for similar in range(33):
            recipe, double = model.wait_of(capacity, occupied, same, similar), model.double_wait(capacity, occupied, same, similar)
            if recipe == model.NEVER:
                out += 1
                continue
            gaps.append(recipe - Fraction(double))
            others += model.ceil(*Fraction(double).as_integer_ratio()) != recipe
    mean = sum(gaps) / len(gaps)
    bound = 1 + 11 * factor / model.PER_MS
    cells = [f"{occupied} of {capacity:,}", f"{len(gaps)}", f"{out}", f"{float(max(gaps)):,.3f}", f"{float(mean):,.3f}", f"{float(bound):,.3f}", f"{others}"]
    return "| " + " | ".join(cells) + " |"


def table():
    """Everything is worked out in exact fractions and rounded once, to show it."""
    yield "| occupancy | points | left out | largest | mean | 1 + 11·f/8192 | another millisecond |"
    yield "|---|---|---|---|---|---|---|"
    for capacity in (100, 1000):
        for percent in OCCUPANCIES:
            yield row(capacity, percent)


def text_lines(file):
    """The lines of a text file, which is read whole."""
    try:
        return file.read().decode().splitlines()
    except UnicodeDecodeError as wrong:
        raise Wrong(f"this is no text, from byte {wrong.start} on; decode turns records into text") from None


def arguments():
    layout = argparse.RawDescriptionHelpFormatter
    usage = "tools/doubles.py try|encode|decode|run|table [FILE]  (--help explains)"
    parser = argparse.ArgumentParser(description=__doc__, formatter_class=layout, usage=usage)
    parser.add_argument("command", choices=("try", "encode", "decode", "run", "table"), help=argparse.SUPPRESS)
    parser.add_argument("file", nargs="?", help=argparse.SUPPRESS)
    return parser.parse_args()


def main():
    asked = arguments()
    if asked.command == "table":
        print("\n".join(table()))
        return None
    with open(asked.file, "rb") if asked.file else sys.stdin.buffer as file:
        if asked.command == "try":
            return try_waits(text_lines(file))
        if asked.command == "encode":
            sys.stdout.buffer.write(encode(text_lines(file)))
            return None
        data = file.read()
    for line in model.compared(data) if asked.command == "run" else decode(data):
        print(line)


if __name__ == "__main__":
    command.run("tools/doubles.py", main)
