"""Builds a measuring program with the archive at four placements, runs each, and brings their tables together.

How long a loop takes depends on where the linker puts it within lines of 64 bytes. The archive's functions begin at multiples of 16, so that there
are four placements; in each of the four programs all of them lie by 16 bytes further on than in the one before. A program prints its tables between
tabs (bench/measure): a first line with '#', the names of columns of words, '|', and those of numbers; then its rows.
"""

import math
import os
import re
import shutil
import subprocess
import sys

BENCH = os.path.dirname(os.path.realpath(__file__))
ROOT = os.path.dirname(BENCH)
LINE, STEP = 64, 16
PLACEMENTS = range(0, LINE, STEP)
PLACED = """SECTIONS
{
  .text : ALIGN(%d) { . = . + %d; *(.text .text.*) }
}
"""


class Failed(Exception):
    """What a program said that did not end well."""


def archive():
    folder = os.environ.get("UNGLASSOT_LIB_DIR") or os.path.join(ROOT, "target/staticlib")
    path = os.path.join(folder, "libunglassot.a")
    if not os.path.exists(path):
        raise Failed(f"{path} is missing; this makes it: tools/build unglassot")
    return os.path.abspath(path)


def run(words, **more):
    done = subprocess.run(words, stdout=subprocess.PIPE, stderr=subprocess.STDOUT, text=True, **more)
    if done.returncode:
        raise Failed(done.stdout)
    return done.stdout


def moved(path, by, folder):
    """An archive of one object, in which all code of the archive stands together, so many bytes behind the beginning of a line."""
    os.makedirs(folder, exist_ok=True)
    script, one, new = (os.path.join(folder, name) for name in ("script", "one.o", "libunglassot.a"))
    with open(script, "w", encoding="ascii") as file:
        file.write(PLACED % (LINE, by))
    run(["ld", "-r", "-T", script, "-o", one, "--whole-archive", path])
    run(["objcopy", f"--set-section-alignment=.text={LINE}", one])
    if os.path.exists(new):
        os.remove(new)
    run(["ar", "rcs", new, one])


def built(crate, library=None):
    """The program of a crate of bench/, with the archive of a folder."""
    folder = os.path.join(BENCH, crate)
    target = os.environ.get("CARGO_TARGET_DIR") or os.path.join(folder, "target")
    settings = dict(os.environ, UNGLASSOT_LIB_DIR=library) if library else None
    run(["cargo", "build", "--quiet", "--release", "--offline"], cwd=folder, env=settings)
    return os.path.join(target, f"release/bench-{crate}")


def placed(crate, work):
    """The program of a crate at each placement; `work` is a folder to build in."""
    programs, path = [], archive()
    for by in PLACEMENTS:
        library = os.path.join(work, str(by))
        moved(path, by, library)
        programs.append(shutil.copy(built(crate, library), os.path.join(library, crate)))
    return programs


class Progress:
    """A line on standard error that is written over, where that is a terminal."""

    def __init__(self):
        self.shown = sys.stderr.isatty()

    def __call__(self, text):
        if self.shown:
            print(f"\r\x1b[K{text}", end="", file=sys.stderr, flush=True)


class Table:
    def __init__(self, words, numbers):
        self.words, self.numbers = words, numbers
        self.rows = {}                  # by the row's words, the numbers of each run

    def add(self, words, numbers):
        self.rows.setdefault(words, []).append(numbers)

    def each(self):
        """Every row as a dictionary by the columns' names: words, means over the runs, and the largest of a ratio."""
        for words, runs in self.rows.items():
            row = dict(zip(self.words, words))
            for name, values in zip(self.numbers, zip(*runs)):
                row[name] = sum(values) / len(values)
                if name.startswith("ratio"):
                    row["largest" + name[len("ratio") :]] = max(values)
            yield row


def tables(programs, words, progress, rows=None):
    """The tables that the programs print, each with the rows of all of them."""
    found, seen = {}, 0
    for turn, program in enumerate(programs, 1):
        with subprocess.Popen([program, *words], stdout=subprocess.PIPE, stderr=subprocess.PIPE, text=True) as process:
            table = None
            for line in process.stdout:
                before, _, behind = line.rstrip("\n").partition("\t|\t")
                left, right = before.split("\t"), behind.split("\t")
                if left[0] == "#":
                    table = found.setdefault(tuple(left), Table(left[1:], right))
                else:
                    table.add(tuple(left), [float(number) for number in right])
                    seen += 1
                    progress(f"placement {turn} of {len(programs)}, row {seen}{f' of {rows * len(programs)}' if rows else ''}: {', '.join(left)}")
            said = process.stderr.read()
        if process.returncode:
            progress("")
            raise Failed(said)
    progress("")
    return list(found.values())


def text_of(name, value):
    """A number with as many places as its column needs."""
    if isinstance(value, str):
        return value
    if math.isnan(value):
        return "-"
    if re.match("ratio|largest|to ", name):
        return f"{value:.3f}"
    return f"{value:,.{0 if value >= 100 else 1 if value >= 10 else 2}f}"


def show(rows, columns):
    """Prints these columns of rows: words to the left, numbers to the right."""
    lines = [list(columns)] + [[text_of(name, row[name]) for name in columns] for row in rows]
    widths = [max(len(line[i]) for line in lines) for i in range(len(columns))]
    words = [isinstance(rows[0][name], str) and not rows[0][name].isdigit() for name in columns]
    for line in lines:
        print("  ".join(cell.ljust(width) if left else cell.rjust(width) for cell, width, left in zip(line, widths, words)).rstrip())
