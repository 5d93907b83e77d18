"""A day through the right registrar, which is proved, and a wrong one, which is not: the lines where they differ, in words. And the stored days, tools/days.

A day is a log's text or a recorded day's (tools/log.py --help), or lines for tools/registrar, whose requests are put to the program
`conformance` one by one, with the cache handed in.
"""

import re
import textwrap
from dataclasses import dataclass
from itertools import zip_longest

import edits
import handed
import log
import model
import wrong_run
from command import Failed, Unable

DAYS = "tools/days"
TABLE = f"{DAYS}/TABLE"
SHOWN = 10              # of the lines that differ, unless all are wanted
WIDTH = 110             # of a line, for a projector


@dataclass
class Asked:
    """A line of the text that is answered."""

    at: int
    line: str
    why: str = None         # the right answer is so, by the model


@dataclass
class Day:
    program: str            # whose input it is
    data: bytes
    asked: list
    model: list             # the lines that the program must print
    says: callable          # the words of a line, of its number from 0 and itself


def log_words(_, line):
    end = re.fullmatch(r"END (\d+)", line)
    if end:
        return f"{line}: the end of the log, after {'one record' if end[1] == '1' else f'{end[1]} records'}"
    return "STOP: it stops before the end" if line == "STOP" else log.in_words(line)


def read(path):
    """The day of a file."""
    with open(path, "rb") as file:
        lines = log.text_lines(file)
    return lesson(lines) if handed.is_for(lines) else logged(lines)


def logged(lines):
    rows = log.read_text(lines, log.Row.wrong, reasoned=True)
    data = b"".join(row.data for row in rows)
    asked = [Asked(at, " ".join(row.shown().split()), row.reason) for at, row in enumerate(rows, 1) if row.answer]
    return Day(wrong_run.program_for(data), data, asked, list(model.printed(data)), log_words)


def lesson(lines):
    session, rows = handed.read(lines)
    asked = [Asked(at, " ".join(line.split()), why) for at, line, why, _ in rows]
    requests = [request for *_, request in rows]
    data = b"".join(octets for _, _, octets in requests)
    must = [handed.line_of(octets) for _, _, octets in requests]
    return Day("conformance", data, asked, must, lambda at, line: handed.in_words(session, *requests[at][:2], line))


# Both programs


@dataclass
class Compared:
    day: Day
    lines: int              # of the program that printed more
    differ: list            # (number from 0, the right line or None, the wrong one or None)
    stopped: str            # why the wrong program did not come to its end, or None


def compare(edit, day):
    right = wrong_run.run(log.program(day.program), day.data)
    if right.stopped or right.lines != day.model:
        raise Failed(f"crates/{day.program}/out/{day.program} does not print what the model says: it is not the right one; this makes it again: tools/build {day.program}")
    wrong = wrong_run.run(wrong_run.built(edit, day.program), day.data)
    pairs = list(zip_longest(right.lines, wrong.lines))
    return Compared(day, len(pairs), [(at, *pair) for at, pair in enumerate(pairs) if pair[0] != pair[1]], wrong.stopped)


def tell(compared, every=False, short=False):
    """The lines that differ, one above the other. short: without why."""
    shown = compared.differ if every else compared.differ[:SHOWN]
    for at, right, wrong in shown:
        asked = compared.day.asked[at] if at < len(compared.day.asked) else None
        print("\n" + wrapped(f"line {asked.at}: {asked.line}" if asked else "at the end:", "", "        "))
        print(wrapped(words(compared, at, right), "    right: ", "           "))
        print(wrapped(aside(compared, at, right, wrong), "    wrong: ", "           "))
        if asked and asked.why and not short:
            print(wrapped(asked.why, "    why:   ", "           "))
    more = len(compared.differ) - len(shown)
    if more:
        print(f"\nand {more} more; --every shows {'it' if more == 1 else 'them'} too.")
    if compared.stopped:
        print(wrapped(f"The wrong one did not come to its end: {compared.stopped}.", "\n", ""))


def words(compared, at, line):
    return "nothing" if line is None else compared.day.says(at, line)


def aside(compared, at, right, wrong):
    """The wrong line in words. Where they are the right one's words, the two differ in what a call leaves behind."""
    said = words(compared, at, wrong)
    same = right is not None and said == words(compared, at, right)
    return f"{said}; but it leaves another ticket, list, cache or lower bound" if same else said


def wrapped(text, first, others):
    return textwrap.fill(text, WIDTH, initial_indent=first, subsequent_indent=others, break_long_words=False, break_on_hyphens=False)


# The stored days


def table():
    """The stored day's path of each label that one shows, and why no day shows each other that a program of the class has code of."""
    shown, unshown, head = {}, {}, ""
    for line in edits.text_of(TABLE).split("\n"):
        if not line.startswith((" ", "#")):
            head = line.removesuffix(":")
            continue
        for label in () if line.startswith("#") else line.split():
            if label in shown or label in unshown:
                raise Unable(f"{TABLE} has {label} twice")
            (unshown if head.startswith("- ") else shown)[label] = head.removeprefix("- ")
    return shown, unshown


def stored_day(edit):
    """The path of the stored day that shows this one."""
    shown, unshown = table()
    if edit.label in shown:
        return shown[edit.label]
    raise Unable(f"no stored day shows {edit.name}: {why_not(edit, unshown)}")


def why_not(edit, unshown):
    if not edit.runs():
        return "it is wrong in a definition alone, and there is no code of it that could run"
    return unshown.get(edit.label, f"no program that a class has runs code of the crate {edit.crate}")
