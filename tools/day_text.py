"""The page of a day's text: what its rows are (tools/log.py), drawn and told (tools/day_page.py), and beside it what a wrong registrar answers to the same."""

import os
import re

import command
import log
import model
from day import Day, Visit, lanes_of
from day_page import Page
from model import CAPACITY, RECORDED_WINDOW, USUAL_WINDOW

ABOUT = (
    "A lane for each advertiser. Each answer is the proved program's (crates/{0}/out/{0}); why it is so, by the model, stands below, and on the screen under the pointer. "
    "What is listed, and which places are taken, is told from the answers: a place is held for fifteen minutes from the confirmation on."
)
BESIDE = (
    "A lane in a dashed frame is that of the wrong registrar {}: {} It was run, and not proved. The lane stands below the right one's where the two differ, which is in "
    "{} of {} lanes, and has in bold what it answers otherwise; a dashed line is of the places that are taken by its answers."
)


def answer_in(line):
    """The answer of a program's line, or all of it where it is none."""
    found = re.search(r"(?:OK|(?:WAIT|ADS|NO) \d+)$", line)
    return found[0] if found else line


def told(row):
    """The record's line, the answer in words, why, and what is odd or wrong."""
    notes = [f"note: {row.note}"] if row.note else []
    why = [row.reason] if row.reason else []
    return [" ".join(row.shown().split()), log.in_words(row.printed), *why, *notes, *(f"!! {each}" for each in row.differs)]


def visits_of(rows, recorded):
    window = RECORDED_WINDOW if recorded else USUAL_WINDOW
    records = [row for row in rows if row.answer]
    lines = [(log.parted(row.line)[0].split(), log.clock_of(row.data), answer_in(row.printed), told(row)) for row in records]
    return [Visit(number, *line, window) for number, line in enumerate(lines, 1)]


def entries(rows, visits):
    """What is told below the picture: each record, and what else the text says, a paragraph where it has one."""
    found, left, joined = [], iter(visits), False
    for row in rows:
        text = row.line.strip().lstrip("# ")
        if row.answer:
            found.append(next(left))
        elif text and joined:
            found[-1] += f" {text}"
        elif text:
            found.append(text)
        joined = bool(text) and not row.answer
    return found


def compare(rows, visits, label):
    """Has the wrong registrar answer the same, and tells each visit where it answers otherwise; gives what is said of it."""
    import edits
    import wrong_run

    edit, data = edits.chosen(edits.all_edits(), label), b"".join(row.data for row in rows)
    ran = wrong_run.ran(edit.name, data)
    lines = [*ran.lines, *["nothing"] * len(visits)]
    for row, visit, line in zip((row for row in rows if row.answer), visits, lines):
        if line != row.printed:
            visit.wrong = answer_in(line)
            visit.told.append(f"wrong: {log.in_words(line)}")
    return edit, ran.stopped


def page(rows, ends, name, label=None):
    """ends: what the program prints behind the records. label: of a wrong registrar."""
    recorded = model.is_recorded(b"".join(row.data for row in rows))
    visits = visits_of(rows, recorded)
    if not visits:
        raise command.Failed("there is no record in this text, and nothing to draw")
    about = [ABOUT.format("replay" if recorded else "register_log")]
    day = Day("", CAPACITY, visits)
    if label:
        edit, stopped = compare(rows, visits, label)
        lanes = lanes_of(day)
        about.append(BESIDE.format(edit.name, edit.sentence(), sum(bool(lane.other) for lane in lanes), len(lanes)) + (f" {stopped}." if stopped else ""))
    below = [*entries(rows, visits), *map(log.in_words, ends)]
    return Page(f"A day: {os.path.basename(name)}" if name else "A day", about, [day], below)
