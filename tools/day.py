"""What is drawn of a day (tools/day_picture.py): who came when and was answered what, a lane for each advertiser, and how many places are taken.

All is told from the answers. A ticket is due when the wait that was told is over, and is taken for the registration window. Who is
confirmed holds a place for fifteen minutes, and is listed as long, or until it withdraws.
"""

from collections import Counter
from dataclasses import dataclass, field, replace

from log import named
from model import LIFETIME, USUAL_WINDOW
from reasons import span

MARKS = {"WAIT": "told", "OK": "confirmed", "NO": "refused", "ADS": "asked", "NEWEST": "asked", "DONE": "withdrawn"}


@dataclass
class Visit:
    """A record, by its number from 1 on: the words of its line, its clock, its answer, and lines that say more: the line, the answer in words, why."""

    number: int
    words: list
    clock: int
    answer: str
    told: list
    window: int = USUAL_WINDOW
    listed: int = LIFETIME      # for how long it is listed where it is confirmed
    wrong: str = None           # what the wrong registrar answers, where that is another


@dataclass
class Filled:
    """Places that were filled with advertisements of a service, without a request."""

    places: int
    clock: int
    service: str
    listed: int = LIFETIME


@dataclass
class Day:
    """What one registrar was asked, and what was in it besides."""

    heading: str
    capacity: int
    visits: list = field(default_factory=list)
    filled: list = field(default_factory=list)


@dataclass
class Mark:
    """On a lane: a record, or places that were filled. Its bars are kinds with their first clock and that of their end."""

    kind: str
    clock: int
    visit: Visit = None
    text: str = ""              # beside it
    bars: list = field(default_factory=list)
    places: int = 0             # that it takes, for fifteen minutes
    bold: bool = False          # whether the wrong registrar answers otherwise here

    def instants(self):
        return {self.clock, *(clock for _, start, end in self.bars for clock in (start, end))}


@dataclass
class Lane:
    """Its name, what stands beside and below that, and its marks in the order of the records."""

    name: str
    beside: str
    below: str
    asks: bool = False          # whether it is of who is listed, and not an advertiser's
    marks: list = field(default_factory=list)
    other: "Lane" = None        # the wrong registrar's, where it differs


def short(ms):
    """A time as a text has it: 14m49.777s."""
    words = span(ms)
    for long, brief in ((" ms", "ms"), (" min", "m"), (" s", "s"), (" h", "h"), (" ", ""), (",", "")):
        words = words.replace(long, brief)
    return words


# Marks


def mark_of(visit, answer):
    word, _, number = answer.partition(" ")
    kind = MARKS.get(word, "nothing")
    mark = Mark(kind, visit.clock, visit, answer if kind in ("refused", "asked", "nothing") else "")
    if kind == "told":
        due = visit.clock + int(number)
        mark.text, mark.bars = f"wait {short(int(number))}", [("wait", visit.clock, due), ("window", due, due + visit.window)]
    elif kind == "confirmed":
        mark.bars, mark.places = held(visit.clock, visit.clock + visit.listed), 1
    return mark


def held(clock, until):
    """The bars of what is confirmed at a clock and listed until then."""
    bars = [("listed", clock, until), ("unlisted", until, clock + LIFETIME)]
    return [bar for bar in bars if bar[1] < bar[2]]


def withdrawn(marks, clock):
    """The latest of the marks that holds a place at this clock is listed no longer than that."""
    for mark in reversed(marks):
        if mark.places and mark.clock <= clock < mark.clock + LIFETIME:
            mark.bars = held(mark.clock, min(clock, mark.bars[0][2]))
            return


def marks_of(visits, answer_of):
    marks = []
    for visit in visits:
        marks.append(mark_of(visit, answer_of(visit)))
        if marks[-1].kind == "withdrawn":
            withdrawn(marks, visit.clock)
    return marks


# Lanes


def lane_of(words):
    """What tells a line's lane from others, and the lane: of who is listed, of an advertiser of a recorded day, or of a peer and a service."""
    if words[0] in ("list", "newest"):
        name = "who is listed" if words[0] == "list" else f"newest of {' and '.join(words[3:])}"
        return (words[0], named(words[2], "a service"), *words[3:]), Lane(name, "", words[2], True)
    number, words = (words[1], words[2:]) if words[0] == "advertiser" else ("", words)
    service, peer = words[3], words[4].removeprefix("peer=")
    address = words[5] if len(words) > 5 else ""
    return (number, named(service, "a service"), named(peer, "a peer")), Lane(f"{number} {peer}".strip(), address, service)


def lane_of_filled(filled):
    mark = Mark("filled", filled.clock, None, str(filled.places), held(filled.clock, filled.clock + filled.listed), filled.places)
    return Lane("filled", "", filled.service, marks=[mark])


def lanes_of(day):
    """Of who is listed first, then what was filled, then by the first record."""
    found, visits = {}, {}
    for visit in day.visits:
        key, lane = lane_of(visit.words)
        found.setdefault(key, lane)
        visits.setdefault(key, []).append(visit)
    for key, lane in found.items():
        lane.marks = marks_of(visits[key], lambda visit: visit.answer)
        if any(visit.wrong for visit in visits[key]):
            lane.other = replace(lane, marks=marks_of(visits[key], lambda visit: visit.wrong or visit.answer))
            for mark in lane.other.marks:
                mark.bold = bool(mark.visit.wrong)
    return sorted([*map(lane_of_filled, day.filled), *found.values()], key=lambda lane: not lane.asks)


def taken(marks):
    """How many places are taken, as clocks from which on so many are."""
    changes, count, steps = Counter(), 0, []
    for mark in marks:
        changes[mark.clock] += mark.places
        changes[mark.clock + LIFETIME] -= mark.places
    for clock in sorted(clock for clock, change in changes.items() if change):
        count += changes[clock]
        steps.append((clock, count))
    return steps
