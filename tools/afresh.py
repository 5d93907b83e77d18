#!/usr/bin/env python3
"""Whether asking afresh pays: days over the compiled library, as a picture, as tables and in words.

    tools/afresh.py picture >docs/AFRESH.svg    request 12's day, a drawn day and what was measured over many
    tools/afresh.py text                        what docs/AFRESH.md has of it: the tables, and a day in words
    tools/afresh.py day NUMBER                  a drawn day in words, from 1 on; 0 is request 12's
    tools/afresh.py check                       makes the picture and the text again, and compares them with docs

Two advertisers live the same day, each on a registrar of its own that sees the same others. The honest one comes back whenever its
ticket is due. The grinder asks afresh every 5 s besides, and of the ticket in hand and the fresh one it keeps the one that is due
first. Each day is lived under REGISTER and under REGISTER with lower bounds. What is counted over drawn days is measured, and not
proved.

The library is the archive of `tools/build unglassot`, linked by a C compiler (CC, else cc).
Status: 0; 1 for what differs from docs or is against a law; 2 for bad usage, and where there is no archive or no compiler.
"""

import argparse
import hashlib
import os
import statistics
import sys
from dataclasses import dataclass, field

sys.dont_write_bytecode = True

import afresh_picture
import command
import library
import model
from command import ROOT, Failed
from model import LAST_CLOCK, LIFETIME, Ad

KEY = bytes(range(32))
CAPACITY, PLACES = 64, 2
FIRST = 10_000_000          # the first request of either advertiser
EVERY = 5_000               # ms from one asking afresh to the next
GONE = 10_038_636           # when two entries of request 12's day expire
SEED, DAYS = "afresh", 300
SHOWN = 83                  # the drawn day in the picture, a short one
PAGE, PICTURE = "docs/AFRESH.md", "docs/AFRESH.svg"
CALLS = ("REGISTER", "REGISTER with lower bounds")


# Days


def ad_at(service, peer, address):
    names = (hashlib.sha256(text.encode()).digest() for text in (service, peer))
    return Ad(*names, address, 4001, 0, bytes(64)).record()


OWN = ad_at("service", "own", 200 << 24 | 1)        # of both advertisers: at 200.0.0.1


@dataclass(frozen=True)
class Day:
    """Who else comes, at which clock and with which advertisement, in order; when asking afresh begins; and which fresh tickets, by when
    they were issued, are brought when, due or not."""

    others: tuple
    afresh: int
    tries: tuple = ()


def stored_day():
    """Request 12's: two entries of the service are gone at 10,038,636, and another comes a millisecond after the first request."""
    came = ((GONE - LIFETIME, 10), (GONE - LIFETIME, 11), (FIRST + 1, 12))
    others = tuple((clock, ad_at("service", f"other {first}", first << 24 | 1)) for clock, first in came)
    return Day(others, GONE - 7 * EVERY, tries=((10_055_098, GONE),))


class Draws:
    """Numbers that look random and are the same on every machine."""

    def __init__(self, seed):
        self.seed, self.turn = seed, 0

    def below(self, end):
        self.turn += 1
        return model.number(hashlib.sha256(f"{self.seed} {self.turn}".encode()).digest()[:8]) % end


def drawn_day(number):
    """Others come in groups, those of a group within 5 s, from 15 min before the first request to 15 min after it; about half of them have the service."""
    draws = Draws(f"{SEED} {number}")
    others = []
    for group in range(6 + draws.below(5)):
        at = FIRST - LIFETIME + 1 + draws.below(2 * LIFETIME)
        for each in range(1 + draws.below(3)):
            service = ("service", "another service")[draws.below(2)]
            others.append((at + draws.below(5_000), ad_at(service, f"other {group} {each}", draws.below(2**32))))
    return Day(tuple(sorted(others)), FIRST + 1 + draws.below(EVERY))


def day_of(number):
    return drawn_day(number) if number else stored_day()


# An advertiser's day


@dataclass(frozen=True)
class Issued:
    """A ticket: when it was issued, when it is due, whether the request brought none, and whether it was kept."""

    clock: int
    due: int
    afresh: bool
    kept: bool


@dataclass
class Life:
    """What an advertiser got: its tickets, those that it brought before they were due, when it was confirmed; the answers by the clock, others' too; and
    how many others were not confirmed when they came."""

    tickets: list = field(default_factory=list)
    refused: list = field(default_factory=list)
    confirmed: int = None
    answers: dict = field(default_factory=dict)
    sent_away: int = 0


class Advertiser:
    """On a registrar of its own. ask: the call that it asks by. Others come by REGISTER with a ticket that is old enough, and enter no bound."""

    def __init__(self, registrar, ask, day, grinds):
        self.registrar, self.ask, self.life = registrar, ask, Life()
        self.others = list(reversed(day.others))
        self.hand, self.due = b"", FIRST
        self.fresh = {}                         # tickets by when they were issued
        self.afresh = day.afresh if grinds else LAST_CLOCK
        self.tries = list(day.tries) if grinds else []

    def lived(self):
        while self.life.confirmed is None:
            clock = min([self.due, self.afresh] + [at for at, _ in self.tries])
            self.let_others_in(clock)
            if clock == self.due:
                self.come_back(clock)
            elif clock == self.afresh:
                self.ask_afresh(clock)
            else:
                self.bring_early(*self.tries.pop(0))
        return self.life

    def let_others_in(self, clock):
        while self.others and self.others[-1][0] <= clock:
            at, ad = self.others.pop()
            answer = self.registrar.register(at, ad, True, self.registrar.ticket(ad, 0, at - 1, 1))
            self.life.answers[at] = str(answer)
            self.life.sent_away += answer.word != "OK"

    def asked(self, clock, ticket=b""):
        answer = self.ask(clock, OWN, True, ticket)
        self.life.answers[clock] = str(answer)
        return answer

    def come_back(self, clock):
        """With the ticket in hand; at first without one."""
        answer = self.asked(clock, self.hand)
        if answer.word == "OK":
            self.life.confirmed = clock
        else:
            self.take(clock, answer, afresh=not self.hand)

    def ask_afresh(self, clock):
        answer = self.asked(clock)
        self.take(clock, answer, afresh=True)
        self.fresh[clock], self.afresh = answer.ticket, clock + EVERY

    def take(self, clock, answer, afresh):
        """A ticket for the one in hand, which at its due time is used up, and else is kept where it is due no later."""
        if answer.word != "WAIT":
            raise Failed(f"at {clock} the answer is {answer}, and not a ticket")
        due = clock + answer.number
        kept = clock == self.due or due < self.due
        self.life.tickets.append(Issued(clock, due, afresh, kept))
        if kept:
            self.hand, self.due = record(answer.ticket), due

    def bring_early(self, clock, issued):
        """A fresh ticket, due or not."""
        ticket = self.fresh[issued]
        if self.asked(clock, record(ticket)).number != 11:
            raise Failed(f"at {clock} the ticket of {issued} is not refused by 11")
        self.life.refused.append((clock, ticket.issued + ticket.wait))


def record(ticket):
    return bytes([model.TICKET]) + ticket.body()


# Both advertisers under both calls


@dataclass(frozen=True)
class Pair:
    """The honest one's day and that of the one that grinds, under one call."""

    honest: Life
    grinder: Life

    def ahead(self):
        """By how many ms the one that grinds was confirmed first."""
        return self.honest.confirmed - self.grinder.confirmed

    def earlier(self):
        """How many fresh tickets were due before the one in hand."""
        return sum(ticket.afresh and ticket.kept for ticket in self.grinder.tickets[1:])

    def falls(self):
        """How many fresh tickets were due before one that was issued before them."""
        tickets = self.grinder.tickets
        return sum(ticket.afresh and any(ticket.due < before.due for before in tickets[:at]) for at, ticket in enumerate(tickets))


class Days:
    """Days on registrars with the calls of tools/library.py, which opened() gives."""

    def __init__(self, opened):
        self.opened = opened

    def life(self, day, bounded, grinds):
        registrar = self.opened()
        return Advertiser(registrar, registrar.register_bounded if bounded else registrar.register, day, grinds).lived()

    def pairs(self, number):
        """A pair for each call."""
        day = day_of(number)
        pairs = [Pair(*(self.life(day, bounded, grinds) for grinds in (False, True))) for bounded in (False, True)]
        if pairs[1].falls():
            raise Failed(f"day {number}: with lower bounds a fresh ticket is due before one that was issued before it, which is against the law")
        if pairs[0].honest != pairs[1].honest:
            raise Failed(f"day {number}: with lower bounds the honest one is answered otherwise, and whoever keeps its ticket loses nothing")
        return pairs


def over_library():
    loaded = library.Library()
    return Days(lambda: library.Registrar(loaded, KEY, CAPACITY, places=PLACES))


# Tables: rows of cells


def seconds(ms):
    return f"{ms / 1000:,.3f} s"


def spread(gaps):
    return f"{seconds(statistics.median_low(gaps))}; {seconds(max(gaps))}" if gaps else "-"


def times(count, word):
    return f"{count:,} {word}" if count == 1 else f"{count:,} {word}s"


def counted(pairs):
    """The column of a call over days."""
    won, lost = ([gap for pair in pairs if (gap := sign * pair.ahead()) > 0] for sign in (1, -1))
    earlier, same = sum(pair.earlier() for pair in pairs), len(pairs) - len(won) - len(lost)
    return times(earlier, "time") if earlier else "never", times(len(won), "day"), spread(won), times(same, "day"), times(len(lost), "day"), spread(lost)


COUNTED = (
    "a fresh ticket was due before the one in hand", "the grinder was confirmed first", "by (median; most)", "both were confirmed at the same time",
    "the honest one was confirmed first", "by (median; most)",
)


def measured(days):
    """Over drawn days. days: each one's pairs."""
    return [(f"Over {len(days)} drawn days, measured", *CALLS), *zip(COUNTED, *map(counted, zip(*days)))]


STORED = (
    (10_000_000, "first request", "grinder"),
    (10_000_001, "another of the service is confirmed", "grinder"),
    (10_038_635, "comes back with the ticket that is due", "grinder"),
    (10_038_636, "asks afresh: two of the service are gone", "grinder"),
    (10_055_098, "comes back with that fresh ticket", "grinder"),
    (10_068_185, "the honest one comes back with the ticket of 10,038,635", "honest"),
)


def told(pairs):
    """Request 12's day."""
    rows = [(f"{clock:,}", what, *(getattr(pair, whose).answers[clock] for pair in pairs)) for clock, what, whose in STORED]
    return [("clock", "", *CALLS)] + rows


def as_page(rows):
    """A table of a page."""
    head, *rest = (f"| {' | '.join(cells)} |" for cells in rows)
    return "\n".join([head, "|---" * len(rows[0]) + "|", *rest, ""])


# A day in words


def after(clock):
    return f"{(clock - FIRST) / 1000:,.3f}"


def chain(life):
    """The tickets that were in hand, one after the other."""
    tickets = [f"{'fresh ' * (ticket.afresh and ticket.clock > FIRST)}{after(ticket.clock)} due {after(ticket.due)}" for ticket in life.tickets if ticket.kept]
    return "; ".join([*tickets, f"{after(life.confirmed)} confirmed"])


def in_words(pairs):
    lines = []
    for call, pair in zip(CALLS, pairs):
        lines += [f"{call}, in seconds after the first request:", f"    honest   {chain(pair.honest)}", f"    grinder  {chain(pair.grinder)}"]
    return lines


# The picture's words


HEADINGS = (
    "Request 12's day: one more of the service comes at 0.001 s, two expire at 38.636 s",
    f"Drawn day {SHOWN}: others come, and expire, at drawn times",
)
CAPTIONS = ("REGISTER: marks fall", "With lower bounds: no mark falls")


def notes(first):
    """At the foot. first: how often the grinder was first with lower bounds."""
    return (
        "Proved, of every run of calls with the registrar's cache and bounds handed on from call to call: a fresh ticket from",
        "REGISTER with lower bounds is not due before any ticket that this call issued earlier for the same service and",
        "address. So on the right no mark is below one before it, and the first line of the table says never. All else in the",
        "table is measured, and not proved.",
        f"Not promised, and false: that a grinder is never confirmed before its honest twin. With lower bounds it was on {first} of",
        "these days. The honest one can be sent away when it comes back, and be due again later than the grinder.",
        f"Made over the compiled library by: tools/afresh.py picture. Seed: {SEED}, days 1 to {DAYS}. {CAPACITY} places, window 10 s.",
    )


# Commands


def everything():
    """The picture, and the parts of the page's text: both tables, and the first day on which the grinder is first with lower bounds."""
    days = over_library()
    stored, drawn = days.pairs(0), [days.pairs(number) for number in range(1, DAYS + 1)]
    if any(life.sent_away for pairs in drawn for pair in pairs for life in (pair.honest, pair.grinder)):
        raise Failed(f"{PAGE} says that every other is confirmed as it comes, and on a drawn day one is not")
    rows, lucky = measured(drawn), [number for number, (_, bounded) in enumerate(drawn, 1) if bounded.ahead() > 0]
    shown = afresh_picture.picture((stored, drawn[SHOWN - 1]), HEADINGS, CAPTIONS, FIRST, (GONE, "two expire"), rows, notes(len(lucky)))
    parts = [as_page(told(stored)), as_page(rows)]
    for number in lucky[:1]:
        parts.append("".join(f"    {line}\n" for line in [f"$ tools/afresh.py day {number}", *in_words(drawn[number - 1])]))
    return shown, parts


def check():
    """What in docs differs from what is made."""
    shown, parts = everything()
    with open(os.path.join(ROOT, PICTURE), encoding="utf-8") as picture, open(os.path.join(ROOT, PAGE), encoding="utf-8") as page:
        if picture.read() != shown:
            raise Failed(f"{PICTURE} is not what is made: tools/afresh.py picture >{PICTURE}")
        text = page.read()
    for part in parts:
        if part not in text:
            raise Failed(f"{PAGE} has not what is made (tools/afresh.py text):\n{part}")
    return f"{PICTURE} and the text of {PAGE} are what is made"


def main():
    layout = argparse.RawDescriptionHelpFormatter
    parser = argparse.ArgumentParser(description=__doc__, formatter_class=layout, usage="tools/afresh.py picture|text|check|day NUMBER")
    parser.add_argument("what", choices=("picture", "text", "check", "day"), help=argparse.SUPPRESS)
    parser.add_argument("number", nargs="?", type=int, help=argparse.SUPPRESS)
    asked = parser.parse_args()
    if (asked.what == "day") != (asked.number is not None) or (asked.number or 0) < 0:
        parser.error("day takes a number from 0 on, and nothing else does")
    made = {
        "picture": lambda: everything()[0].rstrip("\n"),
        "text": lambda: "\n".join(everything()[1]).rstrip("\n"),
        "check": check,
        "day": lambda: "\n".join(in_words(over_library().pairs(asked.number))),
    }
    print(made[asked.what]())
    return 0


if __name__ == "__main__":
    command.run("tools/afresh.py", main)
