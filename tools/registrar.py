#!/usr/bin/env python3
"""A registrar to talk to: the compiled, proved library, one line in, one answer in words out, and under it why.

    tools/registrar                     at a terminal, with line editing and history; 'help' is one screen
    tools/registrar [--short] FILE      a lesson or a day from a file, or from a pipe: each line, its answer and why; --short leaves out why
    tools/registrar --model [FILE]      the model alone, which is not proved: where there is no compiler, and for tools/lessons/*.out

Lines are those of a day (tools/log.py --help): ask, return, list. A return without a ticket brings the latest that this registrar issued
to this peer for this service; 'ticket none' brings none, 'ticket of ben' the latest of ben's. Besides there are withdraw, newest, open,
use, window, bounded, small, fill, show, save and picture, which no log has. A line may end with its answer, as 'list 5s /a -> ADS 0', and is held
to it; that of a withdrawal is DONE, and that of newest is NEWEST 1, 2 or 0. tools/lessons has lessons.

Each answer, and the cache and the lower bounds that it leaves, are compared with those of tools/model.py. Where they differ both are shown.
The library is the archive of `tools/build unglassot`, linked by a C compiler (CC, else cc).

Status: 0; 1 where an answer differs from the model's or from the line's own, and where a line of a file could not be read; 2 for bad
usage, and where there is no file, no archive or no compiler.
"""

import argparse
import contextlib
import ipaddress
import os
import re
import sys
from dataclasses import dataclass

sys.dont_write_bytecode = True

import command
import log
import model
import reasons
from beside import Modelled, Opened, counted, over_library
from day import Day, Filled, Visit
from day_page import MADE, Page
from log import Wrong, named, settings, time_of
from model import CAPACITY, FAMILIES, LIFETIME, LIST, MOST_BOUNDS, MOST_CAPACITY, MOST_WINDOW, SMALL_CAPACITY, STAMP_AGE, USUAL_WINDOW, Ad, Answer, Entry
from reasons import span

HELP = """\
ask CLOCK VOUCHED SERVICE peer=PEER ADDRESS [stamp=N]    asks to be listed
return CLOCK|due ..the same.. [ticket TICKET]            with the latest ticket
    TICKET: none, of PEER, auto first=0 (a forgery), first=0 issued=0 wait=1
list CLOCK SERVICE                                       who is listed
withdraw CLOCK VOUCHED SERVICE peer=PEER                 leaves
newest CLOCK SERVICE NAME NAME          of two registrars; small if both are
  CLOCK    milliseconds, or 5s, 15m, 1h, 15m1ms; due: when the ticket allows
  VOUCHED  vouched; or unvouched, where the host found the signature bad
  SERVICE  a protocol ID, as /waku/store/1.0.0
  ADDRESS  10.0.0.1:4001; at a registrar of IPv6 [2001:db8::1]:4001

open [NAME] [capacity=256] [family=4|6]      a new registrar to talk to, empty
use NAME                                     another that was opened
key NAME                                     its secret, for its tickets
window 10s                                   how long a ticket is good when due
bounded on [places=8], bounded off           lower bounds: no ticket due earlier
small on, small off                          64 places at most, stamps judged
fill N service=SERVICE [clock=5s] [stamp=N]  hands in a cache with N more in it
show                                         the cache as a table, its counters
save day.txt                                 the lines so far, their answers too
picture day.html                             and as a picture, for a browser
help, quit                                   Ctrl-D ends it too
"""
REQUESTS = ("ask", "return", "list", "withdraw", "newest")
SETTINGS = ("open", "use", "key", "window", "bounded", "small", "fill")
OTHERS = ("show", "save", "picture", "help", "quit")
IN_A_LOG = ("ask", "return", "list")
FIRST = "registrar"         # the name of the registrar that is there at the start, and of its key
SAVED = "# Saved by tools/registrar, which runs it again"
DRAWN = (
    "A lane for each advertiser. Each answer is that of {}; why it is so, by the model, stands below, and on the screen under the pointer. "
    "What is listed, and which places are taken, is told from the answers: a place is held for fifteen minutes from the confirmation on."
)
REFUSALS = {
    **log.REFUSALS,
    17: "no advertisement of this service and peer is listed that could be withdrawn",
    19: "the wait is not over, and there is no place for another lower bound",
    20: "its stamp is after now, or older than thirty days",
}


@dataclass
class Told:
    """A request that was answered: the words that a day has of it, the library's answer, what it says, why by the model, how the model's differs,
    what was listed, and for how long it is listed where it is confirmed."""

    words: list
    clock: int
    answer: str
    says: str
    why: str
    differs: list
    listed: str = ""
    lasts: int = LIFETIME


# Reading


def on_or_off(words, what):
    if words not in (["on"], ["off"]):
        raise Wrong(f"a line is '{what} on' or '{what} off'")
    return words == ["on"]


def name_of(word):
    if not re.fullmatch(r"[A-Za-z][\w.-]{0,31}", word):
        raise Wrong(f"a registrar's name is a letter and then letters, digits, '-', '.' or '_', at most 32, not '{word}'")
    return word


def between(word, least, most, what):
    if not re.fullmatch(r"[0-9]+", word) or not least <= int(word) <= most:
        raise Wrong(f"{what} is a number from {least} to {most}, not '{word}'")
    return int(word)


def peer_of(word):
    if not word.startswith("peer="):
        raise Wrong(f"peer=PEER must stand where '{word}' does")
    return named(word[len("peer=") :], "a peer")


FIRST_FILLED = {model.V4: ipaddress.ip_address("10.0.0.1"), model.V6: ipaddress.ip_address("2001:db8::1")}


def filling(before, service, stamp, family):
    """What a place is filled with where so many were admitted before. Its address is far from theirs in its first bits, so that the crowd
    counts more than its likeness."""
    turned = int(f"{before % MOST_CAPACITY:010b}"[::-1], 2)
    address = int(FIRST_FILLED[family]) ^ turned << (family.bits - 10)
    return Ad(service, named(f"filled-{before + 1}", "a peer"), address, 4001, stamp, bytes(64), family)


# The lines


class Session:
    """make opens a registrar: of the library, or the model's."""

    def __init__(self, make, short=False):
        self.make, self.short = make, short
        self.writer = log.Writer(b"")
        self.opened = {FIRST: Opened(make, named(FIRST, "a key"))}
        self.name = FIRST
        self.ads = {}               # advertisements that were brought, by the hash that a ticket has of them
        self.lines = []             # those that were heeded, as they are saved
        self.days = {}              # what is drawn, by registrar
        self.entries = []           # and what is told below: requests, and settings in words
        self.answers = self.differ = self.unmet = self.bad = 0
        self.over = False

    @property
    def here(self):
        return self.opened[self.name]

    def heed(self, line):
        """Takes a line and prints what is answered. It raises nothing, and a bad line changes nothing."""
        text, arrow, expected = log.parted(line)
        try:
            log.only_ascii(text + expected)
            words = text.split()
            if words or arrow:
                self.writer.learn(re.split(r"[\s=]+", text))
                self.follow(words, expected if arrow else None)
        except Wrong as wrong:
            self.bad += 1
            print(f"    ?? {wrong}. Nothing has changed.")

    def follow(self, words, expected):
        if not words:
            raise Wrong("an answer, and nothing that is answered")
        verb = words[0]
        if verb in REQUESTS:
            request = {"withdraw": self.withdraw, "newest": self.newest}.get(verb, self.request)
            return self.tell(request(words), expected)
        if verb not in SETTINGS + OTHERS:
            raise Wrong(f"a line starts with {', '.join(REQUESTS + SETTINGS + OTHERS[:-1])} or {OTHERS[-1]}, not '{verb}'")
        if expected is not None:
            raise Wrong(f"'{verb}' has no answer")
        said = getattr(self, f"do_{verb}")(words[1:])
        if verb in SETTINGS:
            self.lines.append(" ".join(words))
            self.entries.append(f"{' '.join(words)}: {'; '.join(said)}")
        for each in said:
            print(each if verb == "help" else f"    {each}")
        return None

    def tell(self, told, expected):
        """Prints a request's answer, why, and what differs."""
        self.answers += 1
        self.lines.append(f"{' '.join(told.words)} -> {told.answer}")
        others = [name for name, each in self.opened.items() if not each.same()]
        wrong = told.differs + [f"the library leaves {name} another cache, or other lower bounds, than the model" for name in others]
        if expected not in (None, told.answer):
            wrong.append(f"the line expects {expected}, and the answer is {told.answer}")
        why = [told.why] if told.why and not told.differs else []
        answer, wrong = f"{told.clock} {told.answer}: {told.says}", [f"!! {each}" for each in wrong]
        for each in reasons.wrapped(answer):
            print(f"    {each}")
        for text in [told.listed] + why * (not self.short):
            for each in reasons.wrapped(text):
                print(f"        {each}")
        for each in wrong:
            print(f"    {each}")
        self.differ += bool(told.differs or others)
        self.unmet += expected not in (None, told.answer)
        self.keep(told, [answer, *filter(None, [told.listed]), *why, *wrong])

    def keep(self, told, more):
        """For the picture; of two registrars that were asked at once it is the first's."""
        name = told.words[3] if told.words[0] == "newest" else self.name
        visit = Visit(self.answers, told.words, told.clock, told.answer, [" ".join(told.words), *more], self.opened[name].theirs.window, told.lasts)
        self.day(name).visits.append(visit)
        self.entries.append(visit)

    def day(self, name):
        here = self.opened[name]
        return self.days.setdefault(here, Day(f"{name}: {here.described()}", here.capacity))

    # Requests

    def request(self, words):
        """An ask, a return or a list."""
        here = self.here
        words = self.with_ticket(words)
        read = log.read_request(words, here.theirs.key, here.latest, here.theirs.family)
        if read.kind == LIST:
            return self.listing(words, read)
        ad, ticket = read.ad.record(), bytes([model.TICKET]) + read.ticket.body() if read.ticket else b""
        bound = here.bound(read.clock, read.ad)
        ours, theirs = here.both("register_bounded" if here.bounded else "register", read.clock, ad, read.vouched, ticket)
        if ours.ticket:
            here.latest[read.ad.service, read.ad.peer] = here.latest_of[read.ad.peer] = ours.ticket
        self.ads[model.ad_hash(ad)] = read.ad
        why = self.why(read, theirs, ad, ticket, bound)
        lasts = self.lasts(read.clock, read.ad.stamp)
        return Told(words, read.clock, str(ours), self.says(read.clock, ours, lasts), why, differing(ours, theirs), lasts=lasts)

    def lasts(self, clock, stamp):
        """For how long what is admitted is listed: at a small registrar no longer than its stamp is not too old."""
        return min(LIFETIME, stamp + STAMP_AGE + 1 - clock) if self.here.theirs.small else LIFETIME

    def why(self, read, answer, ad, ticket, bound):
        """Why an ask or a return is answered so, by the model."""
        if str(answer) == "NO 19":
            return reasons.of_places(self.here.bounds_kept())
        if str(answer) == "NO 10" and read.ticket.ad_hash in self.ads:
            return f"it is for: {' '.join(self.writer.ad(self.ads[read.ticket.ad_hash]))}"
        return reasons.why(self.here.theirs.registrar(), answer, read.clock, ad=ad, ticket=ticket, bound=bound)

    def with_ticket(self, words):
        """The words as a log has them: with 'ticket auto' where a return names none, the bytes of another's, and an ask where none is brought."""
        if words[0] != "return":
            return words
        if len(words) < 6:
            raise Wrong(f"a return is: return CLOCK VOUCHED SERVICE peer=PEER {log.ADDRESSES[self.here.theirs.family]}, and may have: ticket TICKET")
        if "ticket" not in words[6:]:
            return words + ["ticket", "auto"]
        at = words.index("ticket", 6)
        brought = words[at + 1 :]
        if brought == ["none"]:
            if words[1] == "due":
                raise Wrong("a return without a ticket is never due: it needs a clock")
            return ["ask"] + words[1:at]
        if brought[:1] == ["of"]:
            return words[: at + 1] + [self.ticket_of(brought[1:])]
        return words

    def ticket_of(self, words):
        if len(words) != 1:
            raise Wrong("a ticket of another is: ticket of PEER")
        peer = named(words[0], "a peer")
        if peer not in self.here.latest_of:
            raise log.NoTicket(f"no ticket was issued to {words[0]} here")
        return self.here.latest_of[peer].body().hex()

    def listing(self, words, read):
        ours, theirs = self.here.both("get_ads", read.clock, read.service)
        listed = ", ".join(f"{self.writer.name(ad.peer)} {log.address_of(ad)}" for ad in ours.ads)
        why = reasons.why(self.here.theirs.registrar(), theirs, read.clock, read.service)
        listed = f"oldest first: {listed}" if ours.ads else ""
        return Told(words, read.clock, str(ours), self.says(read.clock, ours), why, differing(ours, theirs), listed)

    def withdraw(self, words):
        if len(words) != 5:
            raise Wrong("a withdrawal is: withdraw CLOCK VOUCHED SERVICE peer=PEER")
        clock, vouched = time_of(words[1], "a clock"), log.read_vouched(words[2])
        service, peer = named(words[3], "a service"), peer_of(words[4])
        ours, theirs = self.here.both("withdraw", clock, service, peer, vouched)
        registrar = self.here.theirs.registrar()
        tells = theirs.word == "DONE" or theirs.number == 17
        why = reasons.of_withdrawal(registrar, theirs, clock, service, peer) if tells else reasons.why(registrar, theirs, clock)
        return Told(words, clock, str(ours), self.says(clock, ours), why, differing(ours, theirs))

    def newest(self, words):
        if len(words) != 5:
            raise Wrong("it is: newest CLOCK SERVICE NAME NAME, of two registrars")
        clock, service = time_of(words[1], "a clock"), named(words[2], "a service")
        first, second = (self.opened_as(word) for word in words[3:])
        ours = first.ours.newest(second.ours, clock, service)
        theirs = first.theirs.newest(second.theirs, clock, service)
        answer = ours if isinstance(ours, Answer) else Answer("NEWEST", ours[0] if ours else 0)
        two = zip(words[3:], first.theirs.asked_with(second.theirs))
        if isinstance(theirs, Answer):
            why = next(f"{name}: {reasons.of_clock(each, clock)}" for name, each in two if each.bad_clock(clock))
        else:
            why = "; ".join(f"{name} has {reasons.of_newest(each, clock, service)}" for name, each in two)
        return Told(words, clock, str(answer), self.found(clock, ours, words[3:]), why, differing(ours, theirs))

    def found(self, clock, said, names):
        """The newest of two in words."""
        if isinstance(said, Answer):
            return self.says(clock, said)
        if said is None:
            return "neither lists one"
        which, entry = said
        return f"{self.writer.name(entry.ad.peer)} {log.address_of(entry.ad)}, in {names[which - 1]}, admitted at {span(entry.accepted)}"

    def says(self, clock, answer, lasts=LIFETIME):
        """An answer in words. lasts: for how long it is listed if it is admitted."""
        if answer.word == "DONE":
            return "withdrawn: it is listed no more"
        if answer.word == "NO":
            return f"refused: {REFUSALS.get(answer.number, 'a number that is not expected here')}"
        if answer.word == "OK" and lasts < LIFETIME:
            return f"admitted, and listed until {span(clock + lasts)}, when its stamp is older than thirty days; it stays until {span(clock + LIFETIME)}"
        return log.says(clock, answer.word, answer.number, self.here.theirs.window)

    # Settings

    def opened_as(self, name):
        if name not in self.opened:
            raise Wrong(f"no registrar is named '{name}'; there {'is' if len(self.opened) == 1 else 'are'} {', '.join(self.opened)}")
        return self.opened[name]

    def do_open(self, words):
        name = name_of(words[0]) if words and "=" not in words[0] else self.name
        given = settings(words[1:] if words and "=" not in words[0] else words, ("capacity", "family"))
        capacity = between(given.get("capacity", str(CAPACITY)), 1, MOST_CAPACITY, "a capacity")
        if given.get("family", "4") not in ("4", "6"):
            raise Wrong(f"a family is 4 or 6, not '{given['family']}'")
        opened = Opened(self.make, self.here.theirs.key, capacity, FAMILIES[int(given.get("family", "4"))])
        self.opened[name], self.name = opened, name
        return [f"{name}: {opened.described()}; empty"]

    def do_use(self, words):
        if len(words) != 1:
            raise Wrong("it is: use NAME, of a registrar that was opened")
        self.opened_as(words[0])
        self.name = words[0]
        return [f"{self.name}: {self.here.described()}"]

    def do_key(self, words):
        if len(words) != 1:
            raise Wrong("it is: key NAME, or 64 hex digits")
        self.here.set(key=named(words[0], "a key"))
        return ["tickets are made and judged with this key from here on"]

    def do_window(self, words):
        if len(words) != 1:
            raise Wrong("it is: window TIME, as window 10s")
        window = time_of(words[0], "a window")
        if not 1 <= window <= MOST_WINDOW:
            raise Wrong(f"a window is from 1 ms to {span(MOST_WINDOW)}, not '{words[0]}'")
        if self.here.theirs.small and window != USUAL_WINDOW:
            raise Wrong(f"a small registrar's window is {span(USUAL_WINDOW)}; small off comes first")
        self.here.set(window=window)
        return [f"a ticket is taken for {span(window)} from when it is due"]

    def do_bounded(self, words):
        on = on_or_off(words[:1], "bounded")
        given = settings(words[1:], ("places",) if on else ())
        if given:
            self.here.both("empty_bounds", between(given["places"], 1, MOST_BOUNDS, "places for lower bounds"))
        self.here.bounded = on
        return [f"{self.name}: {self.here.described()}"]

    def do_small(self, words):
        on = on_or_off(words, "small")
        if on and self.here.capacity > SMALL_CAPACITY:
            first = f"open capacity={SMALL_CAPACITY} comes first"
            raise Wrong(f"a small registrar has at most {SMALL_CAPACITY} places, and this one {self.here.capacity}; {first}")
        self.here.set(small=on, window=USUAL_WINDOW if on else self.here.theirs.window)
        return [f"{self.name}: {self.here.described()}"]

    def do_fill(self, words):
        given = settings(words[1:], ("service", "clock", "stamp"))
        if "service" not in given:
            raise Wrong("it is: fill NUMBER service=SERVICE [clock=TIME] [stamp=TIME]")
        service, registrar = named(given["service"], "a service"), self.here.theirs.registrar()
        clock = time_of(given["clock"], "a clock") if "clock" in given else registrar.clock
        if registrar.bad_clock(clock):
            raise Wrong(f"the clock is from {span(registrar.clock)} on, that of the last request")
        registrar.move_on(clock)
        free = self.here.capacity - len(registrar.entries)
        if not free:
            raise Wrong(f"all of the {self.here.capacity} places are taken at {span(clock)}, and none can be filled")
        number = between(words[0], 1, free, "what can be filled")
        stamp = time_of(given["stamp"], "a stamp") if "stamp" in given else 0
        for _ in range(number):
            ad = filling(registrar.confirmed, service, stamp, registrar.family)
            registrar.entries.append(Entry(clock, ad))
            registrar.confirmed += 1
        self.writer.learn(f"filled-{at}" for at in range(registrar.confirmed + 1))
        self.here.both("hand_in", registrar.cache())
        self.day(self.name).filled.append(Filled(number, clock, given["service"], max(self.lasts(clock, stamp), 0)))
        taken = f"{len(registrar.entries)} of {self.here.capacity} places are taken"
        return [f"a cache is handed in with {number} more, admitted at {span(clock)}: {taken}"]

    # The others

    def do_show(self, words):
        if words:
            raise Wrong("'show' stands alone")
        here, registrar = self.here, self.here.theirs.registrar()
        lines = [f"{self.name}: {here.described()}; clock {span(registrar.clock)}"]
        stamped = any(entry.ad.stamp for entry in registrar.entries)
        head = ("place", "service", "peer", "address", "accepted", "expires", "withdrawn") + ("stamp",) * stamped
        lines += table([head] + [self.row(*each)[: len(head)] for each in enumerate(registrar.entries, 1)])
        taken = f"{len(registrar.entries)} of {here.capacity} places are taken"
        lines.append(f"{taken}; since the opening {registrar.confirmed} admitted, {registrar.expired} expired")
        if here.bounded:
            kept = [(self.writer.name(each.service), address_alone(each), span(each.until)) for each in here.bounds_kept()]
            lines += table([("lower bound of", "at", "until")] + kept)
        return lines

    def row(self, place, entry):
        ad = entry.ad
        accepted, expires, stamp = (span(time) for time in (entry.accepted, entry.accepted + LIFETIME, ad.stamp))
        withdrawn = "withdrawn" if entry.withdrawn else "no"
        return str(place), self.writer.name(ad.service), self.writer.name(ad.peer), log.address_of(ad), accepted, expires, withdrawn, stamp

    def do_save(self, words):
        if len(words) != 1:
            raise Wrong("it is: save FILE")
        keyed = self.lines[:1] and self.lines[0].startswith("key ")
        lines = self.lines if keyed else [f"key {FIRST}"] + self.lines
        write(words[0], "\n".join([f"{SAVED}: tools/registrar FILE.", *lines]) + "\n", SAVED)
        others = sorted({line.split()[0].replace("key", "second key") for line in lines[1:]} - set(IN_A_LOG))
        takes = f"tools/log.py does not: a log has no {' and no '.join(others)}" if others else "tools/log.py try takes it too"
        return [f"{words[0]} has {len(lines)} lines. tools/registrar runs it again; {takes}"]

    def do_picture(self, words):
        if len(words) != 1:
            raise Wrong("it is: picture FILE, as picture day.html")
        days = [day for day in self.days.values() if day.visits]
        if not days:
            raise Wrong("nothing was asked so far, and there is nothing to draw")
        write(words[0], Page("What a registrar was asked", [DRAWN.format(self.whose())], days, self.entries).html(), MADE)
        return [f"{words[0]} shows {counted(self.answers, 'answer')}: open it in a browser, or print it"]

    def do_help(self, words):
        return HELP.rstrip("\n").split("\n")

    def do_quit(self, words):
        if words:
            raise Wrong("'quit' stands alone")
        self.over = True
        return []

    def whose(self):
        return "the model alone" if self.make is Modelled else "the proved library"

    def tally(self):
        bad = f"; {counted(self.bad, 'line')} could not be read" if self.bad else ""
        same = "nothing is compared with it" if self.make is Modelled else "the model gives the same"
        differ = f", of which {self.differ} differ{'s' if self.differ == 1 else ''} from the model's" if self.differ else f": {same}"
        unmet = f"; {counted(self.unmet, 'line')} expected another" if self.unmet else ""
        return f"{counted(self.answers, 'answer')} of {self.whose()}{differ}{unmet}{bad}."


def differing(ours, theirs):
    """How two answers differ: by their words, or by what else is in them, as a ticket, or entries that moved."""
    if ours == theirs:
        return []
    said = [str(each) for each in (ours, theirs)]
    if said[0] == said[1]:
        said = [repr(each) for each in (ours, theirs)]
    return [f"the library answers {said[0]}, the model {said[1]}"]


def address_alone(bound):
    ad = Ad(b"", b"", bound.address, 0, 0, b"", bound.family)
    return log.address_of(ad).rpartition(":")[0].strip("[]")


def table(rows):
    """Lines of columns as wide as they must be."""
    wide = [max(len(cell) for cell in column) for column in zip(*rows)]
    return ["  ".join(cell.ljust(width) for cell, width in zip(row, wide)).rstrip() for row in rows]


def write(path, text, mark):
    """Writes a new file, or one that begins with the mark of this tool's; else it is a bad line."""
    try:
        if os.path.lexists(path) and not is_marked(path, mark):
            raise Wrong(f"'{path}' is there already, and was not saved by this tool")
        with open(path, "w", encoding="utf-8") as file:
            file.write(text)
    except OSError as said:
        raise Wrong(f"'{path}' cannot be written: {said.strerror}") from None


def is_marked(path, mark):
    if not os.path.isfile(path):
        return False
    with open(path, "rb") as file:
        return file.read(len(mark)) == mark.encode()


# Where lines come from


def typed(session):
    """Lines from a terminal, with line editing and history where Python has readline. The prompt names the registrar that is talked to."""
    with contextlib.suppress(ImportError):
        import readline
    while True:
        try:
            yield input(f"{session.name}> ")
        except EOFError:
            return print()
        except KeyboardInterrupt:
            print()


def talk(session):
    print(f"A registrar to talk to: {session.whose()}. 'help' shows what can be said; 'quit', or Ctrl-D, ends it.")
    for line in typed(session):
        session.heed(line)
        if session.over:
            break
    print(session.tally())
    return 1 if session.differ or session.unmet else 0


def run_lines(session, lines):
    """From a file or a pipe each line is shown, and at the end how many answers there were."""
    for line in lines:
        print(line.rstrip())
        session.heed(line)
        if session.over:
            break
    print(session.tally())
    return 1 if session.differ or session.unmet or session.bad else 0


def arguments():
    layout = argparse.RawDescriptionHelpFormatter
    parser = argparse.ArgumentParser(description=__doc__, formatter_class=layout, usage="tools/registrar [--short] [--model] [FILE]")
    parser.add_argument("file", nargs="?", help=argparse.SUPPRESS)
    parser.add_argument("--short", action="store_true", help=argparse.SUPPRESS)
    parser.add_argument("--model", action="store_true", help=argparse.SUPPRESS)
    return parser.parse_args()


def main():
    asked = arguments()
    lines = None
    if asked.file or not sys.stdin.isatty():
        with open(asked.file, "rb") if asked.file else sys.stdin.buffer as file:
            lines = log.text_lines(file)
    session = Session(Modelled if asked.model else over_library(), asked.short)
    return talk(session) if lines is None else run_lines(session, lines)


if __name__ == "__main__":
    command.run("tools/registrar", main)
