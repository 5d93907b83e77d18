"""Lines for a registrar (tools/registrar) as input of the program `conformance`: each is a call by itself, with the cache handed in as the model has it.

So a program can be asked what no log has: a full registrar, withdrawals, IPv6, lower bounds, the profile. crates/conformance/src/request.rt
has the form of a request, and tools/stored.py reads it.
"""

import contextlib
import io

import log
import stored
from beside import Modelled
from command import Unable
from model import LISTED, TICKET_BODY, Answer
from registrar import Session

MOST = 4_096            # bytes of a request
HEAD = 83
DIGEST, HEX = 2, 1      # how a cache and an output are shown


def request(call, numbers, parts, cache, output=0, vouched=0, shown=(DIGEST, HEX, 1)):
    """The bytes of a request that is given this cache. shown: of cache, output and the number that the call is lent, whether and how."""
    every, places, at = [b"", b"", cache, *parts], b"", HEAD
    every += [b""] * (8 - len(every))
    for part in every:
        places += at.to_bytes(2, "big") + len(part).to_bytes(2, "big")
        at += len(part)
    if at > MOST:
        raise Unable(f"a cache of {len(cache)} bytes is too long for a request of conformance, which has {MOST} at most: open a registrar of 20 places or fewer")
    lengths = b"".join(length.to_bytes(4, "big") for length in (len(cache), len(cache), output, output))
    told = b"".join(number.to_bytes(8, "big") for number in (numbers + (0, 0))[:3])
    return bytes([call, *shown, vouched, 1, stored.UNTOUCHED, 0, 0]) + (at - HEAD).to_bytes(2, "big") + lengths + told + places + b"".join(every)


class Kept(Modelled):
    """The model's registrar, which besides keeps each call as a request, with the clock."""

    def __init__(self, asked, *words):
        self.asked = asked
        super().__init__(*words)

    def keep(self, name, clock, numbers, parts, output=0, vouched=0):
        call = getattr(stored, f"SMALL_{name}" if self.small else name)
        self.asked.append((name, clock, request(call, numbers, parts, self.cache(), output, vouched)))

    def timed(self, clock):
        """The profile's calls have no window."""
        return (clock, 0) if self.small else (self.window, clock)

    def register(self, clock, ad, vouched, ticket=b""):
        self.keep("REGISTER", clock, self.timed(clock), [self.key, ad, ticket], 1 + TICKET_BODY, vouched)
        return super().register(clock, ad, vouched, ticket)

    def register_bounded(self, clock, ad, vouched, ticket=b""):
        numbers, parts = (*self.timed(clock), len(self.bounds())), [self.key, ad, ticket, self.bounds()]
        self.keep("REGISTER_BOUNDED", clock, numbers, parts, 1 + TICKET_BODY, vouched)
        return super().register_bounded(clock, ad, vouched, ticket)

    def withdraw(self, clock, service, peer, vouched):
        self.keep("WITHDRAW", clock, (clock,), [service, peer], vouched=vouched)
        return super().withdraw(clock, service, peer, vouched)

    def get_ads(self, clock, service):
        self.keep("GET_ADS", clock, (clock,), [service], LISTED * (1 + self.family.body))
        return super().get_ads(clock, service)

    def newest(self, other, clock, service):
        small = self.small and other.small
        call = stored.SMALL_NEWEST if small else stored.NEWEST
        self.asked.append(("NEWEST", clock, request(call, (clock, len(other.cache())), [other.cache(), service], self.cache(), shown=(0, 0, 0))))
        return super().newest(other, clock, service)


def line_of(asked):
    """The line that conformance must print for a request, by the model."""
    (head, parts), = stored.requests_in(asked)
    return stored.Call(head, parts, parts[2]).line


def in_words(session, name, clock, line):
    """A line of conformance, and what its answer says. Of a program that broke off it may be cut."""
    first, *rest = line.split()
    number = int(first)
    if number < 0:
        answer, more = Answer("NO", -number), ""
    elif name == "NEWEST":
        return f"{clock} NEWEST {number}: " + ("neither lists one", "it is in the first", "it is in the second")[number]
    elif name == "GET_ADS":
        answer, more = Answer("ADS", number), listed(session, number, rest[2:])
    elif name == "WITHDRAW":
        answer, more = Answer("DONE"), ""
    else:
        answer, more = Answer("WAIT", number) if number else Answer("OK"), moved(rest[:1])
    return f"{clock} {answer}: {session.says(clock, answer)}{more}"


def listed(session, number, shown):
    """Whose advertisements stand in a list's buffer."""
    output = bytes.fromhex("".join(shown))
    size = len(output) // LISTED
    peers = [output[size * at + 33 : size * at + 65] for at in range(min(number, LISTED))]
    return ": " + ", ".join(session.writer.names.get(peer, "nobody's") for peer in peers) if peers and size else ""


def moved(told):
    """What REGISTER tells a host besides: how many entries changed their place."""
    return "" if told in ([], ["0"]) else f"; {told[0]} {'entry changes its' if told == ['1'] else 'entries change their'} place"


def read(lines):
    """The session, which knows the words, and of each line that asks something its number, itself, why it is answered so, and its request. A bad line
    raises Wrong."""
    asked, rows = [], []
    session = Session(lambda *words: Kept(asked, *words))
    for at, line in enumerate(lines, 1):
        with contextlib.redirect_stdout(io.StringIO()) as said:
            session.heed(line)
        if session.bad or session.differ:
            raise log.Wrong(f"line {at}: {said.getvalue().strip().lstrip('?! ')}\n    {line.strip()}")
        if len(asked) > len(rows):
            below = [each.strip() for each in said.getvalue().split("\n") if each.startswith(" " * 8)]
            rows.append((at, log.parted(line)[0].rstrip(), below[-1] if below else None, asked[-1]))
    return session, rows


def is_for(lines):
    """Whether a text has lines that no day has, and tools/registrar takes."""
    first = {words[0] for words in (log.parted(line)[0].split() for line in lines) if words}
    return bool(first & {"open", "use", "window", "bounded", "small", "fill", "withdraw", "newest", "show"})
