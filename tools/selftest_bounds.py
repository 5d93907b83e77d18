"""The checks of tools/selftest.py on the call of document 02's order 12: lower bounds, so that asking afresh does not pay."""

import copy
import hashlib
from unittest import mock

import model
import stored
from model import LAST_UNTIL, LIFETIME, MOST_BOUNDS, USUAL_WINDOW, V4, V6, Ad, Bound, Entry, Registrar, Ticket

KEY = bytes(range(32))
NOW = 10_000_000
GONE = 10_038_636       # when the two entries of the service are

# Who asks, by a letter: the service, and the first byte of the address. S is held twice, at 10 and 11; B and C share its service, X its address.
ASKERS = {"A": ("S", 200), "B": ("S", 201), "C": ("S", 12), "X": ("T", 200), "Y": ("U", 202)}


def service(name):
    return hashlib.sha256(name.encode()).digest()


def ad_of(family, who, port=4001, peer=None):
    name, first = ASKERS[who]
    return advertisement(family, name, peer or who, first, port)


def advertisement(family, name, peer, first, port=4001):
    """At FIRST.0.0.1, or the same bits in front of 96 zeros."""
    address = (first << 24 | 1) << (family.bits - 32)
    return Ad(service(name), service(peer), address, port, 0, bytes(64), family)


def held(family=V4, places=64):
    """A registrar that holds two entries of S, which expire at GONE."""
    registrar = Registrar(KEY, places, USUAL_WINDOW, family)
    registrar.clock = GONE - LIFETIME
    registrar.entries = [Entry(registrar.clock, advertisement(family, "S", peer, first)) for peer, first in (("p", 10), ("q", 11))]
    registrar.confirmed = 2
    return registrar


def ticket_of(ad, first, issued, wait):
    return bytes([model.TICKET]) + Ticket.made(KEY, model.ad_hash(ad.record()), first, issued, wait).body()


def handed(answer):
    return bytes([model.TICKET]) + answer.ticket.body()


def bound(family, who, until):
    ad = ad_of(family, who)
    return Bound(ad.service, ad.address, until, family)


def buffer(family, places, *bounds):
    return b"".join(each.record() for each in bounds).ljust(family.bounds(places), b"\0")


def untils(octets, family=V4):
    return [each.until for each in model.bounds_of(octets, family)]


# A day: the cache looks emptier when the two are gone


def the_day():
    """Whoever drops a ticket and asks afresh when two entries are gone waits as long as before; whoever keeps it is confirmed."""
    for family in (V4, V6):
        ad, registrar, bounds = ad_of(family, "A"), held(family), bytes(family.bounds(2))
        plain = copy.deepcopy(registrar)
        first, bounds = registrar.register_bounded(bounds, NOW, ad.record(), True)
        assert str(first) == str(plain.register(NOW, ad.record(), True)) == "WAIT 38635" and untils(bounds, family) == [10_038_635]
        other = ad_of(family, "C")
        old = ticket_of(other, NOW + 1 - LIFETIME, NOW, 1)
        for each in (registrar, plain):
            assert str(each.register(NOW + 1, other.record(), True, old)) == "OK"
        assert registrar.wait_used(model.bounds_of(bounds, family), 10_038_635, ad) == 68_185
        second, bounds = registrar.register_bounded(bounds, 10_038_635, ad.record(), True, handed(first))
        assert str(second) == str(plain.register(10_038_635, ad.record(), True, handed(first))) == "WAIT 29550"
        assert untils(bounds, family) == [10_106_820]
        kept, left = copy.deepcopy(registrar), bounds
        afresh, bounds = registrar.register_bounded(bounds, GONE, ad.record(), True)
        easy = plain.register(GONE, ad.record(), True)
        assert (str(easy), str(afresh), untils(bounds, family)) == ("WAIT 16462", "WAIT 68184", [10_106_820])
        assert str(plain.register(10_055_098, ad.record(), True, handed(easy))) == "OK"
        early, same = registrar.register_bounded(bounds, 10_055_098, ad.record(), True, handed(afresh))
        assert str(early) == "NO 11" and same == bounds and afresh.ticket.issued + afresh.ticket.wait == 10_106_820
        back, same = kept.register_bounded(left, 10_068_185, ad.record(), True, handed(second))
        assert str(back) == "OK" and same == left and len(kept.entries) == 2
    return 12


# The form of a buffer of bounds


def forms():
    """Lengths of both families, records at the front, and what is not of the form."""
    for family, size in ((V4, 45), (V6, 57)):
        right = {size * places for places in range(1, MOST_BOUNDS + 1)}
        for length in list(range(4 * size)) + [size * n + more for n in (45, 57, 999, 1000, 1001) for more in (-1, 0, 1)]:
            assert (model.bounds_of(bytes(length), family) == []) == (length in right), (size, length)
        a, b, x, y = (bound(family, who, until) for who, until in (("A", 0), ("B", LAST_UNTIL), ("X", 5), ("Y", 5)))
        assert len(a.record()) == size and a.record()[0] == 17 and a.record()[-8:] == bytes(8)
        good = [buffer(family, 3, *some) for some in ((), (a,), (b, a), (a, b, x), (x, y, a))]
        assert [len(model.bounds_of(octets, family)) for octets in good] == [0, 1, 2, 3, 3]
        late = Bound(b.service, b.address, LAST_UNTIL + 1, family)
        again = Bound(a.service, a.address, 7, family)
        gap = bytes(size) + a.record() + bytes(size)
        other = bytes([16]) + a.record()[1:] + bytes(2 * size)
        wrong = [buffer(family, 3, late), buffer(family, 3, a, late), buffer(family, 3, a, again), buffer(family, 3, a, b, again), buffer(family, 3, a, a)]
        wrong += [gap, other, good[1][:-1] + b"\1", good[1][: size + 1] + b"\1" + good[1][size + 2 :], good[3][:-1], good[3] + b"\0", b""]
        for octets in wrong:
            assert model.bounds_of(octets, family) is None, octets.hex()
    # the record's length follows the family, never the buffer's
    assert model.places_of(bytes(2565), V4) == 57 and model.places_of(bytes(2565), V6) == 45
    short, long = buffer(V4, 57, bound(V4, "A", 5)), buffer(V6, 45, bound(V6, "A", 5))
    assert untils(short) == untils(long, V6) == [5]
    assert model.bounds_of(buffer(V4, 57, bound(V4, "A", 5), bound(V4, "B", 5)), V6) is None and model.bounds_of(long, V4) is None


# Refusals


# The order of the table for this call.
ORDER = (1, 18, 2, 3, 4, 13, 14, 5, 6, 7, 8, 9, 10, 11, 19)


def request(family, faults):
    """A return that waits, where these things are wrong with it; its cache is that of the day."""
    registrar, clock = held(family), NOW
    ad = ad_of(family, "A", port=0 if 14 in faults else 4001)
    if 6 in faults:
        registrar.entries[1] = Entry(registrar.clock, ad_of(family, "A"))
    if 3 in faults:
        registrar.clock = NOW + 1
    record = ad.record()
    record = bytes([2 if 13 in faults else record[0]]) + record[1 : -1 if 4 in faults else None]
    named = model.ad_hash(bytes(len(record)) if 10 in faults else record)
    times = (NOW - 5, NOW - 2 if 9 not in faults else NOW + 1, 3 if 11 in faults else 2)
    ticket = bytes([2 if 7 in faults else model.TICKET]) + Ticket.made(KEY, named, *times).body()
    ticket = ticket[:-1] + bytes([ticket[-1] ^ (8 in faults)])
    cache = registrar.cache()
    cache = bytes([4]) + cache[1:] if 1 in faults else cache
    bounds = buffer(family, 1, bound(family, "X", NOW + (1 if 19 in faults else 0)))
    bounds = bounds + b"\0" if 18 in faults else bounds
    return cache, bounds, KEY, 0 if 2 in faults else USUAL_WINDOW, clock, record, 5 not in faults, ticket


def refusals():
    """Each refusal alone, and with each that is behind it in the table; nothing is changed by any."""
    tried = 0
    for family in (V4, V6):
        answer, cache, bounds = model.register_bounded(*request(family, ()))
        assert str(answer) == "WAIT 38630" and untils(bounds, family) == [NOW + 38_635], answer
        for at, one in enumerate(ORDER):
            for other in ORDER[at:]:
                call = request(family, (one, other))
                answer, cache, bounds = model.register_bounded(*call)
                assert (str(answer), cache, bounds) == (f"NO {one}", *call[:2]), (one, other, str(answer))
                tried += 1
    for key, reply in ((KEY[1:], 89), (KEY + b"\0", 89), (KEY, 88), (KEY, 90), (b"", 0)):
        cache, bounds, _, *rest = request(V4, ())
        assert str(model.register_bounded(cache, bounds, key, *rest, reply)[0]) == "NO 2"
        assert str(model.register_bounded(cache, bounds[1:], key, *rest, reply)[0]) == "NO 18"
    return tried + 10


# What is left in the bounds


# A case: its name; the bounds before, each with how far its until is from now; the places; how long the asker A has stayed, and nothing for a first
# request; the answer; the bounds after. The wait by the recipe is 38,635.
CASES = [
    ("into empty bounds", "", 2, None, "WAIT 38635", "A+38635"),
    ("last", "X+5 B+9", 3, None, "WAIT 38635", "X+5 B+9 A+38635"),
    ("in place", "X+5 A+1 B+9", 3, None, "WAIT 38635", "X+5 A+38635 B+9"),
    ("in place, first", "A+1 B+9", 2, None, "WAIT 38635", "A+38635 B+9"),
    ("the bound is larger", "B+9 A+50000", 2, None, "WAIT 50000", "B+9 A+50000"),
    ("the bound is as large", "A+38635", 1, None, "WAIT 38635", "A+38635"),
    ("the bound is a millisecond larger", "A+38636", 1, None, "WAIT 38636", "A+38636"),
    ("of the lifetime", "A+900000", 1, None, "WAIT 900000", "A+900000"),
    ("cut to the lifetime", "A+900001 B+1", 2, None, "WAIT 900000", "A+900000 B+1"),
    ("the largest until", f"A+{LAST_UNTIL - NOW}", 1, None, "WAIT 900000", "A+900000"),
    ("dropped at until = now", "X+0 B+1", 3, None, "WAIT 38635", "B+1 A+38635"),
    ("dropped though not full", "B+1 X-1 Y+7", 4, None, "WAIT 38635", "B+1 Y+7 A+38635"),
    ("long past", f"X-{NOW} B+1", 3, None, "WAIT 38635", "B+1 A+38635"),
    ("own dropped, goes last", "A-1 B+1", 2, None, "WAIT 38635", "B+1 A+38635"),
    ("own at until = now, goes last", "A+0 B+1", 2, None, "WAIT 38635", "B+1 A+38635"),
    ("full of those past", "X-5 B+0", 2, None, "WAIT 38635", "A+38635"),
    ("others dropped, own in place", "X-5 A+3 B+0 Y+1", 4, None, "WAIT 38635", "A+38635 Y+1"),
    ("every place in force", "X+1 B+1", 2, None, "NO 19", "X+1 B+1"),
    ("one of the places is past", "X+1 B+0", 2, None, "WAIT 38635", "X+1 A+38635"),
    ("full, with its own", "X+1 A+1", 2, None, "WAIT 38635", "X+1 A+38635"),
    ("a place is empty", "X+1", 2, None, "WAIT 38635", "X+1 A+38635"),
    ("a bound of the service at another address", "B+50000", 2, None, "WAIT 38635", "B+50000 A+38635"),
    ("a bound of the address for another service", "X+50000", 2, None, "WAIT 38635", "X+50000 A+38635"),
    ("a return waits, until from the wait used", "A+1 B+9", 2, 10_000, "WAIT 28635", "A+38635 B+9"),
    ("a return waits by its bound", "A+50000", 1, 40_000, "WAIT 10000", "A+50000"),
    ("a return waits a millisecond", "A+38636", 1, 38_635, "WAIT 1", "A+38636"),
    ("a return cut to the lifetime", "A+1800000", 1, 899_999, "WAIT 900000", "A+900000"),
    ("a return that was dropped finds no place", "X+1 B+1", 2, 10_000, "NO 19", "X+1 B+1"),
    ("a return goes last", "X+1 B-1", 2, 10_000, "WAIT 28635", "X+1 A+38635"),
    ("confirmed, stayed as long as both", "A+38635 X-1", 3, 38_635, "OK", "A+38635 X-1"),
    ("confirmed before until of a later ticket", "B+9 A+38635", 2, 68_185, "OK", "B+9 A+38635"),
    ("confirmed leaves those past", "X-5 B+5 A-1", 3, 38_635, "OK", "X-5 B+5 A-1"),
    ("confirmed without a place", "X+1 B+1", 2, 38_635, "OK", "X+1 B+1"),
    ("confirmed, its own is past", "A+0 X+0", 2, 38_635, "OK", "A+0 X+0"),
]


def bounds_in(text, family):
    """The bounds that a case tells, as "X+5 A-1"."""
    return [bound(family, each[0], NOW + int(each[1:])) for each in text.split()]


def case_left(family, before, places, stayed):
    """What a case's call answers, and the bytes that it leaves."""
    registrar, ad = model.Registrar.of(KEY, held(family).cache()), ad_of(family, "A")
    ticket = b"" if stayed is None else ticket_of(ad, NOW - stayed, NOW - 1, 1)
    answer, after = registrar.register_bounded(buffer(family, places, *bounds_in(before, family)), NOW, ad.record(), True, ticket)
    return str(answer), after


def cases_left():
    return [case_left(family, before, places, stayed) for family in (V4, V6) for _, before, places, stayed, _, _ in CASES]


def entering():
    right = [(answer, buffer(family, places, *bounds_in(after, family))) for family in (V4, V6) for _, _, places, _, answer, after in CASES]
    for case, found, expected in zip(2 * CASES, cases_left(), right):
        assert found == expected, (case, found)
    return len(right)


# Wrong definitions


class OwnMovedToTheEnd(Registrar):
    def entered(self, bounds, clock, ad, used):
        return sorted(super().entered(bounds, clock, ad, used), key=lambda each: self.owns(ad, each))


class DroppedOnlyWhenFull(Registrar):
    def crowded(self, bounds, places, clock, ad):
        self.full = len(bounds) == places
        return super().crowded(bounds, places, clock, ad)

    def entered(self, bounds, clock, ad, used):
        if self.full:
            return super().entered(bounds, clock, ad, used)
        with mock.patch.object(Bound, "in_force", lambda each, clock: True):
            return super().entered(bounds, clock, ad, used)


class DroppedOnConfirmed(Registrar):
    """Those past their time, as on WAIT."""

    def stays(self, each, clock, ad):
        return each.in_force(clock)

    def register_bounded(self, octets, clock, ad_bytes, vouched, ticket_bytes=b""):
        answer, after = super().register_bounded(octets, clock, ad_bytes, vouched, ticket_bytes)
        if answer.word != "OK":
            return answer, after
        ad, bounds = Ad.of(ad_bytes[1:], self.family), model.bounds_of(after, self.family)
        return answer, buffer(self.family, model.places_of(octets, self.family), *(each for each in bounds if self.stays(each, clock, ad)))


class OwnDroppedOnConfirmed(DroppedOnConfirmed):
    def stays(self, each, clock, ad):
        return not self.owns(ad, each)


class EnteredTwice(Registrar):
    """A new one goes last, though the pair has one in force."""

    def entered(self, bounds, clock, ad, used):
        return [each for each in bounds if each.in_force(clock)] + super().entered([], clock, ad, used)


class UntilFromTheTicket(Registrar):
    """Until from the number that the ticket tells, when the time stayed is taken off."""

    def decided(self, clock, ad_bytes, ticket_bytes, wait):
        self.told = super().decided(clock, ad_bytes, ticket_bytes, wait)
        return self.told

    def entered(self, bounds, clock, ad, used):
        return super().entered(bounds, clock, ad, self.told.number)


class NoneWrittenAtAReturn(UntilFromTheTicket):
    def entered(self, bounds, clock, ad, used):
        return super().entered(bounds, clock, ad, used) if self.told.ticket.first == clock else bounds


class UntilNotCut(Registrar):
    def entered(self, bounds, clock, ad, used):
        after = super().entered(bounds, clock, ad, used)
        return [Bound(*each.pair, clock + used, self.family) if self.owns(ad, each) else each for each in after]


class UntilFromTheRecipe(Registrar):
    def entered(self, bounds, clock, ad, used):
        return super().entered(bounds, clock, ad, self.wait(clock, ad))


class SmallerWait(Registrar):
    def wait_used(self, bounds, clock, ad):
        left = [each.until - clock for each in bounds if self.owns(ad, each) and each.in_force(clock)]
        return min([self.wait(clock, ad)] + left)


class UntilForWhatIsLeft(Registrar):
    def wait_used(self, bounds, clock, ad):
        return max([self.wait(clock, ad)] + [each.until for each in bounds if self.owns(ad, each)])


class OthersDropped(Registrar):
    def entered(self, bounds, clock, ad, used):
        return [each for each in super().entered(bounds, clock, ad, used) if self.owns(ad, each)]


class OverwrittenWhenFull(Registrar):
    """The oldest bound makes room in place of refusal 19."""

    def crowded(self, bounds, places, clock, ad):
        if super().crowded(bounds, places, clock, ad):
            del bounds[0]
        return False


class CrowdedThoughOnePast(Registrar):
    def crowded(self, bounds, places, clock, ad):
        return len(bounds) == places and super().crowded(bounds, sum(each.in_force(clock) for each in bounds), clock, ad)


class CrowdedThoughItsOwn(Registrar):
    def crowded(self, bounds, places, clock, ad):
        return sum(each.in_force(clock) for each in bounds) == places


class CrowdedThoughConfirmed(Registrar):
    def stayed(self, clock, ticket_bytes):
        """What a request that is confirmed has stayed too, where it is asked whether a ticket would be issued."""
        return 0 if self.asked else super().stayed(clock, ticket_bytes)

    def wait_used(self, bounds, clock, ad):
        self.asked = True
        return super().wait_used(bounds, clock, ad)

    def crowded(self, bounds, places, clock, ad):
        self.asked = False
        return super().crowded(bounds, places, clock, ad)


WRONG = [
    OwnMovedToTheEnd, DroppedOnlyWhenFull, DroppedOnConfirmed, OwnDroppedOnConfirmed, EnteredTwice, UntilFromTheTicket, NoneWrittenAtAReturn,
    UntilNotCut, UntilFromTheRecipe, SmallerWait, UntilForWhatIsLeft, OthersDropped, OverwrittenWhenFull, CrowdedThoughOnePast, CrowdedThoughItsOwn,
    CrowdedThoughConfirmed,
]
MISTAKES = [(model, "Registrar", each) for each in WRONG] + [
    (Bound, "in_force", lambda each, clock: each.until >= clock),                       # kept at until = now
    (Registrar, "owns", lambda self, ad, each: each.service == ad.service),             # a pair told by its service alone
    (Registrar, "owns", lambda self, ad, each: each.address == ad.address),             # or by its address
]


def mistakes():
    """The cases above tell every wrong definition from the right one."""
    right = cases_left()
    for of, name, each in MISTAKES:
        with mock.patch.object(of, name, each):
            assert cases_left() != right, (name, each)
    return len(MISTAKES)


# Days


def below(source, end):
    return sum(next(source) << (8 * i) for i in range(4)) % end


def draws(seed):
    turn = 0
    while True:
        yield from hashlib.sha256(f"{seed} {turn}".encode()).digest()
        turn += 1


class Day:
    """A run on one cache and one buffer of bounds, and what it must not do. Both may hold anything at the start."""

    def __init__(self, turn):
        self.source, self.family = draws(f"bounds {turn}"), (V4, V6)[turn % 2]
        self.registrar = held(self.family, (4, 8, 16, 64)[below(self.source, 4)])
        self.clock, places = NOW, 1 + below(self.source, 4)
        some = [bound(self.family, who, NOW + below(self.source, 2_000_000) - 500_000) for who in "ABXYC" if below(self.source, 3) == 0]
        self.bounds = buffer(self.family, places, *some[:places])
        self.tickets = []       # with the advertisement of each, newest last
        self.due, self.told = {}, {}
        self.returns = 0

    def turn(self):
        self.clock += (0, 1, 50, 5_000, 60_000)[below(self.source, 5)]
        what = below(self.source, 10)
        if what < 4:
            self.bounded(self.asker(), b"")
        elif what < 8 and self.tickets:
            ad, ticket = self.tickets[-1 - below(self.source, min(4, len(self.tickets)))]
            due = model.Ticket.of(ticket[1:]).issued + model.Ticket.of(ticket[1:]).wait
            self.clock = max(self.clock, due + below(self.source, 3))
            self.bounded(ad, ticket)
        elif what == 8:
            self.plain(self.asker())
        else:
            ad = self.asker()
            self.registrar.withdraw(self.clock, ad.service, ad.peer, True)

    def asker(self):
        return ad_of(self.family, "ABXYC"[below(self.source, 5)], peer=f"peer {below(self.source, 3)}")

    def plain(self, ad):
        """By REGISTER, with a ticket that is old enough or without one."""
        ticket = ticket_of(ad, self.clock - LIFETIME, self.clock - 1, 1) if below(self.source, 2) else b""
        answer = self.registrar.register(self.clock, ad.record(), True, ticket)
        if answer.ticket:
            self.tickets.append((ad, handed(answer)))

    def bounded(self, ad, ticket):
        before, bounds = copy.deepcopy(self.registrar), model.bounds_of(self.bounds, self.family)
        used = self.registrar.wait_used(bounds, self.clock, ad)
        answer, self.bounds = self.registrar.register_bounded(self.bounds, self.clock, ad.record(), True, ticket)
        assert model.bounds_of(self.bounds, self.family) is not None
        if ticket and answer.number not in (18, 19):
            self.kept(before, bounds, ad, ticket, answer)
        if answer.ticket:
            self.issued(ad, ticket, answer, used)

    def issued(self, ad, ticket, answer, used):
        """Asking again never shortens a wait, nor what is told to one who asks afresh."""
        pair, cut = (ad.service, ad.address), min(LIFETIME, used)
        assert self.clock + cut >= self.due.get(pair, 0), (self.clock, cut)
        assert ticket or self.clock + answer.number >= self.told.get(pair, 0)
        self.due[pair] = self.clock + cut
        self.told[pair] = max(self.told.get(pair, 0), self.clock + answer.number)
        left = next(each.until for each in model.bounds_of(self.bounds, self.family) if each.pair == pair)
        assert left == until_by(answer.ticket)
        self.tickets.append((ad, handed(answer)))

    def kept(self, before, bounds, ad, ticket, answer):
        """Whoever keeps its ticket gets what REGISTER answers, and leaves REGISTER's cache."""
        until = next((each.until for each in bounds if each.pair == (ad.service, ad.address)), 0)
        if until <= until_by(Ticket.of(ticket[1:])):
            assert before.register(self.clock, ad.record(), True, ticket) == answer and before.cache() == self.registrar.cache()
            self.returns += answer.word != "NO"


def until_by(ticket):
    """What a ticket's own fields say of the until that it left."""
    return ticket.issued + min(LIFETIME, ticket.wait + ticket.issued - ticket.first)


def days():
    """Over drawn runs: asking again never shortens a wait, and whoever keeps its ticket loses nothing."""
    returns = 0
    for turn in range(120):
        day = Day(turn)
        for _ in range(40):
            day.turn()
        returns += day.returns
    assert returns > 500, returns
    return 120 * 40


# The stored requests of `conformance`


def stored_lines():
    """The model gives the stored lines of this call, which the other independent implementation wrote."""
    tried = stored.compared({stored.REGISTER_BOUNDED})
    assert tried > 250
    return tried


def stored_mistakes():
    """The stored requests tell every wrong definition from the right one."""
    stored.replayed()
    for of, name, each in MISTAKES:
        with mock.patch.object(of, name, each):
            assert stored.first_changed({stored.REGISTER_BOUNDED}), (name, each)
    return len(MISTAKES)


CHECKS = [
    ("bounds: a day on which asking afresh does not pay", the_day),
    ("bounds: the form", forms),
    ("bounds: each refusal, alone and with each behind it", refusals),
    ("bounds: in place, last, dropped", entering),
    ("bounds: wrong definitions", mistakes),
    ("bounds: drawn days", days),
    ("crates/conformance/stdout, bounds", stored_lines),
    ("crates/conformance/stdin, wrong definitions of bounds", stored_mistakes),
]
