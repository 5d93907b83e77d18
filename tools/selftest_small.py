"""The checks of tools/selftest.py on document 02's order 14: the small-registrar profile."""

import copy
from dataclasses import replace
from unittest import mock

import model
import stored
from model import LAST_CLOCK, LIFETIME, RECORDED_WINDOW, SMALL_CAPACITY, STAMP_AGE, USUAL_WINDOW, V4, V6, Ad, Answer, Entry, Registrar, SmallRegistrar
from selftest_bounds import KEY, below, bound, buffer, draws, handed, service, ticket_of

NOW = 5_000_000_000         # thirty days have passed since the epoch
EARLY = 100_000_000         # and here not
OLDER = NOW - STAMP_AGE - 1


def ad_of(family=V4, stamp=NOW, peer="newcomer", name="S", first=10, port=4001):
    """At FIRST.0.0.1, or the same bits in front of 96 zeros."""
    return Ad(service(name), service(peer), (first << 24 | 1) << (family.bits - 32), port, stamp, bytes(64), family)


def holding(entries, family=V4, places=SMALL_CAPACITY, clock=NOW - 5, kind=SmallRegistrar):
    registrar = kind(KEY, places, USUAL_WINDOW, family)
    registrar.clock, registrar.confirmed, registrar.entries = clock, len(entries), list(entries)
    return registrar


# Stamps


def is_taken(clock, stamp):
    """By one who counts the milliseconds: none before the stamp, and at most thirty days of them since."""
    return stamp in range(max(0, clock - 2_592_000_000), clock + 1)


def stamps():
    """Both ends of the range at clocks before thirty days and after, of newcomers and of held entries."""
    tried = 0
    for clock in (0, 1, EARLY, STAMP_AGE - 1, STAMP_AGE, STAMP_AGE + 1, NOW, LAST_CLOCK):
        edges = {clock + more for more in (-STAMP_AGE - 1, -STAMP_AGE, 1 - STAMP_AGE, -1, 0, 1)} | {0, 1, 2**40, 2**63, 2**64 - 1}
        for stamp in sorted(edge for edge in edges if edge >= 0):
            ad = ad_of(stamp=stamp)
            answer = holding([], clock=0).register(clock, ad.record(), True)
            assert str(answer) == ("WAIT 1" if is_taken(clock, stamp) else "NO 20"), (clock, stamp)
            assert str(holding([], clock=0, kind=Registrar).register(clock, ad.record(), True)) == "WAIT 1"
            kept = holding([Entry(clock, ad)], clock=clock)
            assert kept.get_ads(clock, ad.service).number == (is_taken(clock, stamp) or stamp > clock), (clock, stamp)
            tried += 1
    assert STAMP_AGE == 2_592_000_000
    return tried


# Refusals


ORDER = (1, 2, 3, 4, 13, 14, 5, 20, 6, 7, 8, 9, 10, 11)
BOUNDED_ORDER = (1, 18, *ORDER[1:], 19)


def request(family, faults):
    """A return that waits, where these things are wrong with it; its cache has two entries of the service. It has no window."""
    entries = [Entry(NOW - 5, ad_of(family, peer=peer, first=first)) for peer, first in (("p", 10), ("q", 11))]
    ad = ad_of(family, stamp=faults.get(20, NOW), port=0 if 14 in faults else 4001, first=200)
    if 6 in faults:
        entries[1] = Entry(NOW - 5, replace(ad, port=4001))
    registrar = holding(entries, family, clock=NOW + 1 if 3 in faults else NOW - 5)
    record = ad.record()
    record = bytes([2 if 13 in faults else record[0]]) + record[1 : -1 if 4 in faults else None]
    named = model.ad_hash(bytes(len(record)) if 10 in faults else record)
    times = (NOW - 5, NOW - 2 if 9 not in faults else NOW + 1, 3 if 11 in faults else 2)
    ticket = bytes([2 if 7 in faults else model.TICKET]) + model.Ticket.made(KEY, named, *times).body()
    ticket = ticket[:-1] + bytes([ticket[-1] ^ (8 in faults)])
    cache = registrar.cache()
    if 1 in faults:
        cache = holding(entries, family, 65, kind=Registrar).cache()
    bounds = buffer(family, 1, bound(family, "X", NOW + (1 if 19 in faults else 0)))
    bounds = bounds + b"\0" if 18 in faults else bounds
    return (cache, bounds), (KEY[1:] if 2 in faults else KEY, 0, NOW, record, 5 not in faults, ticket, 89, True)


def refusals():
    """Each refusal alone, and with each that is behind it; nothing is changed by any. 1 is a cache of 65 places, and 20 either end of the range."""
    tried = 0
    for family in (V4, V6):
        (cache, bounds), rest = request(family, {})
        assert model.register(cache, *rest)[0].word == "WAIT" and model.register_bounded(cache, bounds, *rest)[0].word == "WAIT"
        pairs = [(one, other) for at, one in enumerate(BOUNDED_ORDER) for other in BOUNDED_ORDER[at:]]
        for one, other, stamp in ((*pair, stamp) for pair in pairs for stamp in ((OLDER, NOW + 1, 2**64 - 1) if 20 in pair else (NOW,))):
            lent, rest = request(family, {one: stamp, other: stamp})
            answer, *after = model.register_bounded(*lent, *rest)
            assert (str(answer), *after) == (f"NO {one}", *lent), (one, other, str(answer))
            if one in ORDER and other in ORDER:
                answer, after = model.register(lent[0], *rest)
                assert (str(answer), after) == (f"NO {one}", lent[0]), (one, other, str(answer))
            tried += 1
    return tried


# Capacities


def capacities():
    """64 and 65 places, for opening, for every call, and for either cache of a search; any other refusal comes behind."""
    for number, family in model.FAMILIES.items():
        for places in (1, 63, 64, 65, 66, 1000):
            length = family.cache(places)
            answer, cache = model.opened(b"\7" * length, number, True)
            assert (answer.word == "DONE") == (places <= 64) and (cache == model.opened(bytes(length), number)[1]) == (places <= 64)
        small, large = (holding([Entry(NOW - 5, ad_of(family))], family, places, kind=Registrar).cache() for places in (64, 65))
        name, size = service("S"), 10 * (1 + family.body)
        record = ad_of(family, peer="another").record()
        for cache, refused in ((small, False), (large, True)):
            answers = [
                model.register(cache, KEY, 0, NOW, record, True, b"", 89, True)[0],
                model.register_bounded(cache, bytes(family.bounds(1)), KEY, 0, NOW, record, True, b"", 89, True)[0],
                model.withdraw(cache, name, service("newcomer"), NOW, True, True)[0],
                model.get_ads(cache, NOW, name, size, True),
            ]
            assert [str(answer) == "NO 1" for answer in answers] == [refused] * 4
        assert str(model.register_bounded(large, b"", KEY, 0, NOW, record, True, b"", 89, True)[0]) == "NO 1"
        for first, second, name, clock, told in (
            (small, large, service("S"), NOW, 1), (large, small, service("S"), NOW, 1), (small, large, b"", NOW, 2), (large, small, b"", NOW, 1),
            (small, large, service("S"), NOW - 6, 3), (large, large, b"", NOW - 6, 1),
        ):
            assert str(model.newest_at(first, second, clock, name, True)) == f"NO {told}"
        assert model.newest_at(small, small, NOW, service("S"), True)[0] == 1
    return 2 * (6 + 8 + 1 + 7)


# Listings


def entry_of(letter, place, family=V4):
    """By a letter: fresh, older, exactly thirty days old, later, as late as can be, withdrawn, withdrawn and older, of another service."""
    stamp = {"o": OLDER, "v": OLDER, "e": OLDER + 1, "l": NOW + 1, "m": 2**64 - 1}.get(letter, NOW - 1)
    ad = ad_of(family, stamp, peer=f"peer {place}", name="T" if letter == "s" else "S")
    return Entry(NOW - LIFETIME + 1 + place, ad, letter in "wv")


# Entries of a service, which of them are listed, by their places from 0, and the place of the newest.
LISTED = [
    ("", [], None),
    ("o", [], None),
    ("e", [0], 0),
    ("fo", [0], 0),
    ("of", [1], 1),
    ("elmo", [0, 1, 2], 2),
    ("ffffffffffff", list(range(10)), 11),
    ("offffffffff", list(range(1, 11)), 10),
    ("fffffffffof", list(range(9)) + [10], 10),
    ("fofofofofofofofofofofo", list(range(0, 20, 2)), 20),
    ("oooooooooooo", [], None),
    ("ooooooooooof", [11], 11),
    ("lmlmlmlmlmlm", list(range(10)), 11),
    ("wvovfs", [4], 4),
]


def listings():
    """The first ten that are not older, and the newest of them; every live one counts for a newcomer, brings refusal 6 and can be withdrawn."""
    for letters, listed, newest in LISTED:
        registrar = holding([entry_of(letter, place) for place, letter in enumerate(letters)])
        assert registrar.get_ads(NOW, service("S")).ads == tuple(registrar.entries[place].ad for place in listed), letters
        found = model.newest(registrar, holding([]), NOW, service("S"))
        assert found == (None if newest is None else (1, registrar.entries[newest])), letters
        full = holding(registrar.entries, kind=Registrar)
        assert registrar.counts(NOW, ad_of()) == full.counts(NOW, ad_of())
        for place, letter in enumerate(letters):
            own = ad_of(peer=f"peer {place}", name="T" if letter == "s" else "S")
            assert str(registrar.register(NOW, own.record(), True)) == "NO 6"
            gone = copy.deepcopy(registrar).withdraw(NOW, own.service, own.peer, True)
            assert str(gone) == ("NO 17" if letter in "wv" else "DONE")
    return len(LISTED)


# Drawn calls, beside the full registrar's


class Day:
    """A run on one cache that both sets serve; each call of the profile is held to the full one's on the same cache."""

    def __init__(self, turn):
        self.source, self.family = draws(f"small {turn}"), (V4, V6)[turn % 2]
        self.clock = (NOW, EARLY, STAMP_AGE)[below(self.source, 3)]
        self.cache = model.opened(bytes(self.family.cache((2, 8, 16, 64)[below(self.source, 4)])), (4, 6)[turn % 2], True)[1]
        self.bounds = bytes(self.family.bounds(1 + below(self.source, 4)))
        self.tickets, self.stale, self.listed = [], 0, 0

    def stamp(self):
        near = (0, 1, -1, -STAMP_AGE, -STAMP_AGE - 1, 50 - STAMP_AGE, 2**40, 2**64 - 1 - self.clock)
        return max(0, self.clock + near[below(self.source, len(near))])

    def ask(self):
        """An advertisement, and a ticket that was issued for it and is due, one that stayed long enough, or none."""
        if below(self.source, 3) == 0 and self.tickets:
            ad, ticket = self.tickets[-1 - below(self.source, min(4, len(self.tickets)))]
            opens = model.Ticket.of(ticket[1:])
            self.clock = max(self.clock, opens.issued + opens.wait)
            return ad, ticket
        ad = ad_of(self.family, self.stamp(), f"peer {below(self.source, 9)}", "ST"[below(self.source, 2)], below(self.source, 256))
        return ad, ticket_of(ad, 0, self.clock - 1, 1) if below(self.source, 2) else b""

    def register(self, with_bounds):
        ad, ticket = self.ask()
        call = (model.register_bounded, (self.cache, self.bounds)) if with_bounds else (model.register, (self.cache,))
        rest = KEY, USUAL_WINDOW, self.clock, ad.record(), below(self.source, 9) > 0, ticket, 89
        answer, *after = call[0](*call[1], *rest, True)
        full, *left = call[0](*call[1], *rest)
        if str(answer) == "NO 20":
            assert tuple(after) == call[1] and not is_taken(self.clock, ad.stamp) and str(full) != "NO 5"
            self.stale += 1
            # one in three is admitted by the full call
            answer, after = (full, left) if below(self.source, 3) == 0 else (answer, after)
        else:
            assert (answer, after) == (full, left)
        self.cache, self.bounds = (*after, self.bounds)[:2]
        if answer.ticket:
            self.tickets.append((ad, handed(answer)))

    def others(self):
        name, peer = service("ST"[below(self.source, 2)]), service(f"peer {below(self.source, 9)}")
        small, full = (model.get_ads(self.cache, self.clock, name, 10 * (1 + self.family.body), small) for small in (True, False))
        assert all(self.clock - ad.stamp <= STAMP_AGE for ad in small.ads)
        if len(full.ads) < 10:
            assert small.ads == tuple(ad for ad in full.ads if ad.stamp + STAMP_AGE >= self.clock)
        self.listed += small != full
        found, there = (model.newest_at(self.cache, self.cache, self.clock, name, small) for small in (True, False))
        assert (found is None) == (not small.ads) and (there is not None or found is None)
        assert model.withdraw(self.cache, name, peer, self.clock, True, True) == model.withdraw(self.cache, name, peer, self.clock, True)
        if below(self.source, 4) == 0:
            _, self.cache = model.withdraw(self.cache, name, peer, self.clock, True, True)


def days():
    """Over drawn runs: every call but a listing, unless refused by 20, gets the full registrar's answer and leaves the same; no listing shows what is older."""
    stale = listed = 0
    for turn in range(60):
        day = Day(turn)
        for _ in range(30):
            day.clock += (0, 1, 5_000, 200_000)[below(day.source, 4)]
            day.register(below(day.source, 2) == 0)
            day.others()
        stale, listed = stale + day.stale, listed + day.listed
    assert stale > 200 and listed > 100, (stale, listed)
    return 60 * 30


# Wrong definitions, on the stored requests


class StampBeforeVouched(SmallRegistrar):
    """20 before 5."""

    def refusal(self, clock, ad_bytes, vouched, ticket_bytes):
        refused = super().refusal(clock, ad_bytes, vouched, ticket_bytes)
        stamp = Ad.of(ad_bytes[1:], self.family).stamp if refused == 5 else clock
        return 20 if self.bad_stamp(clock, stamp) else refused


class StampAfterHeld(SmallRegistrar):
    """20 behind 6."""

    def behind(self, refused):
        return refused == 6

    def refusal(self, clock, ad_bytes, vouched, ticket_bytes):
        refused = super().refusal(clock, ad_bytes, vouched, ticket_bytes)
        with mock.patch.object(type(self), "bad_stamp", Registrar.bad_stamp):
            other = super().refusal(clock, ad_bytes, vouched, ticket_bytes)
        return other if refused == 20 and self.behind(other) else refused


class StampBehindTickets(StampAfterHeld):
    """20 behind 6 to 11, where 6 is not told."""

    def behind(self, refused):
        return refused > 6


class OlderNotCounted(SmallRegistrar):
    """In c, s and the points."""

    def counts(self, clock, ad):
        others = copy.copy(self)
        others.entries = [entry for entry in self.entries if not self.grown_older(clock, entry.ad.stamp)]
        return SmallRegistrar.counts(others, clock, ad)


class OlderNotHeld(SmallRegistrar):
    """An older entry does not bring 6."""

    def refusal(self, clock, ad_bytes, vouched, ticket_bytes):
        others = copy.copy(self)
        others.entries = [entry for entry in self.entries if not self.grown_older(clock, entry.ad.stamp)]
        return SmallRegistrar.refusal(others, clock, ad_bytes, vouched, ticket_bytes)


class OlderNotWithdrawn(SmallRegistrar):
    """An older entry cannot be withdrawn."""

    def withdraw(self, clock, service, peer, vouched):
        pair = [entry for entry in self.wanted(clock, service) if entry.ad.peer == peer]
        done = super().withdraw(clock, service, peer, vouched)
        return Answer("NO", 17) if done.word == "DONE" and not pair else done


class OlderDropped(SmallRegistrar):
    """They leave as the expired do."""

    def live(self, clock):
        return [entry for entry in super().live(clock) if not self.grown_older(clock, entry.ad.stamp)]


class OlderListed(SmallRegistrar):
    def get_ads(self, clock, service):
        with mock.patch.object(type(self), "shown", Registrar.shown):
            return super().get_ads(clock, service)


class OlderHandedBack(SmallRegistrar):
    """By a search alone."""

    def wanted(self, clock, service):
        with mock.patch.object(type(self), "shown", Registrar.shown):
            return super().wanted(clock, service)

    def get_ads(self, clock, service):
        with mock.patch.object(type(self), "wanted", SmallRegistrar.wanted):
            return super().get_ads(clock, service)


class NoneWhereTheNewestIsOlder(SmallRegistrar):
    """A search looks at the newest alone."""

    def wanted(self, clock, service):
        newest = Registrar.wanted(holding(self.entries, self.family, self.capacity, kind=Registrar), clock, service)[-1:]
        return [entry for entry in newest if self.shown(clock, entry)]

    def get_ads(self, clock, service):
        with mock.patch.object(type(self), "wanted", SmallRegistrar.wanted):
            return super().get_ads(clock, service)


class LaterSkipped(SmallRegistrar):
    """A held stamp after now is passed over."""

    def shown(self, clock, entry):
        return super().shown(clock, entry) and entry.ad.stamp <= clock


class OlderUsesUpOne(SmallRegistrar):
    """Of the ten."""

    def get_ads(self, clock, service):
        with mock.patch.object(type(self), "shown", Registrar.shown):
            ten = super().get_ads(clock, service)
        ads = tuple(ad for ad in ten.ads if not self.grown_older(clock, ad.stamp))
        return ten if ten.word == "NO" else Answer("ADS", len(ads), ads=ads)


class Places65(SmallRegistrar):
    most = 65


class Places63(SmallRegistrar):
    most = 63


def wrapping(number):
    return number % 2**64


def second_by_the_full(first, second, clock, service, small=False, right=model.newest_at):
    """The second cache of a search may have more places."""
    if not small or isinstance(right(first, first, clock, service, True), Answer):
        return right(first, second, clock, service, small)
    return right(first, second, clock, service)


def bounds_before_places(cache, bounds, *rest, right=model.register_bounded):
    """More than 64 places is told behind 18."""
    full = right(cache, bounds, *rest[:7]) if len(rest) == 8 else (Answer("OK"),)
    return full if full[0].number == 18 else right(cache, bounds, *rest)


def stale_moves_on(cache, *rest, right=model.register):
    """20 leaves the cache at the call's clock."""
    answer, after = right(cache, *rest)
    return answer, cache[:5] + rest[2].to_bytes(8, "big") + cache[13:] if str(answer) == "NO 20" else after


def opened_by_the_full(cache, family, small=False, right=model.opened):
    return right(cache, family)


CLASSES = [
    OlderNotCounted, OlderNotHeld, OlderNotWithdrawn, OlderDropped, OlderListed, OlderHandedBack, NoneWhereTheNewestIsOlder, LaterSkipped, OlderUsesUpOne,
    Places63,
]
# Each with the calls of which a stored line has to change.
REGISTERS = {stored.SMALL_REGISTER}, {stored.SMALL_REGISTER_BOUNDED}
LISTINGS = {stored.SMALL_GET_ADS}, {stored.SMALL_NEWEST}
MISTAKES = [
    ("age of exactly thirty days refused", SmallRegistrar, "bad_stamp", lambda self, clock, stamp: stamp > clock or clock - stamp >= STAMP_AGE, REGISTERS),
    ("one more taken", SmallRegistrar, "bad_stamp", lambda self, clock, stamp: stamp > clock or clock - stamp > STAMP_AGE + 1, REGISTERS),
    ("a stamp of now refused", SmallRegistrar, "bad_stamp", lambda self, clock, stamp: stamp >= clock or clock - stamp > STAMP_AGE, REGISTERS),
    ("one after now taken", SmallRegistrar, "bad_stamp", lambda self, clock, stamp: stamp > clock + 1 or clock - stamp > STAMP_AGE, REGISTERS),
    ("any after now taken", SmallRegistrar, "bad_stamp", lambda self, clock, stamp: clock - stamp > STAMP_AGE, REGISTERS),
    ("no stamp too old", SmallRegistrar, "bad_stamp", lambda self, clock, stamp: stamp > clock, REGISTERS),
    ("no stamp judged", SmallRegistrar, "bad_stamp", lambda self, clock, stamp: False, REGISTERS),
    ("now - stamp wraps", SmallRegistrar, "bad_stamp", lambda self, clock, stamp: wrapping(clock - stamp) > STAMP_AGE, REGISTERS),
    ("now - age wraps, REGISTER", SmallRegistrar, "bad_stamp", lambda self, clock, stamp: stamp > clock or stamp < wrapping(clock - STAMP_AGE), REGISTERS),
    ("exactly thirty days not listed", SmallRegistrar, "grown_older", lambda self, clock, stamp: clock - stamp >= STAMP_AGE, LISTINGS),
    ("one more listed", SmallRegistrar, "grown_older", lambda self, clock, stamp: clock - stamp > STAMP_AGE + 1, LISTINGS),
    ("older listed by both", SmallRegistrar, "shown", Registrar.shown, LISTINGS),
    ("now - stamp wraps, listing", SmallRegistrar, "grown_older", lambda self, clock, stamp: wrapping(clock - stamp) > STAMP_AGE, LISTINGS),
    ("now - age wraps, listing", SmallRegistrar, "grown_older", lambda self, clock, stamp: stamp < wrapping(clock - STAMP_AGE), LISTINGS),
    ("stamp + age wraps, listing", SmallRegistrar, "grown_older", lambda self, clock, stamp: wrapping(stamp + STAMP_AGE) < clock, LISTINGS),
    ("a window of 1,000", model, "USUAL_WINDOW", RECORDED_WINDOW, REGISTERS),
    ("a window of 60,000", model, "USUAL_WINDOW", model.MOST_WINDOW, REGISTERS),
    ("a window of 10,001", model, "USUAL_WINDOW", USUAL_WINDOW + 1, REGISTERS),
    ("the second of 65", model, "newest_at", second_by_the_full, ({stored.SMALL_NEWEST},)),
    ("18 before 65 places", model, "register_bounded", bounds_before_places, ({stored.SMALL_REGISTER_BOUNDED},)),
    ("20 moves the clock", model, "register", stale_moves_on, ({stored.SMALL_REGISTER},)),
    ("opening by the full call", model, "opened", opened_by_the_full, ({stored.SMALL_OPEN},)),
    *((each.__name__, model, "SmallRegistrar", each, (set(stored.SMALL),)) for each in CLASSES),
    ("65 places taken", model, "SmallRegistrar", Places65, tuple({call} for call in stored.SMALL)),
    ("20 before 5", model, "SmallRegistrar", StampBeforeVouched, REGISTERS),
    ("20 behind 6", model, "SmallRegistrar", StampAfterHeld, REGISTERS),
    ("20 behind 11", model, "SmallRegistrar", StampBehindTickets, REGISTERS),
]


def stored_lines():
    """The model gives the stored lines of the calls on a cache, the full ones and the profile's, which the other independent implementation wrote."""
    tried = stored.compared(stored.CALLS)
    assert tried > 1_000 and stored.compared(set(stored.SMALL)) > 700, tried
    return tried


def stored_mistakes():
    """The stored requests tell every wrong definition from the right one."""
    stored.replayed()
    for name, of, what, each, groups in MISTAKES:
        with mock.patch.object(of, what, each):
            for calls in groups:
                assert stored.first_changed(calls), (name, calls)
    return len(MISTAKES)


CHECKS = [
    ("small: stamps", stamps),
    ("small: each refusal, alone and with each behind it", refusals),
    ("small: 64 and 65 places", capacities),
    ("small: listings", listings),
    ("small: drawn days beside the full registrar's", days),
    ("crates/conformance/stdout, calls on a cache", stored_lines),
    ("crates/conformance/stdin, wrong definitions of the profile", stored_mistakes),
]
