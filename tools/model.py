"""The registrar, its log, the replay of a recorded day and the comparison with simulators' doubles, as a plain model: document
01, with orders 1 to 4, 7 to 12 and 14 of document 02, in Python, standard library only.

It is written from these papers alone and shares nothing with the crates: the cache is a list, numbers are
Python's, fractions are multiplied out, similarity is counted entry by entry, doubles are Python's own. It is slow and meant
to be read.
tools/selftest.py holds it to document 01's own cases.
"""

import hashlib
import hmac
import struct
from dataclasses import dataclass, replace

LIFETIME = 900_000          # ms an advertisement stays; document 01's E
USUAL_WINDOW = 10_000       # ms in which a ticket may be brought back: the log's, and that of every new caller
RECORDED_WINDOW = 1_000     # the window under which a recorded day was kept; document 01's
MOST_WINDOW = 60_000        # a window is from 1 to this
LAST_CLOCK = 2**40 - 1      # the clock's range ends here
NEVER = 2**40               # ms; the wait of a full cache, past every clock
FACTORS = 10                # the exponent of the wait
PER_MS = 8_192              # the working's units in a millisecond; document 01's grains
WORKING_END = 2**53         # a working that reaches this gives NEVER
LISTED = 10                 # advertisements to a listing
CAPACITY = 256              # of the log's cache, and of the replay's
ADVERTISERS = 64            # a recorded day numbers them from 0; document 02's halls
COUNTERS_END = 2**64        # confirmed and expired are counted modulo this
MOST_BOUNDS = 1_000         # places that a buffer of bounds can have
LAST_UNTIL = LAST_CLOCK + LIFETIME          # the last time that a bound can be in force until
MOST_CAPACITY = 1_000       # places that a cache can have
SMALL_CAPACITY = 64         # and under the small-registrar profile
STAMP_AGE = 30 * 24 * 60 * 60 * 1_000       # ms; thirty days, the age that a stamp can have there

AD, TICKET, BOUND = 1, 8, 17
ASK, LIST, RETURN = 5, 7, 9
AD_BODY = 32 + 32 + 4 + 2 + 8 + 64          # 142, an IPv4 ad's; the programs have no other
TICKET_BODY = 32 + 8 + 8 + 8 + 32           # 88
# What follows the kind's byte in a log record.
LOG_BODY = {ASK: 8 + 1 + AD_BODY, RETURN: 8 + 1 + AD_BODY + TICKET_BODY, LIST: 8 + 32}
RECORDED_ASK, RECORDED_RETURN = 20, 21
RECORDED_BODY = {RECORDED_ASK: 1 + 8 + 1 + AD_BODY, RECORDED_RETURN: 1 + 8 + 1 + AD_BODY}
SIMULATED = 15
SIMULATED_BODY = 2 + 2 + 2 + 1 + 8


def number(octets):
    """The big-endian number."""
    return int.from_bytes(octets, "big")


def cut(octets, *widths):
    """The fields of the given widths, which must fill the bytes."""
    assert len(octets) == sum(widths)
    fields, at = [], 0
    for width in widths:
        fields.append(octets[at : at + width])
        at += width
    return fields


# Address families (document 02, order 10)


@dataclass(frozen=True)
class Family:
    """What differs between the families: the address's bytes, and the kinds of an ad, an entry, a withdrawn entry and a head."""

    address: int
    ad: int
    entry: int
    withdrawn: int
    head: int

    @property
    def bits(self):
        return 8 * self.address

    @property
    def body(self):
        """The bytes of an advertisement behind its kind."""
        return AD_BODY - 4 + self.address

    def cache(self, capacity):
        """The bytes of a cache: the head, and an entry's for each place."""
        return 29 + (1 + 8 + self.body) * capacity

    def bounds(self, places):
        """The bytes of a buffer of bounds."""
        return (1 + 32 + self.address + 8) * places


V4 = Family(4, ad=AD, entry=3, withdrawn=13, head=14)
V6 = Family(16, ad=10, entry=11, withdrawn=16, head=12)
FAMILIES = {4: V4, 6: V6}                   # by the number that opening takes


def capacity_for(length, family, most=MOST_CAPACITY):
    """The capacity of a cache of this length, or nothing."""
    return next((capacity for capacity in range(1, most + 1) if family.cache(capacity) == length), None)


def opening(length, family, most=MOST_CAPACITY):
    """The capacity that a cache of this length gets at opening, or nothing: refusal 1."""
    return capacity_for(length, FAMILIES[family], most) if family in FAMILIES else None


def family_of(cache):
    """The family of a cache's bytes, told by the head's kind and not by the length, or nothing: refusal 1."""
    return next((family for family in FAMILIES.values() if cache[:1] == bytes([family.head])), None)


# Advertisements and tickets ("Records")


@dataclass(frozen=True)
class Ad:
    service: bytes
    peer: bytes
    address: int
    port: int
    stamp: int
    signature: bytes
    family: Family = V4

    @staticmethod
    def of(body, family=V4):
        service, peer, address, port, stamp, signature = cut(body, 32, 32, family.address, 2, 8, 64)
        return Ad(service, peer, number(address), number(port), number(stamp), signature, family)

    def body(self):
        address = self.address.to_bytes(self.family.address, "big")
        numbers = address + self.port.to_bytes(2, "big") + self.stamp.to_bytes(8, "big")
        return self.service + self.peer + numbers + self.signature

    def record(self):
        return bytes([self.family.ad]) + self.body()


def ad_hash(ad_bytes):
    """What a ticket names of an advertisement: the SHA-256 of all of it, its kind and its body (order 4)."""
    return hashlib.sha256(ad_bytes).digest()


@dataclass(frozen=True)
class Ticket:
    ad_hash: bytes
    first: int
    issued: int
    wait: int
    tag: bytes

    @staticmethod
    def of(body):
        named, first, issued, wait, tag = cut(body, 32, 8, 8, 8, 32)
        return Ticket(named, number(first), number(issued), number(wait), tag)

    @staticmethod
    def made(key, named, first, issued, wait):
        bare = Ticket(named, first, issued, wait, b"")
        return Ticket(named, first, issued, wait, bare.tag_under(key))

    def fields(self):
        return self.ad_hash + b"".join(n.to_bytes(8, "big") for n in (self.first, self.issued, self.wait))

    def body(self):
        return self.fields() + self.tag

    def tag_under(self, key):
        """HMAC-SHA-256 of the ticket's first 57 bytes: its kind and all fields but the tag."""
        return hmac.new(key, bytes([TICKET]) + self.fields(), hashlib.sha256).digest()


# The wait ("The wait")


def ceil(a, b):
    """The least whole number not below a / b."""
    return -(-a // b)


def similarity(address, others, levels=V4.bits):
    """Of the levels 1 to 32, or to 128, those at which too many of the others share the address's first bits; document 01's points."""
    total, sharing = 0, others
    for bits in range(1, levels + 1):
        # who shares so many bits is among those who share one less
        sharing = [other for other in sharing if other >> (levels - bits) == address >> (levels - bits)]
        if len(sharing) * 2**bits > len(others):
            total += 1
    return total


def working(capacity, occupied, same, similar, factors=FACTORS, levels=V4.bits):
    """The working after the given number of factors, for occupied < capacity; nothing is stopped here."""
    # LIFETIME * PER_MS * (same / capacity + similar / levels + 1 / 10^7), over one denominator.
    share = same * levels * 10**7 + similar * capacity * 10**7 + capacity * levels
    value = ceil(LIFETIME * PER_MS * share, capacity * levels * 10**7)
    for _ in range(factors):
        value = ceil(value * capacity, capacity - occupied)
    return value


def wait_of(capacity, occupied, same, similar, levels=V4.bits):
    """The wait in ms."""
    if occupied == capacity:
        return NEVER
    if any(working(capacity, occupied, same, similar, k, levels) >= WORKING_END for k in range(FACTORS + 1)):
        return NEVER
    return ceil(working(capacity, occupied, same, similar, FACTORS, levels), PER_MS)


# The registrar ("REGISTER, step by step", "Refusal numbers")


@dataclass(frozen=True)
class Entry:
    accepted: int
    ad: Ad
    withdrawn: bool = False     # document 02's quiet


@dataclass(frozen=True)
class Counts:
    """What a wait is reckoned from: document 01's C, c, s and p, and of how many levels p is."""

    capacity: int
    occupied: int
    same: int
    similar: int
    levels: int

    def wait(self):
        return wait_of(self.capacity, self.occupied, self.same, self.similar, self.levels)


@dataclass(frozen=True)
class Answer:
    """WAIT with its ticket, OK, NO with a refusal number, ADS with the listed advertisements, or DONE of a withdrawal, which no log
    has; of WAIT and OK too how many held entries changed their place, which no line shows."""

    word: str
    number: int = 0
    ticket: Ticket = None
    ads: tuple = ()
    moves: int = 0

    def __str__(self):
        return self.word if self.word in ("OK", "DONE") else f"{self.word} {self.number}"


def first_true(rows):
    """The number of the first row whose condition holds, else 0. Later conditions are not looked at."""
    for refusal, condition in rows:
        if condition():
            return refusal
    return 0


# Lower bounds (document 02, order 12)


@dataclass(frozen=True)
class Bound:
    """Document 02's floor: whoever asks for this service from this address is to wait until then."""

    service: bytes
    address: int
    until: int
    family: Family = V4

    @staticmethod
    def of(octets, family):
        _, service, address, until = cut(octets, 1, 32, family.address, 8)
        return Bound(service, number(address), number(until), family)

    def record(self):
        return bytes([BOUND]) + self.service + self.address.to_bytes(self.family.address, "big") + self.until.to_bytes(8, "big")

    @property
    def pair(self):
        return self.service, self.address

    def in_force(self, clock):
        return self.until > clock


def places_of(octets, family):
    """How many places a buffer of bounds of this length has, or nothing. The length of a record is the family's."""
    return next((places for places in range(1, MOST_BOUNDS + 1) if family.bounds(places) == len(octets)), None)


def bounds_of(octets, family):
    """The bounds in these bytes, in their order, or nothing: refusal 18."""
    places, size = places_of(octets, family), family.bounds(1)
    if places is None:
        return None
    used = next((at for at in range(places) if octets[at * size] != BOUND), places)
    bounds = [Bound.of(octets[at * size : (at + 1) * size], family) for at in range(used)]
    late = any(bound.until > LAST_UNTIL for bound in bounds)
    twice = len({bound.pair for bound in bounds}) < used
    return None if late or twice or any(octets[used * size :]) else bounds


class Registrar:
    """A freshly opened cache, the key, and the window of its calls. Refusal 1 has no place here, and of refusal 2 only
    the window and a withdrawal's identifiers: the cache is a list and is always well formed, and the key's length is checked once."""

    most = MOST_CAPACITY

    def __init__(self, key, capacity=CAPACITY, window=USUAL_WINDOW, family=V4):
        assert len(key) == 32 and 1 <= capacity <= self.most
        self.key = key
        self.capacity = capacity
        self.window = window
        self.family = family
        self.clock = 0
        self.confirmed = self.expired = 0       # since the opening
        self.entries = []

    @classmethod
    def of(cls, key, octets, window=USUAL_WINDOW):
        """The registrar whose cache has these bytes, or nothing where they are not well formed: refusal 1."""
        family = family_of(octets)
        capacity = family and capacity_for(len(octets), family, cls.most)
        if capacity is None:
            return None
        size, registrar = 1 + 8 + family.body, cls(key, capacity, window, family)
        _, told, count, *numbers = (number(field) for field in cut(octets[:29], 1, 2, 2, 8, 8, 8))
        registrar.clock, registrar.confirmed, registrar.expired = numbers
        records = [octets[at : at + size] for at in range(29, len(octets), size)][: min(count, capacity)]
        registrar.entries = [Entry(number(r[1:9]), Ad.of(r[9:], family), r[0] == family.withdrawn) for r in records]
        times = [entry.accepted for entry in registrar.entries] + [registrar.clock]
        good = told == capacity and times == sorted(times) and registrar.clock <= LAST_CLOCK
        good = good and registrar.confirmed == (registrar.expired + count) % COUNTERS_END
        # written back, a kind that is no entry's, a count past the capacity and what is not zero behind the entries differ
        return registrar if good and registrar.cache() == octets else None

    def cache(self):
        """The cache's bytes: the head, the entries, zeros."""
        head = [(2, self.capacity), (2, len(self.entries)), (8, self.clock), (8, self.confirmed), (8, self.expired)]
        pieces = [bytes([self.family.head])] + [value.to_bytes(width, "big") for width, value in head]
        for entry in self.entries:
            kind = self.family.withdrawn if entry.withdrawn else self.family.entry
            pieces.append(bytes([kind]) + entry.accepted.to_bytes(8, "big") + entry.ad.body())
        return b"".join(pieces).ljust(self.family.cache(self.capacity), b"\0")

    def live(self, clock):
        """The entries that have not expired, oldest first."""
        return [entry for entry in self.entries if clock - entry.accepted < LIFETIME]

    def counts(self, clock, ad):
        """What is held against the newcomer, who is not counted."""
        live = self.live(clock)
        same = sum(1 for entry in live if entry.ad.service == ad.service)
        similar = similarity(ad.address, [entry.ad.address for entry in live], self.family.bits)
        return Counts(self.capacity, len(live), same, similar, self.family.bits)

    def wait(self, clock, ad):
        """Today's wait for the newcomer."""
        return self.counts(clock, ad).wait()

    def belongs(self, ticket, ad_bytes):
        """Whether the ticket is for this very advertisement."""
        return ticket.ad_hash == ad_hash(ad_bytes)

    def bad_clock(self, clock):
        return clock < self.clock or clock > LAST_CLOCK

    def bad_stamp(self, clock, stamp):
        """Refusal 20's condition, for those who judge stamps."""
        return False

    def shown(self, clock, entry):
        """Whether a listing may show the entry."""
        return not entry.withdrawn

    def refusal(self, clock, ad_bytes, vouched, ticket_bytes):
        """The table, in its order, which is not that of the numbers. A condition may rely on those above it having failed."""

        def ad():
            return Ad.of(ad_bytes[1:], self.family)

        def ticket():
            return Ticket.of(ticket_bytes[1:])

        def held():
            pair = ad().service, ad().peer
            return any((e.ad.service, e.ad.peer) == pair for e in self.live(clock))

        def early_or_late():
            opens = ticket().issued + ticket().wait
            return clock < opens or clock > opens + self.window

        rows = [
            (2, lambda: not 1 <= self.window <= MOST_WINDOW),
            (3, lambda: self.bad_clock(clock)),
            (4, lambda: len(ad_bytes) != 1 + self.family.body),
            (13, lambda: ad_bytes[0] != self.family.ad),
            (14, lambda: ad().port == 0),
            (5, lambda: not vouched),
            (20, lambda: self.bad_stamp(clock, ad().stamp)),
            (6, held),
        ]
        if len(ticket_bytes) != 0:
            rows += [
                (7, lambda: len(ticket_bytes) != 1 + TICKET_BODY or ticket_bytes[0] != TICKET),
                (8, lambda: ticket().tag != ticket().tag_under(self.key)),
                (9, lambda: not ticket().first <= ticket().issued <= clock or not 1 <= ticket().wait <= LIFETIME),
                (10, lambda: not self.belongs(ticket(), ad_bytes)),
                (11, early_or_late),
            ]
        return first_true(rows)

    def move_on(self, clock):
        """Drops the expired, which are counted, and moves the clock; gives how many entries changed their place."""
        stay = self.live(clock)
        gone = len(self.entries) - len(stay)
        self.expired = (self.expired + gone) % COUNTERS_END
        self.entries = stay
        self.clock = clock
        return len(stay) if gone else 0

    def register(self, clock, ad_bytes, vouched, ticket_bytes=b""):
        """REGISTER. A refusal leaves everything as it was; either other answer drops the expired and moves the clock."""
        refused = self.refusal(clock, ad_bytes, vouched, ticket_bytes)
        if refused:
            return Answer("NO", refused)
        return self.decided(clock, ad_bytes, ticket_bytes, self.wait(clock, Ad.of(ad_bytes[1:], self.family)))

    def stayed(self, clock, ticket_bytes):
        """The time since the first request on the ticket; 0 without one."""
        return clock - Ticket.of(ticket_bytes[1:]).first if ticket_bytes else 0

    def decided(self, clock, ad_bytes, ticket_bytes, wait):
        """What a request that passes every check gets where the wait is this."""
        ad = Ad.of(ad_bytes[1:], self.family)
        stayed = self.stayed(clock, ticket_bytes)
        first = clock - stayed
        moves = self.move_on(clock)
        if stayed >= wait:
            self.entries.append(Entry(clock, ad))
            self.confirmed = (self.confirmed + 1) % COUNTERS_END
            return Answer("OK", moves=moves)
        left = min(LIFETIME, wait - stayed)
        return Answer("WAIT", left, Ticket.made(self.key, ad_hash(ad_bytes), first, clock, left), moves=moves)

    def register_bounded(self, octets, clock, ad_bytes, vouched, ticket_bytes=b""):
        """REGISTER with a buffer of bounds; gives the answer and the bounds' bytes afterwards. Only a ticket changes them."""
        bounds = bounds_of(octets, self.family)
        if bounds is None:
            return Answer("NO", 18), octets
        refused = self.refusal(clock, ad_bytes, vouched, ticket_bytes)
        if refused:
            return Answer("NO", refused), octets
        ad = Ad.of(ad_bytes[1:], self.family)
        used = self.wait_used(bounds, clock, ad)
        if self.stayed(clock, ticket_bytes) < used and self.crowded(bounds, places_of(octets, self.family), clock, ad):
            return Answer("NO", 19), octets
        answer = self.decided(clock, ad_bytes, ticket_bytes, used)
        after = self.entered(bounds, clock, ad, used) if answer.word == "WAIT" else bounds
        return answer, b"".join(bound.record() for bound in after).ljust(len(octets), b"\0")

    def owns(self, ad, bound):
        """Whether the bound is that of the advertisement's service and address."""
        return bound.pair == (ad.service, ad.address)

    def wait_used(self, bounds, clock, ad):
        """The larger of the recipe's wait and what is left of the pair's bound."""
        left = [bound.until - clock for bound in bounds if self.owns(ad, bound)]
        return max([self.wait(clock, ad)] + left[:1])

    def crowded(self, bounds, places, clock, ad):
        """Whether the pair has no bound and no place is free for one."""
        own = any(self.owns(ad, bound) for bound in bounds)
        return not own and sum(bound.in_force(clock) for bound in bounds) == places

    def entered(self, bounds, clock, ad, used):
        """The bounds after a ticket: those past their time are dropped, the pair's own is rewritten in its place, a new one goes last."""
        new = Bound(ad.service, ad.address, clock + min(LIFETIME, used), self.family)
        stay = [bound for bound in bounds if bound.in_force(clock)]
        if any(self.owns(ad, bound) for bound in stay):
            return [new if self.owns(ad, bound) else bound for bound in stay]
        return stay + [new]

    def withdraw(self, clock, service, peer, vouched):
        """WITHDRAW: the oldest live entry of the pair that is not withdrawn is. A refusal leaves everything as it was."""

        def candidates():
            return [e for e in self.live(clock) if not e.withdrawn and (e.ad.service, e.ad.peer) == (service, peer)]

        refused = first_true([
            (2, lambda: len(service) != 32 or len(peer) != 32),
            (3, lambda: self.bad_clock(clock)),
            (5, lambda: not vouched),
            (17, lambda: not candidates()),
        ])
        if refused:
            return Answer("NO", refused)
        taken = candidates()[0]
        self.move_on(clock)
        at = next(at for at, entry in enumerate(self.entries) if entry is taken)
        self.entries[at] = replace(taken, withdrawn=True)
        return Answer("DONE")

    def get_ads(self, clock, service):
        """GET_ADS: the first ten live advertisements of the service that are not withdrawn. It changes nothing, the clock neither."""
        if self.bad_clock(clock):
            return Answer("NO", 3)
        listed = [entry.ad for entry in self.wanted(clock, service)][:LISTED]
        return Answer("ADS", len(listed), ads=tuple(listed))

    def wanted(self, clock, service):
        """The live entries of the service that a listing may show, oldest first."""
        return [entry for entry in self.live(clock) if entry.ad.service == service and self.shown(clock, entry)]


class SmallRegistrar(Registrar):
    """Order 14, the small-registrar profile: fewer places, the usual window, and stamps that are judged."""

    most = SMALL_CAPACITY

    def bad_stamp(self, clock, stamp):
        """After now, or older than thirty days."""
        return stamp > clock or self.grown_older(clock, stamp)

    def grown_older(self, clock, stamp):
        return clock - stamp > STAMP_AGE

    def shown(self, clock, entry):
        return super().shown(clock, entry) and not self.grown_older(clock, entry.ad.stamp)


# The calls on bytes. Where they are `small` they are those of order 14's profile, in which the window is the usual one


def on(cache, small, key=bytes(32), window=USUAL_WINDOW):
    """The registrar of a cache, or nothing: refusal 1."""
    return (SmallRegistrar if small else Registrar).of(key if len(key) == 32 else bytes(32), cache, USUAL_WINDOW if small else window)


def opened(cache, family, small=False):
    """Opening: the answer and the cache."""
    kind = SmallRegistrar if small else Registrar
    capacity = opening(len(cache), family, kind.most)
    if capacity is None:
        return Answer("NO", 1), cache
    return Answer("DONE"), kind(bytes(32), capacity, family=FAMILIES[family]).cache()


def register(cache, key, window, clock, ad_bytes, vouched, ticket_bytes, reply=1 + TICKET_BODY, small=False):
    """REGISTER, with the length of the buffer for its reply: the answer and the cache."""
    registrar = on(cache, small, key, window)
    refused = first_true([(1, lambda: registrar is None), (2, lambda: len(key) != 32 or reply != 1 + TICKET_BODY)])
    answer = Answer("NO", refused) if refused else registrar.register(clock, ad_bytes, vouched, ticket_bytes)
    return answer, registrar.cache() if answer.word != "NO" else cache


def withdraw(cache, service, peer, clock, vouched, small=False):
    """WITHDRAW: the answer and the cache."""
    registrar = on(cache, small)
    answer = registrar.withdraw(clock, service, peer, vouched) if registrar else Answer("NO", 1)
    return answer, registrar.cache() if answer.word != "NO" else cache


def get_ads(cache, clock, service, size, small=False):
    """GET_ADS, with the length of the buffer for the list."""
    registrar = on(cache, small)
    refused = first_true([
        (1, lambda: registrar is None),
        (2, lambda: len(service) != 32 or size != LISTED * (1 + registrar.family.body)),
    ])
    return Answer("NO", refused) if refused else registrar.get_ads(clock, service)


def newest_at(first, second, clock, service, small=False):
    """Document 02, order 9, on bytes: which cache, 1 or 2, and where the body begins there; or a refusal, or none."""
    registrars = []
    for cache in (first, second):
        registrars.append(on(cache, small))
        if registrars[-1] is None:
            return Answer("NO", 1)
        refused = newest(registrars[-1], registrars[-1], clock, service)
        if isinstance(refused, Answer):
            return refused
    found = newest(*registrars, clock, service)
    if found is None:
        return None
    which, entry = found
    holder = registrars[which - 1]
    return which, holder.family.cache(next(at for at, each in enumerate(holder.entries) if each is entry)) + 9


def register_bounded(cache, bounds, key, window, clock, ad_bytes, vouched, ticket_bytes, reply=1 + TICKET_BODY, small=False):
    """The call of order 12 on bytes, with the length of the buffer for its reply: the answer, the cache and the bounds."""
    registrar = on(cache, small, key, window)
    refused = first_true([
        (1, lambda: registrar is None),
        (18, lambda: bounds_of(bounds, registrar.family) is None),
        (2, lambda: len(key) != 32 or reply != 1 + TICKET_BODY),
    ])
    if refused:
        return Answer("NO", refused), cache, bounds
    answer, after = registrar.register_bounded(bounds, clock, ad_bytes, vouched, ticket_bytes)
    return answer, registrar.cache() if answer.word != "NO" else cache, after


def newest(first, second, clock, service):
    """Document 02, order 9: which registrar's live entry of the service, not withdrawn, was accepted last, and the entry; or a refusal, or none."""
    for registrar in (first, second):
        refused = first_true([(2, lambda: len(service) != 32), (3, lambda: registrar.bad_clock(clock))])
        if refused:
            return Answer("NO", refused)
    found = [
        (entry.accepted, -which, place, entry)
        for which, registrar in ((1, first), (2, second))
        for place, entry in enumerate(registrar.wanted(clock, service))
    ]
    if not found:
        return None
    _, which, _, entry = max(found, key=lambda candidate: candidate[:3])
    return -which, entry


def identifier(protocol_id):
    """A service identifier, or refusal 12."""
    return hashlib.sha256(protocol_id).digest() if 1 <= len(protocol_id) <= 255 else 12


# The log ("Both sides of each edge", its last paragraphs)


def answer(registrar, record):
    """What the registrar answers to one whole record of kind 5, 7 or 9."""
    kind, clock = record[0], number(record[1:9])
    if kind == LIST:
        return registrar.get_ads(clock, record[9:])
    ad = bytes([AD]) + record[10 : 10 + AD_BODY]
    ticket = bytes([TICKET]) + record[10 + AD_BODY :] if kind == RETURN else b""
    return registrar.register(clock, ad, record[9] == 1, ticket)


def split(data, bodies=LOG_BODY):
    """An input's key, its whole records of these kinds, and what is left: nothing, or what makes the program stop."""
    if len(data) < 32:
        return None, [], data
    key, at, records = data[:32], 32, []
    while at < len(data) and data[at] in bodies and at + 1 + bodies[data[at]] <= len(data):
        end = at + 1 + bodies[data[at]]
        records.append(data[at:end])
        at = end
    return key, records, data[at:]


def run(data):
    """The lines that the log program must print for this input, without their newlines."""
    key, records, rest = split(data)
    if key is not None:
        registrar = Registrar(key)
        for record in records:
            yield f"{number(record[1:9])} {answer(registrar, record)}"
    yield "STOP" if key is None or rest else f"END {len(records)}"


# The replay of a recorded day (document 02, order 1)


class Replay:
    """Works the tickets of a recorded day out again: who came when was kept, the tickets were not."""

    def __init__(self, key):
        self.registrar = Registrar(key, CAPACITY, RECORDED_WINDOW)
        self.tickets = {}           # the ticket held, by advertiser's number

    def brought(self, kind, who):
        """The ticket of a call: for a return the one held, if any; for a first ask none."""
        if kind == RECORDED_RETURN and who in self.tickets:
            return bytes([TICKET]) + self.tickets[who].body()
        return b""

    def keep(self, who, answer):
        """A ticket is dropped on confirmation, replaced on WAIT and kept on a refusal."""
        if answer.word == "OK":
            self.tickets.pop(who, None)
        elif answer.word == "WAIT":
            self.tickets[who] = answer.ticket

    def answer(self, record):
        """What the registrar answers to one whole record of kind 20 or 21."""
        who, clock, vouched, body = cut(record[1:], 1, 8, 1, AD_BODY)
        ticket = self.brought(record[0], who[0])
        answer = self.registrar.register(number(clock), bytes([AD]) + body, vouched[0] == 1, ticket)
        self.keep(who[0], answer)
        return answer


def split_recorded(data):
    """As split; a number that no advertiser has stops the replay too."""
    key, records, rest = split(data, RECORDED_BODY)
    good = next((at for at, record in enumerate(records) if record[1] >= ADVERTISERS), len(records))
    return key, records[:good], b"".join(records[good:]) + rest


def summary(trace):
    """For each number seen, by rising number, its count of records and the clock of its last confirmation or '-'.
    The trace has each record's number, clock and answer."""
    for who in sorted({who for who, _, _ in trace}):
        confirmed = [clock for each, clock, answer in trace if each == who and answer.word == "OK"]
        yield f"{who} {sum(each == who for each, _, _ in trace)} {confirmed[-1] if confirmed else '-'}"


def replay(data):
    """The lines that the replay must print for this input, without their newlines."""
    key, records, rest = split_recorded(data)
    trace = []
    replayed = Replay(key) if key is not None else None
    for record in records:
        trace.append((record[1], number(record[2:10]), replayed.answer(record)))
        yield "{} {} {}".format(*trace[-1])
    if key is None or rest:
        yield "STOP"
    else:
        yield from summary(trace)


def is_recorded(data):
    """Whether the first record is of a recorded day. A key alone is taken for a log."""
    return data[32:33] in (bytes([RECORDED_ASK]), bytes([RECORDED_RETURN]))


def printed(data):
    """The lines of the program that this input is for."""
    return replay(data) if is_recorded(data) else run(data)


# The comparison with simulators' doubles (document 02, order 11)


def double_wait(capacity, occupied, same, similar):
    """The wait in ms in doubles, each operation rounded once, in the order's order. A float of Python's is a binary64."""
    lifetime, capacity, least = 900000.0, float(capacity), 1e-7
    o = 1.0 - float(occupied) / capacity
    d = 1.0
    for _ in range(FACTORS):
        d = d * o
    f = 1.0 / d
    x = (float(same) / capacity + float(similar) / 32.0) + least
    return (lifetime * f) * x


def bits_of(double):
    """The 64 bits of a double, as a number."""
    return number(struct.pack(">d", double))


def double_of(bits):
    return struct.unpack(">d", bits.to_bytes(8, "big"))[0]


def simulated(capacity, occupied, same, similar, bits):
    """A record of kind 15."""
    return bytes([SIMULATED]) + struct.pack(">HHHBQ", capacity, occupied, same, similar, bits)


def bad_simulated(capacity, occupied, same, similar, bits):
    wait = double_of(bits)
    if bits >= 2**63 or wait != wait or wait == float("inf"):
        return True
    return not 1 <= capacity <= 1000 or occupied >= capacity or same > occupied or similar > 32


def compared_line(at, record):
    """The line of the record that is the at-th, from 1."""
    capacity, occupied, same, similar, bits = (number(field) for field in cut(record[1:], 2, 2, 2, 1, 8))
    if bad_simulated(capacity, occupied, same, similar, bits):
        return f"{at} BAD"
    ours = bits_of(double_wait(capacity, occupied, same, similar))
    word = "SAME" if ours == bits else "DIFF"
    return f"{at} {word} {ours - bits} {wait_of(capacity, occupied, same, similar)}"


def compared(data):
    """The lines that the comparison must print for this input, without their newlines."""
    at, lines, size = 0, 0, 1 + SIMULATED_BODY
    while data[at : at + 1] == bytes([SIMULATED]) and len(data) - at >= size:
        lines += 1
        yield compared_line(lines, data[at : at + size])
        at += size
    if at < len(data):
        yield "STOP"
