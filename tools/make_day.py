#!/usr/bin/env python3
"""Writes crates/register_log/day.txt, the stored day of the log program, or the table of what its records show.

    tools/make_day.py > crates/register_log/day.txt
    tools/make_day.py cases                    the table of crates/register_log/DAY.md

Where an answer follows from document 01 by hand, it stands here beside its line, and a model that answers otherwise
stops the run. The other answers are the model's.
"""

import argparse
import heapq
import itertools
import sys

sys.dont_write_bytecode = True

import command
import log
import model
from model import LAST_CLOCK, LIFETIME, RECORDED_WINDOW, USUAL_WINDOW
from selftest import below, draws

A, B, C = "/waku/store/1.0.0", "/libp2p/mix/1.2.0", "/example/third/1.0.0"
# Addresses that differ in their first two bits: with at most one entry behind each, no newcomer among them is similar.
EAST, WEST, NORTH, SOUTH = "10.0.0.1:4001", "192.0.2.7:4001", "100.64.0.9:4001", "128.1.1.1:4001"
NO_TAG = "tag=" + "00" * 32
DAY_KEY = "stored-day"


class Day:
    def __init__(self):
        self.reader = log.Reader()
        self.lines = ["# The stored day of the log program, written by tools/make_day.py. DAY.md says which record shows what.", ""]
        self.lines += [f"key {DAY_KEY}"]
        self.reader.bytes_of(f"key {DAY_KEY}")
        self.shown = []             # [first record, last record, what they show]
        self.records = 0
        self.start = 0

    def part(self, title, start):
        """A part of the day. It starts when every entry of the parts before has expired."""
        assert start == 0 or start >= self.reader.registrar.clock + LIFETIME
        self.start = start
        self.lines += ["", f"# {title}"]

    def case(self, text):
        """What the records from here to the next case show."""
        self.lines.append(f"# {text}")
        self.shown.append([self.records + 1, self.records, text])

    def add(self, line, expected=None):
        """One record; the number of its answer."""
        self.reader.bytes_of(f"{line} -> {expected}" if expected else line)
        self.lines.append(f"{line} -> {self.reader.answered}")
        self.records += 1
        self.shown[-1][1] = self.records
        return self.reader.answered.number

    def ask(self, clock, service, peer, at, expected=None, vouched="vouched", more=""):
        return self.add(f"ask {clock} {vouched} {service} peer={peer} {at}{more}", expected)

    def back(self, clock, service, peer, at, ticket, expected=None, vouched="vouched"):
        return self.add(f"return {clock} {vouched} {service} peer={peer} {at} ticket {ticket}", expected)

    def list(self, clock, service, expected=None):
        return self.add(f"list {clock} {service}", expected)

    def admit(self, clock, service, peer, at):
        """Confirmed at this clock, with a ticket as old as the clock."""
        self.back(clock, service, peer, at, f"first=0 issued={clock - 1} wait=1", "OK")


def first_lines(day):
    day.part("First requests on an empty cache", 0)
    day.case("a first request on an empty cache waits 1 ms; nothing is listed by it")
    day.list(0, A, "ADS 0")
    day.ask(0, A, "alice", EAST, "WAIT 1")
    day.list(0, A, "ADS 0")
    day.case("vouched means the byte 1: 0, 2, 3, 128 and 255 are refused (refusal 5)")
    for byte in ("unvouched", "vouched=2", "vouched=3", "vouched=128", "vouched=255"):
        day.ask(0, A, "alice", EAST, "NO 5", byte)
    day.ask(0, A, "alice", EAST, "WAIT 1", "vouched=1")
    day.case("port 0 is refused (refusal 14); 1, 255, 256 and 65535 are ports")
    day.ask(0, A, "alice", "10.0.0.1:0", "NO 14")
    for port in (1, 255, 256, 65535):
        day.ask(0, A, "alice", f"10.0.0.1:{port}", "WAIT 1")
    day.case("stamp, signature, the ends of the address range, identifiers of zeros and of ones: not judged")
    day.ask(0, A, "alice", EAST, "WAIT 1", more=f" stamp={2**64 - 1}")
    day.ask(0, A, "alice", EAST, "WAIT 1", more=" signature=" + "ff" * 64)
    day.ask(0, A, "alice", "0.0.0.0:4001", "WAIT 1")
    day.ask(0, A, "alice", "255.255.255.255:4001", "WAIT 1")
    day.ask(0, "00" * 32, "00" * 32, EAST, "WAIT 1")
    day.ask(0, "ff" * 32, "ff" * 32, EAST, "WAIT 1")
    day.list(0, "00" * 32, "ADS 0")


def clocks(day):
    day.part("Clocks", 0)
    day.case("a clock above 2^40 - 1 is refused (refusal 3), up to the largest that a record can hold")
    for clock in (2**40, 2**40 + 5, 2**63, 2**64 - 1):
        day.ask(clock, A, "alice", EAST, "NO 3")
        day.back(clock, A, "alice", EAST, "first=0 issued=0 wait=1", "NO 3")
        day.list(clock, A, "NO 3")
    day.case("2^40 - 1 is no bad clock: a list is answered, an ask falls at the next condition")
    day.list(LAST_CLOCK, A, "ADS 0")
    day.ask(LAST_CLOCK, A, "alice", EAST, "NO 5", "unvouched")
    day.case("neither a list nor a refusal moved the clock: 5 is still good")
    day.ask(5, A, "alice", EAST, "WAIT 1")
    day.case("a clock that steps back is refused (refusal 3), an equal one is not")
    day.ask(20, A, "alice", EAST, "WAIT 1")
    day.ask(19, A, "alice", EAST, "NO 3")
    day.back(19, A, "alice", EAST, "auto", "NO 3")
    day.list(19, A, "NO 3")
    day.ask(0, A, "alice", EAST, "NO 3")
    day.list(20, A, "ADS 0")
    day.ask(20, A, "alice", EAST, "WAIT 1")
    day.case("each refusal at a later clock leaves the clock as it was: 21 is good after each")
    later = [("NO 14", "10.0.0.1:0", "auto"), ("NO 8", EAST, "auto first=0"), ("NO 9", EAST, "first=2 issued=1 wait=1")]
    later += [("NO 10", EAST, "first=0 issued=1 wait=1 peer=bob"), ("NO 11", EAST, "first=0 issued=0 wait=1")]
    for refusal, at, ticket in later:
        day.back(2 + USUAL_WINDOW, A, "alice", at, ticket, refusal)
        day.ask(21, A, "alice", EAST, "WAIT 1")


def window(day):
    day.part("The window of a ticket", 1_000_000)
    t = day.start
    day.case("issued + wait - 1: refusal 11; issued + wait: taken")
    for service, peer, at in ((A, "early", EAST), (B, "late", WEST), (C, "missed", NORTH)):
        day.ask(t, service, peer, at, "WAIT 1")
    day.back(t, A, "early", EAST, "auto", "NO 11")
    day.back(t + 1, A, "early", EAST, "auto", "OK")
    day.case(f"issued + wait + {USUAL_WINDOW:,}: taken; one later: refusal 11")
    day.back(t + 1 + USUAL_WINDOW, B, "late", WEST, "auto", "OK")
    day.back(t + 2 + USUAL_WINDOW, C, "missed", NORTH, "auto", "NO 11")
    day.case("the same two ends for the longest wait that a ticket can have, 900,000")
    now, last = t + 2 * USUAL_WINDOW, LIFETIME + USUAL_WINDOW
    for age, at, answer in ((LIFETIME - 1, NORTH, "NO 11"), (LIFETIME, NORTH, "OK"), (last, SOUTH, "OK"), (last + 1, SOUTH, "NO 11")):
        day.back(now, f"/age/{age}", "patient", at, f"first={now - age} issued={now - age} wait={LIFETIME}", answer)


def staying(day):
    day.part("The time stayed", 3_000_000)
    t = day.start
    day.case("today's wait decides, not the one on the ticket; what was stayed is taken off; first is kept")
    day.ask(t, A, "quick", EAST, "WAIT 1")
    day.ask(t, A, "slow", WEST, "WAIT 1")
    day.back(t + 1, A, "quick", EAST, "auto", "OK")
    day.back(t + 1, A, "slow", WEST, "auto", "WAIT 3656")
    day.case("a ticket may be shown again inside its window")
    day.back(t + 500, A, "slow", WEST, f"first={t} issued={t} wait=1", "WAIT 3157")
    day.case(f"and {RECORDED_WINDOW + 1:,} ms after it is due, when document 01's window would be over")
    day.back(t + 2 + RECORDED_WINDOW, A, "slow", WEST, f"first={t} issued={t} wait=1", "WAIT 2655")
    day.case("stayed one less than the wait: WAIT 1; an equal time is enough")
    day.back(t + 3656, A, "slow", WEST, "auto", "NO 11")
    day.back(t + 3657, A, "slow", WEST, f"first={t + 1} issued={t + 3656} wait=1", "WAIT 1")
    day.back(t + 3657, A, "slow", WEST, f"first={t} issued={t + 500} wait=3157", "OK")


def very_ad(day):
    day.part("The very advertisement", 4_000_000)
    t = day.start
    day.case("with another address, port, stamp or signature the ticket is refused (refusal 10), and with the advertisement as it was taken")
    day.ask(t, B, "mover", NORTH, "WAIT 1")
    for at in (SOUTH, "100.64.0.9:4002", f"{NORTH} stamp=7", f"{NORTH} signature={'5a' * 64}"):
        day.back(t + 1, B, "mover", at, "auto", "NO 10")
    day.back(t + 1, B, "mover", NORTH, "auto", "OK")
    day.case("who waits where it is quiet and comes back where it is crowded is refused, and asks there afresh: the whole wait")
    beside, long_stay = "100.64.0.8:4001", f"first={t + 2 - model.wait_of(model.CAPACITY, 1, 0, 31)} issued={t + 1} wait=1"
    day.ask(t + 1, A, "settler", WEST, "WAIT 1")
    day.back(t + 2, A, "settler", beside, "auto", "NO 10")
    day.back(t + 2, A, "settler", beside, f"{long_stay} address={WEST}", "NO 10")
    day.ask(t + 2, A, "settler", beside, "WAIT 900000")
    day.back(t + 2, A, "settler", beside, long_stay, "OK")
    day.case("who renews the stamp starts afresh; the ticket of the old stamp is good with the old stamp")
    day.ask(t + 3, C, "stamped", SOUTH, "WAIT 1", more=" stamp=1")
    day.ask(t + 3, C, "stamped", SOUTH, "WAIT 1", more=" stamp=2")
    day.back(t + 4, C, "stamped", f"{SOUTH} stamp=1", "auto", "NO 10")
    day.back(t + 4, C, "stamped", f"{SOUTH} stamp=1", f"first={t + 3} issued={t + 3} wait=1", "OK")


def long_waits(day):
    day.part("Waits above 900,000", 5_000_000)
    t = day.start
    wait = model.wait_of(model.CAPACITY, 1, 0, 32)
    assert 935_900 < wait < 936_000
    day.case(f"the same address makes {wait} ms; the ticket's wait is the rest, and at most 900,000, cut after the time stayed is taken off")
    day.admit(t, A, "first", EAST)
    day.ask(t + 1, B, "second", EAST, "WAIT 900000")
    rests = [(wait - LIFETIME - 1, "WAIT 900000"), (wait - LIFETIME, "WAIT 900000"), (wait - LIFETIME + 1, "WAIT 899999")]
    rests += [(LIFETIME, f"WAIT {wait - LIFETIME}"), (wait - 1, "WAIT 1"), (wait, "OK")]
    for stayed, answer in rests:
        day.back(t + 1, B, "second", EAST, f"first={t + 1 - stayed} issued={t} wait=1", answer)


def dotted(address):
    return ".".join(str(part) for part in address.to_bytes(4, "big"))


def similar(day):
    day.part("Similar addresses", 7_000_000)
    t, east = day.start, 0x0A000001
    day.case("one entry at 10.0.0.1, newcomers that share exactly 0, 1, .. 32 of its first bits: as many points")
    day.admit(t, A, "east", EAST)
    for bits in range(33):
        address = east ^ (1 << (31 - bits)) if bits < 32 else east
        wait = model.wait_of(model.CAPACITY, 1, 0, bits)
        day.ask(t, B, "newcomer", f"{dotted(address)}:4001", f"WAIT {min(wait, LIFETIME)}")
    day.case("P8: 10.0.0.2 has 30 points, 128.0.0.1 none")
    day.ask(t, B, "newcomer", "10.0.0.2:4001", f"WAIT {model.wait_of(model.CAPACITY, 1, 0, 30)}")
    day.ask(t, B, "newcomer", "128.0.0.1:4001", "WAIT 1")
    day.case("P9: with 10.0.0.2, 128.0.0.1 and 129.0.0.1 in as well, 10.0.0.1 has 31 points, and nine others have 0 to 31; 500,000 ms stayed bring out waits above 900,000")
    for peer, at in (("near", "10.0.0.2:1"), ("south", "128.0.0.1:1"), ("beside", "129.0.0.1:1")):
        day.admit(t + 1, C, peer, at)
    points = {"10.0.0.1": 31, "10.0.0.3": 30, "10.0.0.0": 30, "128.0.0.1": 31, "129.0.0.0": 30}
    for at, count in points.items():
        rest = model.wait_of(model.CAPACITY, 4, 0, count) - 500_000
        day.back(t + 1, B, "newcomer", f"{at}:1", f"first={t + 1 - 500_000} issued={t} wait=1", f"WAIT {rest}")
    points = {"11.0.0.1": 6, "64.0.0.1": 0, "128.255.0.0": 7, "130.0.0.1": 5, "192.0.0.1": 0}
    for at, count in points.items():
        day.ask(t + 1, B, "newcomer", f"{at}:1", f"WAIT {model.wait_of(model.CAPACITY, 4, 0, count)}")
    day.case("some of them for a service that three of the four offer")
    for at in ("10.0.0.3", "64.0.0.1", "192.0.0.1"):
        day.ask(t + 1, C, "newcomer", f"{at}:1")


def expiry(day):
    day.part("Expiry", 9_000_000)
    t = day.start
    live, gone = t + 899_999, t + 900_000
    day.case("accepted at 9,000,000: at 9,899,999 it is listed, at 9,900,000 not; a list leaves the clock")
    day.admit(t, A, "alice", EAST)
    day.list(live, A, "ADS 1")
    day.list(gone, A, "ADS 0")
    day.list(live, A, "ADS 1")
    day.case("at 9,899,999 it brings refusal 6 and counts for the service and for similar addresses")
    day.ask(live, A, "alice", EAST, "NO 6")
    day.back(live, A, "alice", WEST, f"first=0 issued={live - 1} wait=1", "NO 6")
    day.ask(live, A, "bob", WEST, "WAIT 3657")
    day.ask(live, B, "bob", EAST, "WAIT 900000")
    day.case("at 9,900,000 it does none of these, and its pair is taken again")
    day.ask(gone, A, "alice", EAST, "WAIT 1")
    day.ask(gone, A, "bob", WEST, "WAIT 1")
    day.ask(gone, B, "bob", EAST, "WAIT 1")
    day.admit(gone, A, "alice", EAST)
    day.list(gone, A, "ADS 1")


def spread(n):
    """The address with n's bits, lowest first, in front: the n-th in such a row has no point."""
    return f"{int(f'{n:08b}'[::-1], 2)}.{n}.7.1:4001"


def listing(day):
    day.part("Listings", 12_000_000)
    t, accepted = day.start, []
    day.case("twelve advertisements of one service among others: listings of 1 to 10, and never more")
    for n in range(15):
        service = B if n % 5 == 3 else A
        day.admit(t + 2 * n, service, f"stall-{n}", spread(n))
        accepted += [t + 2 * n] if service == A else []
        day.list(t + 2 * n, A, f"ADS {min(10, len(accepted))}")
    assert len(accepted) == 12
    day.case("other services: three, none, and none for an identifier that differs in its last byte")
    day.list(t + 28, B, "ADS 3")
    day.list(t + 28, C, "ADS 0")
    day.list(t + 28, model.identifier(A.encode()).hex()[:-1] + "f", "ADS 0")
    day.case("the oldest expire one by one: 10 while ten are live, then fewer")
    for at in accepted:
        for clock in (at + 899_999, at + 900_000):
            live = sum(1 for other in accepted if clock - other < LIFETIME)
            day.list(clock, A, f"ADS {min(10, live)}")


def near(digits):
    """Two values that differ from this one in one byte, the first or the last."""
    return "00" + digits[2:], digits[:-2] + "00"


def same_pair(day):
    day.part("One service and one peer", 14_000_000)
    t, service, peer = day.start, "a1" * 32, "b2" * 32
    day.case("refusal 6 needs both; identifiers that differ in their first or last byte are others")
    day.admit(t, service, peer, EAST)
    day.ask(t, service, peer, WEST, "NO 6")
    for other in near(service) + (A,):
        day.ask(t, other, peer, WEST, "WAIT 1")
        day.list(t, other, "ADS 0")
    for other in near(peer) + ("bob",):
        day.ask(t, service, other, WEST, "WAIT 3657")


def other_ads(day):
    day.part("Tickets for other advertisements", 15_000_000)
    t = day.start
    bare = f"first=0 issued={t - 1} wait=1"
    day.case("refusal 10: a ticket for an advertisement of another service, another peer, or both, or another in the first or last byte of a field")
    others = [f"service={B}", "peer=dave", f"service={B} peer=dave"]
    others += [f"service={other}" for other in near(model.identifier(A.encode()).hex())]
    others += [f"peer={other}" for other in near(model.identifier(b"carol").hex())]
    others += [f"address={at}" for at in ("193.0.2.7:4001", "192.0.2.6:4001", "192.0.2.7:4257", "192.0.2.7:4000")]
    others += [f"stamp={2**56}", "stamp=1", f"signature=01{'00' * 63}", f"signature={'00' * 63}01"]
    for other in others:
        day.back(t, A, "carol", WEST, f"{bare} {other}", "NO 10")
    day.case("refusal 10: a hash that differs in its first or last byte; zeros; the hash of the body without its kind")
    ad = log.read_ad([A, "peer=carol", WEST])
    whole, body = (model.ad_hash(octets).hex() for octets in (ad.record(), ad.body()))
    for digits in near(whole) + ("00" * 32, body):
        day.back(t, A, "carol", WEST, f"{bare} ad_hash={digits}", "NO 10")
    day.case("the hash of this very advertisement, written out, is taken")
    day.back(t, A, "carol", WEST, f"{bare} ad_hash={whole}", "OK")


def tags(day):
    day.part("Tags", 16_000_000)
    t = day.start
    day.case("refusal 8: each field of an issued ticket changed, its tag kept")
    day.ask(t, A, "alice", EAST, "WAIT 1")
    for change in (f"first={t - 1}", f"issued={t - 1}", "wait=2", f"service={B}", f"address={WEST}", "ad_hash=" + "00" * 32):
        day.back(t + 1, A, "alice", EAST, f"auto {change}", "NO 8")
    day.case("refusal 8: the tag's first, a middle or last bit changed; zeros; under another key; all bytes zero or one")
    tag = day.reader.latest[model.identifier(A.encode()), model.identifier(b"alice")].tag
    for bit in (255, 128, 0):
        changed = (int(tag.hex(), 16) ^ (1 << bit)).to_bytes(32, "big")
        day.back(t + 1, A, "alice", EAST, f"auto tag={changed.hex()}", "NO 8")
    day.back(t + 1, A, "alice", EAST, f"auto {NO_TAG}", "NO 8")
    day.back(t + 1, A, "alice", EAST, f"first={t} issued={t} wait=1 key=another", "NO 8")
    for byte in ("00", "ff"):
        day.back(t + 1, A, "alice", EAST, byte * model.TICKET_BODY, "NO 8")
    day.case("the ticket as it was issued is taken")
    day.back(t + 1, A, "alice", EAST, "auto", "OK")


def ticket_times(day):
    day.part("Times on a ticket", 18_000_000)
    t, most = day.start, 2**64 - 1
    day.case("refusal 9: first after issued, issued after now, wait 0 or above 900,000; sums that pass 2^64")
    bad = [(t, t - 1, 1), (t - 1, t + 1, 1), (0, t - 1, 0), (0, t - 900_001, 900_001), (0, t - 1, most), (most, t - 1, 1)]
    bad += [(0, most, 1), (0, most, 2), (most, most, most), (0, 0, 0), (0, 2**63, 2**63)]
    for first, issued, wait in bad:
        day.back(t, A, "alice", EAST, f"first={first} issued={issued} wait={wait}", "NO 9")
    day.case("the ends that pass: first = issued = now (then it is too early: 11), first = issued, wait 900,000")
    day.back(t, A, "alice", EAST, f"first={t} issued={t} wait=1", "NO 11")
    day.back(t, A, "alice", EAST, f"first={t - 1} issued={t - 1} wait=1", "OK")
    day.back(t, B, "bob", WEST, f"first=0 issued={t - 900_000} wait=900000", "OK")


def combinations(day):
    """The eight conditions that a record of a log can fulfil, each by one part of the record."""
    day.part("Every combination of refusals", 20_000_000)
    t = day.start
    day.case("the conditions 3, 14, 5, 6, 8, 9, 10 and 11 in all 255 combinations: the first in this order answers; with none, it is taken")
    day.admit(t, A, "held", EAST)
    numbers = (3, 14, 5, 6, 8, 9, 10, 11)          # in the order of checking
    chosen = [set(some) for size in range(8, -1, -1) for some in itertools.combinations(numbers, size)]
    others = itertools.cycle(("peer=stranger", f"service={C}", "address=192.0.2.8:4001", "address=192.0.2.7:4002", "stamp=1"))
    for true in chosen:
        clock = t - 1 if 3 in true else t + 10
        service, peer = (A, "held") if 6 in true else (B, "other")
        times = {(0, 0): (clock - 1, 1), (1, 0): (clock - 900_001, 900_001), (0, 1): (clock - 2 - USUAL_WINDOW, 1), (1, 1): (0, 0)}
        issued, wait = times[9 in true, 11 in true]
        ticket = f"first=0 issued={issued} wait={wait}" + (f" {next(others)}" if 10 in true else "") + (f" {NO_TAG}" if 8 in true else "")
        vouched = "unvouched" if 5 in true else "vouched"
        answer = f"NO {min(true, key=numbers.index)}" if true else "OK"
        day.back(clock, service, peer, f"192.0.2.7:{0 if 14 in true else 4001}", ticket, answer, vouched)


class Crowd:
    """Peers who ask, wait, come back, sometimes late, from elsewhere or with a new stamp, and advertise again, in the order of the clock."""

    def __init__(self, day, peers, records):
        self.day, self.source, self.due = day, draws("crowd"), []
        self.end = day.records + records
        for n in range(peers):
            heapq.heappush(self.due, (day.start + below(self.source, 1_500_000), n, "ask"))
        self.services = [self.pick([A] * 4 + [B] * 2 + [C, "/example/fourth/2.0", "/example/fifth/2.0"]) for _ in range(peers)]
        self.addresses = [self.pick([self.near(), self.block(), self.anywhere(), self.anywhere()]) for _ in range(peers)]
        self.stamps = [0] * peers

    def pick(self, some):
        return some[below(self.source, len(some))]

    def near(self):
        return f"10.20.{below(self.source, 4)}.{below(self.source, 256)}:4001"

    def block(self):
        return f"172.{16 + below(self.source, 16)}.{below(self.source, 256)}.9:4001"

    def anywhere(self):
        return f"{dotted(below(self.source, 2**32))}:{1 + below(self.source, 65535)}"

    def run(self):
        while self.day.records < self.end:
            clock, peer, deed = heapq.heappop(self.due)
            self.turn(clock, peer, deed)
            if below(self.source, 12) == 0:
                self.day.list(clock, self.pick(self.services))
            if below(self.source, 40) == 0:
                self.day.list(clock - 1 - below(self.source, 5000), A)

    def turn(self, clock, peer, deed):
        vouched = "unvouched" if below(self.source, 30) == 0 else "vouched"
        ticket = " ticket auto" if deed == "return" else ""
        if below(self.source, 25) == 0:
            self.addresses[peer] = self.anywhere()
        if below(self.source, 25) == 0:
            self.stamps[peer] = clock
        stamp = f" stamp={self.stamps[peer]}" if self.stamps[peer] else ""
        self.day.add(f"{deed} {clock} {vouched} {self.services[peer]} peer=node-{peer} {self.addresses[peer]}{stamp}{ticket}")
        answer, soon = self.day.reader.answered, clock + 1 + below(self.source, 30_000)
        if answer.word == "WAIT":
            in_time = [0, 0, 0, below(self.source, USUAL_WINDOW + 1), below(self.source, USUAL_WINDOW + 1)]
            late = self.pick(in_time + [USUAL_WINDOW + 1 + below(self.source, 3000)])
            heapq.heappush(self.due, (clock + answer.number + late, peer, "return"))
        elif answer.word == "OK":
            heapq.heappush(self.due, (clock + self.pick([LIFETIME, LIFETIME + 5000, 400_000]), peer, "ask"))
        else:
            heapq.heappush(self.due, (soon + (200_000 if answer.number == 6 else 0), peer, "ask"))


def crowd(day):
    day.part("A crowd", 30_000_000)
    day.case("peers who ask, come back, come late, move, renew their stamp and advertise again, with listings and a few clocks that step back")
    Crowd(day, 110, 420).run()


def fullest(day):
    """Admission ends at 244 of 256: from there the wait is 2^40 ms, and no clock is that long."""
    assert model.wait_of(256, 243, 0, 0) <= LAST_CLOCK and model.wait_of(256, 244, 0, 0) == model.NEVER
    start = LAST_CLOCK - LIFETIME
    day.part("The fullest cache, at the end of the clock", start)
    day.case("244 live advertisements, each of its own service and as unlike as addresses can be; a first request on the way: s = p = 0 at rising c")
    for n in range(244):
        if n % 16 == 0 or n > 234:
            day.ask(start + n, "/probe/1.0", "probe", spread(n), f"WAIT {min(LIFETIME, model.wait_of(256, n, 0, 0))}")
        day.admit(start + n, f"/full/{n}", f"full-{n}", spread(n))
    end = LAST_CLOCK - 1
    day.case("it answers WAIT to everybody, whatever the service and address, and however long they stayed: 2^40 ms less the time stayed")
    for service, at in (("/probe/1.0", spread(244)), ("/full/0", spread(245)), ("/probe/1.0", spread(0))):
        day.ask(start + 243, service, "probe", at, "WAIT 900000")
    day.back(start + 500, "/probe/1.0", "probe", spread(244), f"first=0 issued={start + 499} wait=1", f"WAIT {2**40 - start - 500}")
    day.back(end, "/probe/1.0", "probe", spread(0), f"first=0 issued={end - 1} wait=1", "WAIT 2")
    day.list(end, "/full/0", "ADS 1")
    day.ask(end, "/full/0", "full-0", spread(0), "NO 6")
    day.case("2^40 - 1: the oldest has expired, and the one who stayed since 0 takes its place")
    day.list(LAST_CLOCK, "/full/0", "ADS 0")
    for service, at in (("/full/9", spread(0)), ("/probe/1.0", spread(2))):
        day.back(LAST_CLOCK, service, "probe", at, f"first=0 issued={LAST_CLOCK - 1} wait=1", "WAIT 1")
    day.back(LAST_CLOCK, "/probe/1.0", "probe", spread(0), f"first=0 issued={LAST_CLOCK - 1} wait=1", "OK")
    day.back(LAST_CLOCK, "/full/0", "full-0", spread(244), f"first=0 issued={LAST_CLOCK - 1} wait=1", "WAIT 1")
    day.case("nothing comes after 2^40 - 1, and nothing before it now")
    for clock in (2**40, 2**64 - 1, LAST_CLOCK - 1):
        day.ask(clock, A, "alice", EAST, "NO 3")
        day.list(clock, A, "NO 3")
    day.list(LAST_CLOCK, "/probe/1.0", "ADS 1")


PARTS = (first_lines, clocks, window, staying, very_ad, long_waits, similar, expiry, listing, same_pair, other_ads, tags, ticket_times)
PARTS += (combinations, crowd, fullest)


def whole_day():
    """The day's text and the table of its cases."""
    day = Day()
    for part in PARTS:
        part(day)
    rows = [f"| {first} to {last} | {text} |" if first < last else f"| {first} | {text} |" for first, last, text in day.shown]
    return "\n".join(day.lines) + "\n", "\n".join(["| records | what they show |", "|---|---|"] + rows) + "\n"


def main():
    layout = argparse.RawDescriptionHelpFormatter
    parser = argparse.ArgumentParser(description=__doc__, formatter_class=layout, usage="tools/make_day.py [cases]")
    parser.add_argument("what", nargs="?", choices=("cases",), help=argparse.SUPPRESS)
    asked = parser.parse_args()
    text, table = whole_day()
    sys.stdout.write(table if asked.what == "cases" else text)


if __name__ == "__main__":
    command.run("tools/make_day.py", main)
