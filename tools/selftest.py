#!/usr/bin/env python3
"""The tools' own checks, in seconds: tools/selftest.py [WORD..]

With words, only the checks whose names have one of them, as `tools/selftest.py pages` or `tools/selftest.py replay`.

Holds tools/model.py and tools/log.py to what document 01, document 000 (docs/PAPERS.md) and RFC 4231 print, the stored days to the
model, the programs register_log, replay and doubles to the model's lines through a pipe, the compiled library to the model,
four wrong registrars, built unproved, to the days that show them, every tool to its --help and its errors, and the pages to what the
repository has (tools/pages.py). The last line is the tally. Status: 0 nothing failed, 1 something did, 2 no check has such a word. What
needs a program of target/bin, the library, rt or a C compiler is not run where it is missing.
"""

import argparse
import contextlib
import errno
import fcntl
import hashlib
import hmac
import io
import ipaddress
import os
import re
import subprocess
import sys
import tempfile
import termios
import traceback
from dataclasses import replace
from fractions import Fraction
from unittest import mock

sys.dont_write_bytecode = True

import command
import make_edges
import model
import selftest_bounds
import selftest_class
import selftest_library
import selftest_pages
import selftest_picture
import selftest_registrar
import selftest_small
import selftest_texts
import selftest_wrong
from command import ROOT
from model import LIFETIME, MOST_WINDOW, NEVER, PER_MS, RECORDED_WINDOW, USUAL_WINDOW, V4, V6, Ad, Entry, Registrar, Ticket, wait_of
from trying import NotRun, ended, program, tried

KEY = bytes(range(32))


def address(text):
    return model.number(bytes(int(part) for part in text.split(".")))


def ad_bytes(service="service", peer="peer", at="10.0.0.1", port=4001):
    names = [hashlib.sha256(name.encode()).digest() for name in (service, peer)]
    return bytes([model.AD]) + Ad(*names, address(at), port, 0, bytes(64)).body()


def long_ad_bytes(service="service", peer="peer", at="2001:db8::1", port=4001):
    """An IPv6 advertisement, put together here by its table; the address may be a number."""
    names = b"".join(hashlib.sha256(name.encode()).digest() for name in (service, peer))
    return b"\x0a" + names + ipaddress.IPv6Address(at).packed + port.to_bytes(2, "big") + bytes(8 + 64)


def ticket_bytes(ad, first, issued, wait, key=KEY):
    return bytes([model.TICKET]) + Ticket.made(key, model.ad_hash(ad), first, issued, wait).body()


def old_ticket_bytes(ad, first, issued, wait):
    """A ticket as it was before order 4: kind 2, service, peer, times, and a tag over these 89 bytes."""
    bare = b"\2" + ad[1:65] + b"".join(time.to_bytes(8, "big") for time in (first, issued, wait))
    return bare + hmac.new(KEY, bare, hashlib.sha256).digest()


def draws(seed):
    """Numbers that look random and are the same on every machine."""
    turn = 0
    while True:
        yield from hashlib.sha256(f"{seed} {turn}".encode()).digest()
        turn += 1


def below(source, end):
    return sum(next(source) << (8 * i) for i in range(4)) % end


# Document 01's cases


def cases_of_the_wait():
    assert model.working(1000, 0, 0, 0) == 738 and wait_of(1000, 0, 0, 0) == 1  # P1
    assert model.working(1000, 500, 0, 0) == 755_712 and wait_of(1000, 500, 0, 0) == 93  # P2
    assert wait_of(1000, 500, 500, 0) == 460_800_093  # P3
    assert wait_of(2, 1, 0, 32) == 921_600_093  # P4
    assert model.working(3, 1, 0, 0) == 42_584 and wait_of(3, 1, 0, 0) == 6  # P5
    assert wait_of(1000, 999, 0, 0) == 2**40  # P6
    assert wait_of(1, 1, 0, 0) == 2**40  # P7


def cases_of_similarity():
    assert model.similarity(address("10.0.0.2"), [address("10.0.0.1")]) == 30  # P8
    assert model.similarity(address("128.0.0.1"), [address("10.0.0.1")]) == 0
    held = [address(at) for at in ("10.0.0.1", "10.0.0.2", "128.0.0.1", "129.0.0.1")]
    assert model.similarity(address("10.0.0.1"), held) == 31  # P9


def cases_of_time():
    registrar = Registrar(KEY)
    registrar.entries = [model.Entry(0, Ad.of(ad_bytes()[1:]))]
    assert len(registrar.live(899_999)) == 1 and registrar.live(900_000) == []  # P10
    newcomer = ad_bytes(peer="newcomer")
    ticket = ticket_bytes(newcomer, 1000, 1000, 1)
    assert answers_under(RECORDED_WINDOW, newcomer, ticket, (1000, 1001, 2001, 2002)) == ["NO 11", "OK", "OK", "NO 11"]  # P11


def answers_under(window, newcomer, ticket, clocks):
    """What a new registrar answers at each of the clocks, under the window."""
    return [str(Registrar(KEY, window=window).register(clock, newcomer, True, ticket)) for clock in clocks]


def windows_of_a_call():
    """Both sides of both ends of the registration window, from 1 to 60,000; others are refusal 2, before the clock's."""
    newcomer = ad_bytes(peer="newcomer")
    ticket = ticket_bytes(newcomer, 1000, 1000, 1)
    for window in (1, 2, RECORDED_WINDOW, USUAL_WINDOW - 1, USUAL_WINDOW, MOST_WINDOW - 1, MOST_WINDOW):
        answers = answers_under(window, newcomer, ticket, (1000, 1001, 1001 + window, 1002 + window))
        assert answers == ["NO 11", "OK", "OK", "NO 11"], window
    for window in (0, MOST_WINDOW + 1, 2**63, 2**64 - 1):
        assert answers_under(window, newcomer, ticket, (1000, 1001, 2**40)) == ["NO 2"] * 3, window
        assert answers_under(window, newcomer[:-1], b"", (1000,)) == ["NO 2"], window
    assert (USUAL_WINDOW, MOST_WINDOW) == (10_000, 60_000) and Registrar(KEY).window == USUAL_WINDOW
    return 11


def every_refusal_of_register():
    """Each condition alone, and those of an ad with the next, on the byte level, also those that no log can bring about."""
    ad = ad_bytes()
    good = ticket_bytes(ad, 0, 0, 1)
    others = [ad[:at] + bytes([ad[at] ^ 1]) + ad[at + 1 :] for at in range(1, len(ad))]
    rows = [(10, 1, ad, True, ticket_bytes(other, 0, 0, 1)) for other in others]
    rows += [(10, 1, other, True, good) for other in others]
    rows += [(7, 1, ad, True, (good + bytes(40))[:length]) for length in (1, 57, 88, 90, 120, 121, 122)]
    rows += [
        (3, 2**40, ad, True, b""),
        (4, 0, ad[:-1], True, b""),
        (4, 0, ad + b"\0", True, b""),
        (4, 0, b"", True, b""),
        (13, 0, b"\2" + ad[1:], True, b""),
        (14, 0, ad_bytes(port=0), True, b""),
        (3, 2**40, ad[:-1], True, b""),
        (4, 0, b"\2" + ad[1:-1], True, b""),
        (13, 0, b"\2" + ad_bytes(port=0)[1:], True, b""),
        (14, 0, ad_bytes(port=0), False, b""),
        (5, 0, ad, False, b""),
        (7, 1, ad, True, b"\2" + good[1:]),
        (7, 1, ad, True, old_ticket_bytes(ad, 0, 0, 1)),
        (8, 1, ad, True, good[:-1] + bytes([good[-1] ^ 1])),
        (9, 1, ad, True, ticket_bytes(ad, 1, 0, 1)),
        (9, 1, ad, True, ticket_bytes(ad, 0, 2, 1)),
        (9, 1, ad, True, ticket_bytes(ad, 0, 0, 0)),
        (9, 1, ad, True, ticket_bytes(ad, 0, 0, 900_001)),
        (10, 1, ad, True, bytes([model.TICKET]) + Ticket.made(KEY, model.ad_hash(ad[1:]), 0, 0, 1).body()),
        (11, 0, ad, True, good),
        (11, 2 + USUAL_WINDOW, ad, True, good),
    ]
    for refusal, *call in rows:
        assert str(Registrar(KEY).register(*call)) == f"NO {refusal}", (refusal, call)
    registrar = Registrar(KEY)
    assert str(registrar.register(1, ad, True, good)) == "OK"
    assert str(registrar.register(0, ad, False)) == "NO 3" and str(registrar.register(900_000, ad, True)) == "NO 6"
    assert str(registrar.register(900_001, ad, True)) == "WAIT 1"
    assert model.identifier(b"") == model.identifier(bytes(256)) == 12
    assert Registrar(KEY, 1).register(0, ad, True).ticket.body() == good[1:]
    assert len(good) == 89 and good[1:33] == hashlib.sha256(ad).digest() and len(ad) == 143
    assert good[57:] == hmac.new(KEY, good[:57], hashlib.sha256).digest()
    return len(rows)


def one_place():
    """C = 1: full while its one advertisement lives, and taken again at the expiry."""
    registrar, ad, next_ad = Registrar(KEY, 1), ad_bytes(), ad_bytes(peer="next")
    assert str(registrar.register(1, ad, True, ticket_bytes(ad, 0, 0, 1))) == "OK"
    assert str(registrar.register(1, next_ad, True)) == "WAIT 900000"
    long_stay = [ticket_bytes(next_ad, 0, clock - 1, 1) for clock in (900_000, 900_001)]
    assert str(registrar.register(900_000, next_ad, True, long_stay[0])) == "WAIT 900000"
    assert str(registrar.register(900_001, next_ad, True, long_stay[1])) == "OK" and len(registrar.entries) == 1


def moves():
    """Document 02, order 7: those that stay change their place if one expired; the newcomer is not one of them."""
    told = []
    for clock in (900_004, 900_005, 900_006, 900_007, 900_008):
        asked, returned = Registrar(KEY, 8), Registrar(KEY, 8)
        for registrar in (asked, returned):
            registrar.entries = [Entry(at, Ad.of(ad_bytes(peer=peer)[1:])) for at, peer in ((5, "a"), (6, "b"), (7, "c"))]
        newcomer = ad_bytes(service="other", peer="d", at="240.0.0.1")
        ticket = ticket_bytes(newcomer, 0, clock - 1, 1)
        first, back = asked.register(clock, newcomer, True), returned.register(clock, newcomer, True, ticket)
        assert first.word == "WAIT" and back.word == "OK" and first.moves == back.moves, (clock, first, back)
        told.append(first.moves)
    assert told == [0, 2, 1, 0, 0], told
    return len(told)


# Section "The wait": what follows from the recipe


def withdrawals():
    """Who withdraws is off the list and nothing else: the oldest is taken, the expired leave, and the pair is refused while it lives."""
    own, service, peer = ad_bytes(), *model.cut(ad_bytes()[1:65], 32, 32)

    def registrar():
        """Two entries of the pair and one of another, accepted at 5, 6 and 7, after one that is withdrawn."""
        made = Registrar(KEY, 4)
        rest = [(4, "peer", True), (5, "peer", False), (6, "other", False), (7, "peer", False)]
        made.entries = [Entry(at, Ad.of(ad_bytes(peer=name)[1:]), gone) for at, name, gone in rest]
        made.clock, made.confirmed, made.expired = 8, 3, model.COUNTERS_END - 1
        return made

    refused = [(2, service[1:], peer, 9, True), (2, service, peer + b"\0", 9, True), (3, service, peer, 7, False), (3, service, peer, 2**40, False)]
    refused += [(5, service, peer, 9, False), (17, peer, service, 9, True), (17, service, peer, LIFETIME + 7, True)]
    for number, of, by, clock, vouched in refused:
        left = registrar()
        assert str(left.withdraw(clock, of, by, vouched)) == f"NO {number}" and vars(left) == vars(registrar()), number
    left = registrar()
    assert left.get_ads(9, service).number == 3 and str(left.withdraw(9, service, peer, True)) == "DONE"
    assert [entry.withdrawn for entry in left.entries] == [True, True, False, False] and left.get_ads(9, service).number == 2
    assert [replace(entry, withdrawn=False) for entry in left.entries] == [replace(entry, withdrawn=False) for entry in registrar().entries]
    assert (left.clock, left.confirmed, left.expired) == (9, 3, model.COUNTERS_END - 1)
    # at 900,005 two have expired, so the last of the pair is taken; the counter goes on past 2^64 - 1
    assert str(left.withdraw(LIFETIME + 5, service, peer, True)) == "DONE" and [entry.accepted for entry in left.entries] == [6, 7]
    assert (left.clock, left.confirmed, left.expired, left.entries[1].withdrawn) == (LIFETIME + 5, 3, 1, True)
    assert str(left.withdraw(LIFETIME + 5, service, peer, True)) == "NO 17" and left.get_ads(LIFETIME + 5, service).number == 1
    for clock, answer in ((LIFETIME + 6, "NO 6"), (LIFETIME + 7, "WAIT 1")):
        assert str(left.register(clock, own, True)) == answer, clock
    assert (left.confirmed, left.expired, left.entries) == (3, 3, [])
    return len(refused) + 6


def two_at_once():
    """The newest of two registrars: the later place at equal times in one, the first of the two, past ten, none withdrawn or expired."""
    service = ad_bytes()[1:33]

    def registrar(*entries):
        made = Registrar(KEY, 20)
        made.entries = [Entry(at, Ad.of(ad_bytes(peer=name)[1:]), gone) for at, name, gone in entries]
        made.clock = 8
        return made

    def told(first, second, clock=9):
        found = model.newest(first, second, clock, service)
        return found and (found[0], found[1].accepted, found[1].ad.peer)

    def peer(name):
        return ad_bytes(peer=name)[33:65]

    old, new = registrar((4, "a", False)), registrar((3, "b", False), (5, "c", False))
    assert told(old, new) == (2, 5, peer("c")) and told(new, old) == (1, 5, peer("c"))
    equal = registrar((4, "d", False), (4, "e", False))
    assert told(equal, equal) == (1, 4, peer("e")) and told(old, equal) == (1, 4, peer("a"))
    assert told(registrar((4, "a", False), (6, "f", True)), registrar((3, "b", False))) == (1, 4, peer("a"))
    assert told(old, new, LIFETIME + 4) == (2, 5, peer("c")) and told(old, new, LIFETIME + 5) is None
    assert told(registrar(*((at, "g", False) for at in range(8) for _ in range(2))), registrar())[1] == 7
    for number, clock, of in ((3, 7, service), (3, 2**40, service), (2, 9, service[1:])):
        assert str(model.newest(old, new, clock, of)) == f"NO {number}", number
    return 11


def kinds_and_counters():
    """Drawn runs: the counters are what was answered and removed, and a registrar in which nobody withdraws answers every REGISTER alike."""
    source, calls, done = draws("withdrawals"), 0, 0
    for _ in range(12):
        quiet, loud = Registrar(KEY, 3), Registrar(KEY, 3)
        clock, confirmed, removed, tickets = 0, 0, 0, {}
        for _ in range(120):
            clock += (0, 1, 700, 60_000)[below(source, 4)]
            who = f"peer {below(source, 3)}"
            ad = ad_bytes(peer=who, at=f"{1 + 120 * below(source, 2)}.0.0.1")
            service, peer = model.cut(ad[1:65], 32, 32)
            held = list(quiet.entries)
            if below(source, 4) == 0:
                answer = quiet.withdraw(clock, service, peer, True)
                done += str(answer) == "DONE"
            else:
                brought = tickets.get(ad, b"") if below(source, 5) else b""
                if brought and below(source, 6):
                    opens = Ticket.of(brought[1:])
                    clock = max(clock, opens.issued + opens.wait)
                answer = quiet.register(clock, ad, True, brought)
                same = loud.register(clock, ad, True, brought)
                assert (answer.word, answer.number, answer.ticket) == (same.word, same.number, same.ticket)
                tickets[ad] = bytes([model.TICKET]) + answer.ticket.body() if answer.ticket else b""
            confirmed += answer.word == "OK"
            removed += sum(1 for entry in held if answer.word != "NO" and clock - entry.accepted >= LIFETIME)
            assert (quiet.confirmed, quiet.expired) == (confirmed, removed) and confirmed == removed + len(quiet.entries)
            listed = quiet.get_ads(clock, service).ads
            assert list(listed) == [entry.ad for entry in quiet.live(clock) if not entry.withdrawn and entry.ad.service == service]
            calls += 1
        assert confirmed > 5 and removed > 2
    assert done > 20
    return calls


def long_points():
    """Document 02, order 10: a newcomer that shares some bits with one of c live advertisements has a point for each of those levels
    with 2^i > c, since k is 1 up to there; an equal address shares all 128."""
    own, count = int(ipaddress.IPv6Address("2001:db8:85a3:8d3:1319:8a2e:370:7348")), 0
    for shared in (0, 1, 2, 9, 10, 11, 31, 32, 33, 63, 64, 65, 126, 127, 128):
        like = own ^ (1 << 127 - shared) if shared < 128 else own
        for others in (0, 1, 2, 3, 4, 15, 16, 999):
            live = [like] + [own ^ 1 << 127] * others
            # those that differ in the first bit share nothing, and k at level 1 is 1 where the one shares a bit
            right = sum(1 for level in range(1, shared + 1) if 2**level > len(live))
            assert model.similarity(own, live, 128) == right, (shared, others)
            count += 1
    assert model.similarity(own, [], 128) == 0 and model.similarity(own, [own] * 1000, 128) == 128
    return count + 2


def long_waits():
    """p/128: P1 to P7 where they have no points, all points at C = 2, and a quarter of them, which p/32 would make all."""
    assert [model.working(C, c, 0, 0, levels=128) for C, c in ((1000, 0), (1000, 500), (3, 1))] == [738, 755_712, 42_584]
    assert [wait_of(C, c, s, 0, 128) for C, c, s in ((1000, 0, 0), (1000, 500, 0), (1000, 500, 500), (3, 1, 0))] == [1, 93, 460_800_093, 6]
    assert wait_of(1, 0, 0, 0, 128) == 1 and wait_of(1, 1, 1, 128, 128) == wait_of(1000, 999, 0, 0, 128) == wait_of(1000, 1000, 0, 0, 128) == NEVER
    # 900,000 * 2^10 * p / 128, and 92.16 for G; the factors of C = 2 add no rounding
    waits = {p: wait_of(2, 1, 0, p, 128) for p in (1, 32, 63, 64, 65, 127, 128)}
    assert waits == {p: 7_200_000 * p + 93 for p in waits} and waits[128] == 921_600_093 == wait_of(2, 1, 0, 32)
    for p in range(33):
        assert wait_of(7, 3, 2, 4 * p, 128) == wait_of(7, 3, 2, p)
    return 12 + len(waits) + 33


def long_registrar():
    """An IPv6 cache: asked, confirmed, listed, withdrawn; an advertisement of the other family is 4 either way, of the other kind 13."""
    ad, short = long_ad_bytes(), ad_bytes()
    assert (len(ad), Ad.of(ad[1:], V6).record()) == (155, ad)

    def registrar(family=V6):
        return Registrar(KEY, 2, family=family)

    wrong = [(4, ad[:-1]), (4, ad + b"\0"), (4, short), (4, b"\x0a" + short[1:]), (4, b""), (13, b"\1" + ad[1:]), (13, b"\x0b" + ad[1:])]
    wrong += [(14, long_ad_bytes(port=0)), (13, b"\1" + long_ad_bytes(port=0)[1:])]
    for refusal, each in wrong:
        assert str(registrar().register(0, each, True)) == f"NO {refusal}", (refusal, each)
    for refusal, each in ((4, ad), (4, b"\1" + ad[1:]), (13, b"\x0a" + short[1:])):
        assert str(registrar(V4).register(0, each, True)) == f"NO {refusal}", (refusal, each)
    held = registrar()
    ticket = held.register(0, ad, True).ticket
    assert ticket.ad_hash == hashlib.sha256(ad).digest() and len(ticket.body()) == 88
    back = bytes([model.TICKET]) + ticket.body()
    assert str(held.register(1, long_ad_bytes(at="2001:db8::2"), True, back)) == "NO 10" and str(held.register(1, ad, True, back)) == "OK"
    # one that shares 126 bits with the one live entry, of another service: 900,000 * 2^10 * 126 / 128 ms and more
    near = long_ad_bytes("other", "near", "2001:db8::2")
    assert held.wait(1, Ad.of(near[1:], V6)) == 7_200_000 * 126 + 93
    assert [each.record() for each in held.get_ads(1, ad[1:33]).ads] == [ad]
    assert str(held.register(2, ad, True)) == "NO 6" and str(held.withdraw(2, ad[1:33], ad[33:65], True)) == "DONE"
    assert held.get_ads(2, ad[1:33]).number == 0 and str(held.register(2, ad, True)) == "NO 6"
    octets = held.cache()
    assert octets[:29].hex() == "0c" "0002" "0001" "0000000000000002" "0000000000000001" "0000000000000000"
    assert octets[29:38].hex() == "10" "0000000000000001" and octets[38:192] == ad[1:] and octets[192:] == bytes(163)
    return len(wrong) + 18


def lengths_of_both():
    """29 + 163 C bytes open for IPv6; where 29 + 151 C are as many, the head's kind tells, and any other kind is of no family."""
    for family, entry in ((4, 151), (6, 163)):
        fits = {29 + entry * capacity: capacity for capacity in range(1, 1001)}
        for length in (0, 28, 29, *(at + by for at in fits for by in (-1, 0, 1))):
            assert model.opening(length, family) == fits.get(length), (length, family)
    both = sorted({29 + 151 * C for C in range(1, 1001)} & {29 + 163 * C for C in range(1, 1001)})
    assert both == [24_642, 49_255, 73_868, 98_481, 123_094, 147_707]
    for length in both:
        made = [Registrar(KEY, model.opening(length, number), family=family) for number, family in model.FAMILIES.items()]
        assert [len(each.cache()) for each in made] == [length, length] and [model.family_of(each.cache()) for each in made] == [V4, V6]
    assert all(model.opening(180, family) is None for family in (0, 1, 5, 7, 2**32 + 4, 2**64 - 1))
    assert all(model.family_of(bytes([kind])) is None for kind in range(256) if kind not in (12, 14)) and model.family_of(b"") is None
    return 2 * 3003 + len(both) + 6 + 255


def families_at_once():
    """The newest of an IPv4 and an IPv6 registrar: by time, and the first of the two at equal times; the body has its family's length."""
    short, long = Registrar(KEY, 3), Registrar(KEY, 3, family=V6)
    service = ad_bytes()[1:33]

    def holding(*times):
        for registrar, ad, at in ((short, Ad.of(ad_bytes()[1:]), times[0]), (long, Ad.of(long_ad_bytes()[1:], V6), times[1])):
            registrar.entries = [Entry(at, ad)]

    for times, right in (((4, 5), [(2, 154), (1, 154)]), ((5, 4), [(1, 142), (2, 142)]), ((5, 5), [(1, 142), (1, 154)])):
        holding(*times)
        found = [model.newest(first, second, 9, service) for first, second in ((short, long), (long, short))]
        assert [(which, len(entry.ad.body())) for which, entry in found] == right, times
    return 6


def edge_waits(capacity, shared):
    """What an advertiser at 2001:db8::1 is told at 0, whether it is admitted when it returns, and what newcomers are told at 2 that share so many bits."""
    registrar, own = Registrar(KEY, capacity, family=V6), int(ipaddress.IPv6Address("2001:db8::1"))
    first = long_ad_bytes("first", "first", own)
    asked = registrar.register(0, first, True)
    back = registrar.register(asked.number, first, True, bytes([model.TICKET]) + asked.ticket.body())
    addresses = [own ^ (1 << 127 - bits if bits < 128 else 0) for bits in shared]
    return asked.number, back.word, [registrar.register(2, long_ad_bytes("second", "second", each), True).number for each in addresses]


def stored_edges():
    """crates/conformance/stdout: the waits of IPv6 newcomers are the model's, and not those of points that count as p/32."""
    found = {}
    for capacity, bits, wait in re.findall(r"^C (\d+) bits (\d+) (\d+)$", conformance("stdout"), re.M):
        found.setdefault(int(capacity), {})[int(bits)] = int(wait)
    assert {1, 1000} <= set(found) and all({0, 1, 63, 64, 65, 127, 128} <= set(waits) for waits in found.values())
    right, wrong = model.wait_of, []
    for capacity, waits in found.items():
        assert edge_waits(capacity, list(waits)) == (1, "OK", list(waits.values())), capacity
        with mock.patch.object(model, "wait_of", lambda *counts: right(*counts[:4], 32)):
            wrong += [edge_waits(capacity, list(waits))[2] != list(waits.values())]
    assert any(wrong)
    return sum(len(waits) for waits in found.values())


def exact(capacity, occupied, same, similar, levels=32):
    factor = Fraction(capacity, capacity - occupied) ** 10
    return LIFETIME * factor * (Fraction(same, capacity) + Fraction(similar, levels) + Fraction(1, 10**7)), factor


def bounds_hold(capacity, occupied, same, similar, levels):
    wait = wait_of(capacity, occupied, same, similar, levels)
    assert wait >= 1
    if occupied == capacity:
        assert wait == NEVER
        return
    least, factor = exact(capacity, occupied, same, similar, levels)
    above = least + 1 + 11 * factor / PER_MS
    if wait < NEVER:
        assert least <= wait < above
    if least >= NEVER:
        assert wait == NEVER
    if above <= NEVER:
        assert wait != NEVER


def bounds(levels):
    """Every case for C up to 12, or to 6 with 128 levels, and 20,000 drawn ones up to 1000, half of them where the waits near 2^40."""
    count = 0
    for capacity in range(1, 13 if levels == 32 else 7):
        for occupied in range(capacity + 1):
            for same in range(occupied + 1):
                for similar in range(levels + 1):
                    bounds_hold(capacity, occupied, same, similar, levels)
                    count += 1
    source = draws("bounds")
    for turn in range(20_000):
        capacity = 1 + below(source, 1000)
        occupied = below(source, capacity + 1)
        if turn % 2:
            occupied = capacity - min(capacity, 1 + below(source, 1 + capacity // 5))
        same, similar = below(source, occupied + 1) if turn % 3 else 0, below(source, levels + 1) if turn % 5 else 0
        bounds_hold(capacity, occupied, same, similar, levels)
    return count + 20_000


# Outside vectors


def vectors():
    assert model.identifier(b"/waku/store/1.0.0").hex() == "313a14f48b3617b0ac87daabd61c1f1f1bf6a59126da455909b7b11155e0eb8e"
    assert model.identifier(b"/libp2p/mix/1.2.0").hex() == "9c55878d86e575916b267195b34125336c83056dffc9a184069bcb126a78115d"
    tag = hmac.new(b"Jefe", b"what do ya want for nothing?", hashlib.sha256).hexdigest()
    assert tag == "5bdcc146bf60754e6a042426089575c75a003f089d2739839dec58b964ec3843"  # RFC 4231, case 2


# The log and its text


FOUR_LINES = """\
key 000102030405060708090a0b0c0d0e0f101112131415161718191a1b1c1d1e1f
ask 0 vouched /waku/store/1.0.0 peer=alice 10.0.0.1:4001
ask 0 unvouched /waku/store/1.0.0 peer=bob 10.0.0.2:4001
list 1 /waku/store/1.0.0
"""


def four_lines(encode):
    data = encode(FOUR_LINES.splitlines())
    assert len(data) == 32 + 152 + 152 + 41
    assert list(model.run(data)) == ["0 WAIT 1", "0 NO 5", "1 ADS 0", "END 3"]


def any_record(source, kind):
    """A record of this kind with fields that are often zero, all ones or a right ticket. A recorded day's number is any byte."""

    def run_of(width):
        return [bytes(width), b"\xff" * width, bytes(next(source) for _ in range(width))][below(source, 3)]

    number = [1] if kind in model.RECORDED_BODY else []
    record = bytes([kind]) + b"".join(run_of(w) for w in ([8, 32] if kind == model.LIST else number + [8, 1, 32, 32, 4, 2, 8, 64]))
    if kind == model.RETURN:
        named = model.ad_hash(bytes([model.AD]) + record[10:]) if next(source) % 2 else run_of(32)
        made = Ticket.made(KEY, named, below(source, 9), below(source, 9), 1)
        record += made.body() if next(source) % 2 else b"".join(run_of(w) for w in [32, 8, 8, 8, 32])
    return record


def round_trips(encode, decode):
    """Bytes to text to bytes, for whole inputs, inputs cut at every length and inputs with an unknown record."""
    source, count = draws("round trips"), 0
    for turn in range(90):
        kinds = (5, 7, 9) if turn < 60 else (20, 21) if turn < 80 else (5, 20, 21)
        data = KEY + b"".join(any_record(source, kinds[below(source, len(kinds))]) for _ in range(below(source, 6)))
        damaged = [data[: below(source, len(data) + 1)], data + bytes([below(source, 256)]), data[:32] + b"\1" + data[32:]]
        for each in [data] + damaged:
            assert encode(decode(each)) == each == encode(decode(each, ["alice", "/waku/store/1.0.0"], True))
            count += 1
    whole = encode(FOUR_LINES.splitlines())
    for end in range(len(whole) + 1):
        assert encode(decode(whole[:end])) == whole[:end]
        lines = list(model.run(whole[:end]))
        assert lines[-1] == (f"END {len(lines) - 1}" if end in (32, 184, 336, 377) else "STOP")
        count += 1
    return count


def written(lines):
    return "".join(f"{line}\n" for line in lines).encode()


def stored(encode, path, *files):
    """A text of the repository against its stored bytes and lines."""
    with open(os.path.join(ROOT, path), encoding="utf-8") as file:
        data = encode(file)
    for name, made in zip(files, (written(model.printed(data)), data)):
        with open(os.path.join(ROOT, name), "rb") as file:
            assert file.read() == made, name


def made_day():
    """crates/register_log/day.txt and DAY.md's table are what tools/make_day.py writes."""
    import make_day

    text, table = make_day.whole_day()
    with open(os.path.join(ROOT, "crates/register_log/day.txt"), encoding="utf-8") as day, open(os.path.join(ROOT, "crates/register_log/DAY.md"), encoding="utf-8") as notes:
        assert day.read() == text and table in notes.read()


def wrong_lines(encode):
    """Lines that encode must refuse, each after a key."""
    ad = "/a peer=alice 10.0.0.1:4001"
    lines = ["list 1 " + "ab" * 31, "list 1 /a -> ADS 1", "list 1 /a more", "list -1 /a", f"list {2**64} /a", "key again", "sell 1 /a"]
    lines += ["ask 0 vouched /a alice 10.0.0.1:4001", "ask 0 vouched /a peer=alice 10.0.0:4001", "ask 0 vouched /a peer=alice 10.0.0.256:1"]
    lines += [f"ask 0 vouched=256 {ad}", f"ask 0 {ad}", f"ask 0 vouched {ad}0000"]
    lines += [f"ask 0 vouched {ad} {more}" for more in ("signature=00", "stamp=1 stamp=2", "wait=1", "ticket auto")]
    lines += [f"return 0 vouched {ad} {more}" for more in ("", "ticket", "ticket auto", "ticket first=0 wait=1", "ticket 00")]
    named = ("ad_hash=00", "ad_hash=" + "00" * 32 + " stamp=1", "address=10.0.0.1", "port=1", "first=0")
    lines += [f"return 0 vouched {ad} ticket first=0 issued=0 wait=1 {more}" for more in named]
    lines += ["raw 0", "raw 00\nlist 1 /a"]
    lines += [f"advertiser {words}" for words in (f"64 ask 0 vouched {ad}", f"-1 ask 0 vouched {ad}", f"ask 0 vouched {ad}", f"7 ask due vouched {ad}")]
    lines += [f"advertiser 7 {words}" for words in ("list 0 /a", f"return due vouched {ad}", f"return 0 vouched {ad} ticket auto", "ask", "ask 0 vouched")]
    recorded = f"advertiser 7 ask 0 vouched {ad}"
    lines += [f"{recorded} -> OK", f"{recorded}\nlist 1 /a", f"list 1 /a\n{recorded}", f"{recorded}\nsell 7 ask 0 vouched {ad}"]
    for line in lines:
        try:
            encode(["key k"] + line.split("\n"))
        except Exception as refused:
            assert type(refused).__name__ == "Wrong", (line, refused)
        else:
            assert False, line
    return len(lines)


def conformance(name):
    """A file of the program that makes stored requests."""
    path = os.path.join(ROOT, "crates/conformance", name)
    if not os.path.exists(path):
        raise NotRun(f"crates/conformance/{name} is missing")
    with open(path, encoding="utf-8") as file:
        return file.read()


def edges():
    """The rows of crates/conformance/CASES.md: runs of bytes, and the lines they give, which the stored output has too."""
    cases, stored = list(make_edges.table("crates/conformance/CASES.md")), conformance("stdout")
    for number, name, data, told in cases:
        assert list(model.run(data)) == told, number
        assert "\n".join(["", f"{number} {name}"] + told + [""]) in stored, number
    assert cases
    return len(cases)


def replay_edges():
    """crates/replay_edges: the table's lines are the model's, both files are made of it, and both edges of the numbers and of the byte are there."""
    made = make_edges.made()
    for name, right in made.items():
        with open(os.path.join(ROOT, "crates/replay_edges", name), "rb") as file:
            assert file.read() == right, name
    records = [record for _, _, data, _ in make_edges.table(make_edges.PATH) for record in model.split(data, model.RECORDED_BODY)[1]]
    assert {0, 63, 64, 255} <= {record[1] for record in records} and {0, 1, 2, 255} <= {record[10] for record in records}
    wrong = [("ADVERTISERS", 63), ("ADVERTISERS", 65), ("ADVERTISERS", 256), ("Replay", VouchedByAnyByte)]
    for name, each in wrong:
        with mock.patch.object(model, name, each):
            assert any(list(model.replay(data)) != told for _, _, data, told in make_edges.table(make_edges.PATH)), each
    return len(wrong) + len(list(make_edges.table(make_edges.PATH)))


def old_logs(encode):
    """Logs with a return from before order 4, of kind 6 and with an old ticket, whole, cut and with a new ticket: they stop there."""
    data = encode(FOUR_LINES.splitlines())
    ask, listed = data[32 : 32 + 152], data[-41:]
    ad = bytes([model.AD]) + ask[10:]
    back = bytes(7) + b"\1\1" + ad[1:]
    old, new = (back + ticket[1:] for ticket in (old_ticket_bytes(ad, 0, 0, 1), ticket_bytes(ad, 0, 0, 1)))
    assert len(old) == 271 and len(new) == 239
    rest = [old, old + listed, old[:-1], new, new + listed, b""]
    yield KEY + ask + bytes([model.RETURN]) + new + listed, ["0 WAIT 1", "1 OK", "1 ADS 1", "END 3"]
    yield from ((KEY + ask + b"\6" + each, ["0 WAIT 1", "STOP"]) for each in rest)


def old_returns(encode):
    cases = list(old_logs(encode))
    for data, lines in cases:
        assert list(model.run(data)) == lines, data.hex()
    return len(cases)


# The example day


class ExpiredCounted(Registrar):
    """An entry counts until REGISTER clears it out; each stored one was live at the cache's clock."""

    def wait(self, clock, ad):
        return super().wait(self.clock, ad)


class TicketFinal(Registrar):
    """The wait on the ticket is compared with the time stayed."""

    def refusal(self, clock, ad_bytes, vouched, ticket_bytes):
        self.told = Ticket.of(ticket_bytes[1:]).wait if ticket_bytes else None
        return super().refusal(clock, ad_bytes, vouched, ticket_bytes)

    def wait(self, clock, ad):
        return super().wait(clock, ad) if self.told is None else self.told


class CutFirst(Registrar):
    """The wait is cut to the lifetime before the time stayed is taken off."""

    def wait(self, clock, ad):
        return min(LIFETIME, super().wait(clock, ad))


class HashNotCompared(Registrar):
    """A ticket is taken with any advertisement."""

    def belongs(self, ticket, ad_bytes):
        return True


class LastByteNotCompared(Registrar):
    """Of the hash, 31 bytes are compared."""

    def belongs(self, ticket, ad_bytes):
        return ticket.ad_hash[:-1] == model.ad_hash(ad_bytes)[:-1]


def hash_without(start, end):
    """A ticket names the advertisement without these of its bytes."""
    return lambda ad_bytes: hashlib.sha256(ad_bytes[:start] + ad_bytes[end:]).digest()


# Where an advertisement's fields begin and end: its kind; service and peer; address, port, stamp, signature.
KIND, PAIR, REST = (0, 1), [(1, 33), (33, 65)], [(65, 69), (69, 71), (71, 79), (79, 143)]


class FirstAnew(Registrar):
    """Each ticket has a new first time."""

    def register(self, clock, ad_bytes, vouched, ticket_bytes=b""):
        answer = super().register(clock, ad_bytes, vouched, ticket_bytes)
        if not answer.ticket:
            return answer
        old = answer.ticket
        return replace(answer, ticket=Ticket.made(self.key, old.ad_hash, clock, clock, old.wait))


def rounded_down(a, b):
    """In the working alone; the step to milliseconds rounds up."""
    return -(-a // b) if b == PER_MS else a // b


def example_mistakes(encode):
    """The example day shows four of document 01's "What volunteers' programs got wrong" and cannot show one, as it says."""
    with open(os.path.join(ROOT, "examples/market-day.txt"), encoding="utf-8") as file:
        data = encode(file)
    right = list(model.run(data))
    shown = {}
    for wrong in (ExpiredCounted, TicketFinal, CutFirst, FirstAnew):
        with mock.patch.object(model, "Registrar", wrong):
            shown[wrong] = set(model.run(data)) - set(right)
    with mock.patch.object(model, "ceil", rounded_down):
        shown[rounded_down] = set(model.run(data)) - set(right)
    assert "915001 WAIT 900000" in shown[ExpiredCounted] and "894777 OK" in shown[TicketFinal]
    assert "894777 WAIT 10223" in shown[CutFirst] and "16000 WAIT 799003" in shown[rounded_down]
    assert not shown[FirstAnew]
    return len(shown)


def readme_excerpt():
    """README shows the example day's first lines and its last."""
    with open(os.path.join(ROOT, "README.md"), encoding="utf-8") as page, open(os.path.join(ROOT, "examples/market-day.out"), encoding="utf-8") as out:
        printed, page = out.read().split("\n")[:-1], page.read()
    excerpt = "".join(f"    {line}\n" for line in printed[:7] + ["..", printed[-1]])
    assert excerpt in page, excerpt


# Texts


def faults_at_once(encode):
    """All bad lines of a text at once, each with its number; a wrong answer is left out where a line above could not be read."""
    ad = "/a peer=alice 10.0.0.1:4001"
    text = ["key k", "# a comment", "sell 1 /a", f"ask x vouched {ad}", "list 1 /a -> ADS 5", f"return due vouched {ad} ticket auto", "key again"]
    try:
        encode(text)
    except Exception as refused:
        assert re.findall(r"line (\d+): ", str(refused)) == ["3", "4", "6", "7"], refused
    else:
        assert False
    try:
        encode(["list 1 /a", "list 2 /a -> ADS 5", "key k", "raw"])
    except Exception as refused:
        assert re.findall(r"line (\d+): ", str(refused)) == ["1", "3", "4"], refused
    else:
        assert False


def clocks_in_units(encode):
    ad = "vouched /a peer=alice 10.0.0.1:4001"
    lines = [f"ask {{}} {ad}", f"return {{}} {ad} ticket auto", f"list {{}} /a", f"return {{}} {ad} ticket first={{}} issued=1m wait=1s"]
    cases = [(["5s", "due", "15m5s1ms", "1m"], [5000, 5001, 905_001, 60_000]), (["15m", "15m1ms", "30m", "5ms"], [900_000, 900_001, 1_800_000, 5])]
    cases += [(["1h", "1h1ms", "1.5h", "0.5m"], [3_600_000, 3_600_001, 5_400_000, 30_000]), (["1.5s", "due", "1h1m1.001s", "2.0ms"], [1500, 1501, 3_661_001, 2])]
    for units, plain in cases:
        texts = [["key k"] + [line.replace("{}", str(word)) for line, word in zip(lines, words)] for words in (units, plain)]
        assert encode(texts[0]) == encode(texts[1]) and len(encode(texts[0])) == 32 + 152 + 240 + 41 + 240
    for word in ("1.0005s", "0.1ms", "1", "1.5", "1.s", ".5s", "1s1h", "1d", "s", "1 s", "-1s"):
        with contextlib.suppress(command.Failed):
            encode(["key k", f"list {word} /a"])
            assert word == "1", word
    return 4 * len(cases) + 11


# A recorded day


SMALL = """\
key 000102030405060708090a0b0c0d0e0f101112131415161718191a1b1c1d1e1f
advertiser 7 ask 0 vouched /a peer=alice 10.0.0.1:4001
advertiser 3 return 0 unvouched /a peer=bob 192.0.2.7:4001
advertiser 7 return 0 vouched /a peer=alice 10.0.0.1:4001
advertiser 7 return due vouched /a peer=alice 10.0.0.1:4001
advertiser 7 return 1 vouched /a peer=alice 10.0.0.1:4001
advertiser 3 return 15m vouched /b peer=bob 192.0.2.7:4001
advertiser 3 ask 15m1ms vouched /b peer=bob 192.0.2.7:4001
advertiser 3 return 901002 vouched /b peer=bob 192.0.2.7:4001
"""
# Worked by hand. An empty cache makes 1 ms, and so does one entry of another service whose address shares no first bit.
SMALL_LINES = ["7 0 WAIT 1", "3 0 NO 5", "7 0 NO 11", "7 1 OK", "7 1 NO 6", "3 900000 WAIT 1", "3 900001 WAIT 1", "3 901002 OK"]
SMALL_SUMMARY = ["3 4 901002", "7 4 1"]


def small_recorded(encode):
    data = encode(SMALL.splitlines())
    assert len(data) == 32 + 8 * 153
    assert list(model.replay(data)) == SMALL_LINES + SMALL_SUMMARY
    assert list(model.replay(data[: 32 + 3 * 153])) == SMALL_LINES[:3] + ["3 1 -", "7 2 -"]
    assert model.is_recorded(data) and not model.is_recorded(KEY)


def stops(encode):
    """Inputs at which the replay stops, and a key alone, behind none and behind some good records: (input, lines)."""
    good = encode(SMALL.splitlines())
    ask, back = good[32 : 32 + 153], good[32 + 3 * 153 : 32 + 4 * 153]
    bad = [record[:end] for record in (ask, back) for end in (1, 2, 3, 10, 11, 152)]
    bad += [bytes([kind]) + ask[1:] for kind in (0, 1, 2, 5, 6, 7, 8, 9, 19, 22, 84, 148, 255)] + [bytes([kind]) for kind in (5, 7, 9, 10, 255)]
    bad += [record[:1] + bytes([number]) + record[2:] for record in (ask, back) for number in (64, 127, 128, 255)]
    bad += [bytes([20, 64]), bytes([21, 255])] + [encode(FOUR_LINES.splitlines())[32 : 32 + 152]]
    yield from ((KEY[:end], ["STOP"]) for end in (0, 1, 31))
    yield KEY, []
    for count in (0, 1, 5):
        for each in bad:
            # what stands behind a whole bad record is not looked at
            for more in (b"", ask) if len(each) == 153 else (b"",):
                yield good[: 32 + 153 * count] + each + more, SMALL_LINES[:count] + ["STOP"]


def stopped_model(encode):
    cases = list(stops(encode))
    for data, lines in cases:
        assert list(model.replay(data)) == lines, (data.hex(), lines)
    return len(cases)


# Replays that do one thing otherwise.


class TicketWithAsk(model.Replay):
    def brought(self, kind, who):
        return super().brought(model.RECORDED_RETURN, who)


class DroppedOnRefusal(model.Replay):
    def keep(self, who, answer):
        super().keep(who, replace(answer, word="OK") if answer.word == "NO" else answer)


class KeptOnConfirmation(model.Replay):
    def keep(self, who, answer):
        super().keep(who, replace(answer, word="NO") if answer.word == "OK" else answer)


class FirstTicketKept(model.Replay):
    def keep(self, who, answer):
        if answer.word != "WAIT" or who not in self.tickets:
            super().keep(who, answer)


class TicketsByPair(model.Replay):
    """Tickets are held by service and peer."""

    def answer(self, record):
        self.pairs = getattr(self, "pairs", [])
        if record[11:75] not in self.pairs:
            self.pairs.append(record[11:75])
        return super().answer(bytes([record[0], self.pairs.index(record[11:75])]) + record[2:])


class VouchedByAnyByte(model.Replay):
    """Any byte but 0 vouches."""

    def answer(self, record):
        return super().answer(record[:10] + bytes([min(record[10], 1)]) + record[11:])


class OneTicket(model.Replay):
    def answer(self, record):
        return super().answer(bytes([record[0], 0]) + record[2:])


def first_confirmation(trace):
    firsts = {who: at for at, (who, _, answer) in reversed(list(enumerate(trace))) if answer.word == "OK"}
    return RIGHT_SUMMARY([(who, clock, replace(answer, word="NO") if firsts.get(who, at) < at else answer) for at, (who, clock, answer) in enumerate(trace)])


def refused_uncounted(trace):
    return RIGHT_SUMMARY([each for each in trace if each[2].word != "NO"])


def order_of_coming(trace):
    lines = list(RIGHT_SUMMARY(trace))
    return [line for who in dict.fromkeys(who for who, _, _ in trace) for line in lines if line.startswith(f"{who} ")]


RIGHT_SUMMARY = model.summary


def log_mistakes():
    """The stored day tells a registrar that names another part of the advertisement on its tickets, or does not compare it, from the right one."""
    with open(os.path.join(ROOT, "crates/register_log/stdin"), "rb") as file:
        data = file.read()
    right = list(model.run(data))
    wrong = [("Registrar", each) for each in (HashNotCompared, LastByteNotCompared, ExpiredCounted, TicketFinal, CutFirst)]
    wrong += [("ad_hash", hash_without(*part)) for part in [KIND] + PAIR + REST] + [("ceil", rounded_down)]
    for name, each in wrong:
        with mock.patch.object(model, name, each):
            assert list(model.run(data)) != right, each
    return len(wrong)


def recorded_mistakes():
    """The stored recorded day tells a wrong replay, and a wrong registrar under it, from the right one: those that DAY.md names."""
    with open(os.path.join(ROOT, "crates/replay/stdin"), "rb") as file:
        data = file.read()
    right = list(model.replay(data))
    wrong = [("Replay", each) for each in (TicketWithAsk, DroppedOnRefusal, KeptOnConfirmation, FirstTicketKept, TicketsByPair, OneTicket, VouchedByAnyByte)]
    wrong += [("summary", each) for each in (first_confirmation, refused_uncounted, order_of_coming)]
    wrong += [("RECORDED_WINDOW", window) for window in (0, 999, 1_001, 10_000)] + [("ceil", rounded_down)]
    wrong += [("Registrar", each) for each in (ExpiredCounted, TicketFinal, CutFirst, FirstAnew, HashNotCompared)]
    wrong += [("ad_hash", hash_without(*part)) for part in PAIR + REST]
    for name, each in wrong:
        with mock.patch.object(model, name, each):
            lines = list(model.replay(data))
        assert lines != right, each
        if each is FirstAnew:
            assert "4 39370 WAIT 13394" in lines
    return len(wrong)


def recorded_notes():
    """crates/replay/DAY.md: its first table has every record once, in order; its second the numbers of every wait above 1 ms."""
    with open(os.path.join(ROOT, "crates/replay/stdout"), encoding="utf-8") as file:
        lines = [line.split() for line in file.read().splitlines()]
    answers = [words for words in lines if words[2] in ("WAIT", "OK", "NO")]
    with open(os.path.join(ROOT, "crates/replay/DAY.md"), encoding="utf-8") as file:
        rows = [[cell.strip() for cell in line.split("|")[1:-1]] for line in file if re.match(r"\| \d", line)]
    spans = [[int(end) for end in row[0].split(" to ")] for row in rows if len(row) == 2]
    assert [at for span in spans for at in range(span[0], span[-1] + 1)] == list(range(1, len(answers) + 1))
    waits = {}
    for record, *counts, stayed, least, wait, answer in (map(int, row) for row in rows if len(row) == 8):
        assert least == -(-exact(model.CAPACITY, *counts)[0] // 1) and wait == wait_of(model.CAPACITY, *counts), record
        assert answer == min(LIFETIME, wait - stayed) > 1, record
        waits[record] = str(answer)
    assert waits == {at: words[3] for at, words in enumerate(answers, 1) if words[2] == "WAIT" and words[3] != "1"}
    return len(spans) + len(waits)


def drawn_day(seed, count, numbers):
    """A recorded day of peers who ask, come back about when they are due, and sometimes advertise for another service, from
    another address or with a fault. Most clocks rise."""
    source, data, replayed, clock = draws(seed), KEY, model.Replay(KEY), 0

    def rarely(times):
        return below(source, times) == 0

    for _ in range(count):
        coming = sorted((ticket.issued + ticket.wait, who) for who, ticket in replayed.tickets.items() if ticket.issued + ticket.wait >= clock)
        who = numbers[below(source, len(numbers))]
        clock += below(source, 5000) if rarely(3) else 0
        if coming and not rarely(3):
            clock, who = coming[0][0] + (below(source, 1100) if rarely(3) else 0), coming[0][1]
        service, peer = (hashlib.sha256(word.encode()).digest() for word in (f"service {below(source, 8) if rarely(9) else who % 8}", f"peer {who}"))
        # its six bits in reverse first: addresses are unlike while the numbers are
        address = bytes([int(f"{who:06b}"[::-1], 2) * 4, 0, 0, below(source, 4) if rarely(9) else 1])
        port, vouched, then = 0 if rarely(40) else 4001, (0, 2, 255)[below(source, 3)] if rarely(20) else 1, max(0, clock - 9) if rarely(40) else clock
        record = bytes([20 if rarely(4) else 21, who]) + then.to_bytes(8, "big") + bytes([vouched]) + service + peer + address
        data += record + port.to_bytes(2, "big") + bytes(72)
        replayed.answer(data[-153:])
    return data


# The proved programs


def in_pieces(name, data, size):
    """What a program writes when its input comes through a pipe, each piece once the one before was read: (fd 1, fd 2)."""
    with tempfile.TemporaryFile() as out, tempfile.TemporaryFile() as err:
        process = subprocess.Popen([program(name)], stdin=subprocess.PIPE, stdout=out, stderr=err, bufsize=0)
        try:
            for at in range(0, len(data), size):
                process.stdin.write(data[at : at + size])
                while process.poll() is None and unread(process.stdin):
                    os.sched_yield()
            process.stdin.close()
        except BrokenPipeError:
            pass                # it ended before its input did
        process.wait()
        out.seek(0), err.seek(0)
        return out.read(), err.read()


def unread(pipe):
    return fcntl.ioctl(pipe, termios.FIONREAD, bytes(4)) != bytes(4)


def log_in_pieces():
    """The stored day in small and odd pieces. One byte at a time takes long, so only the first records come so."""
    with open(os.path.join(ROOT, "crates/register_log/stdin"), "rb") as day, open(os.path.join(ROOT, "crates/register_log/stdout"), "rb") as lines:
        data, right = day.read(), lines.read()
    for size in (7, 151, 4099):
        assert in_pieces("register_log", data, size) == (right, b""), size
    for end, size in ((3000, 1), (3001, 1)):
        assert in_pieces("register_log", data[:end], size) == (written(model.run(data[:end])), b""), (end, size)
    return 5


def log_stops(encode):
    """At an old return, each in one piece and in small pieces."""
    cases = list(old_logs(encode))
    for data, lines in cases:
        for size in (4096, 7):
            assert in_pieces("register_log", data, size) == (written(lines), b""), (data.hex(), size)
    return 2 * len(cases)


def replay_in_pieces():
    """The stored recorded day."""
    with open(os.path.join(ROOT, "crates/replay/stdin"), "rb") as day, open(os.path.join(ROOT, "crates/replay/stdout"), "rb") as lines:
        data, right = day.read(), lines.read()
    sizes = (1, 7, 152, 153, 154, 4099)
    for size in sizes:
        assert in_pieces("replay", data, size) == (right, b""), size
    return len(sizes)


def replay_stops(encode):
    """Each in one piece, and in pieces of one of five sizes."""
    cases = list(stops(encode))
    for at, (data, lines) in enumerate(cases):
        for size in (4096, (1, 7, 31, 152, 154)[at % 5]):
            assert in_pieces("replay", data, size) == (written(lines), b""), (data.hex(), size)
    return 2 * len(cases)


def replay_drawn():
    """Drawn days: one number alone, which comes more than 255 times; every number; and every number whose input is cut."""
    days = [drawn_day("alone", 300, [63]), drawn_day("few", 400, [0, 1, 62, 63]), drawn_day("all", 700, range(64))]
    for data in days + [days[2][: below(draws(turn), len(days[2]))] for turn in range(8)]:
        lines = list(model.replay(data))
        for size in (4096, 611):
            assert in_pieces("replay", data, size) == (written(lines), b""), (len(data), size)
    return 2 * (len(days) + 8)


def failures(encode):
    """What the programs do where a read or a write fails: a pipe that does not block and has no more yet, a directory, a full device."""
    log = encode(FOUR_LINES.splitlines())
    days = {"register_log": (log, ["0 WAIT 1", "0 NO 5", "1 ADS 0"], 32 + 152), "replay": (encode(SMALL.splitlines()), SMALL_LINES, 32 + 153)}
    waits = b"".join(model.simulated(100, 10, 1, 1, bits) for bits in (0, 1, 2))
    days["doubles"] = (waits, list(model.compared(waits)), 16)
    for name, (data, lines, first) in days.items():
        says = "log" if name == "register_log" else name            # how what it says begins
        # the first record comes, then nothing, and the pipe is still open
        reading, writing = os.pipe()
        os.set_blocking(reading, False)
        os.write(writing, data[:first])
        out, err = ended_with(name, reading)
        os.close(writing)
        assert out == written(lines[:1] + ["STOP"]) and err.startswith(f"{says}: standard input: ".encode()) and err.count(b"\n") == 1, (name, out, err)
        out, err = ended_with(name, os.open(ROOT, os.O_RDONLY))
        assert out == b"STOP\n" and err == f"{says}: standard input: {os.strerror(errno.EISDIR)}\n".encode(), (name, out, err)
        with open("/dev/full", "wb") as full, tempfile.TemporaryFile() as given:
            given.write(data), given.seek(0)
            _, err = ended_with(name, os.dup(given.fileno()), full)
        assert err == f"{says}: standard output: {os.strerror(errno.ENOSPC)}\n".encode(), (name, err)
    return 3 * len(days)


def ended_with(name, given, out=subprocess.PIPE):
    """A program's (fd 1, fd 2) on this descriptor, which is closed."""
    done = subprocess.run([program(name)], stdin=given, stdout=out, stderr=subprocess.PIPE, env={**os.environ, "LC_ALL": "C"})
    os.close(given)
    return done.stdout, done.stderr


def example_tried():
    """tools/log.py try on the example day, and on one whose answers are wrong."""
    program("register_log")
    with open(os.path.join(ROOT, "examples/market-day.txt"), encoding="utf-8") as file:
        lines = file.read().split("\n")
    assert "4657 OK: admitted, and listed until 15 min 4.657 s" in tried(lines)
    wrong = [line.replace("-> WAIT 3657", "-> WAIT 3656") for line in lines]
    try:
        tried(wrong)
    except command.Failed as refused:
        assert "1 of 26 answers differ" in str(refused)
    else:
        assert False


def recorded_tried(encode):
    """tools/log.py try on the stored recorded day, on one whose answer is wrong, and on one at which the replay stops."""
    program("replay")
    with open(os.path.join(ROOT, "crates/replay/day.txt"), encoding="utf-8") as file:
        lines = file.read().split("\n")
    shown = tried(lines)
    assert "0 1001 OK: admitted, and listed until 15 min 1.001 s" in shown and "20 1 -: one record, never admitted" in shown
    assert "STOP" in tried(SMALL.splitlines() + ["raw 05"])
    try:
        tried([line.replace("-> WAIT 523", "-> WAIT 524") for line in lines])
    except command.Failed as refused:
        assert "1 of 74 answers differ" in str(refused)
    else:
        assert False


# The comparison with simulators' doubles


def doubles_of_the_order():
    """Order 11's own numbers: exactly 1.0 on an empty registrar, where the waits lie, and the bits of the constants."""
    for capacity in range(1, 1001):
        assert model.double_wait(capacity, 0, 0, 0) == 900000.0 * 1e-7, capacity
    assert [f"{model.bits_of(double):016x}" for double in (900000.0, 1e-7, 32.0, 1.0)] == [
        "412b774000000000", "3e7ad7f29abcaf48", "4040000000000000", "3ff0000000000000",
    ]
    assert f"{model.double_wait(1, 0, 0, 0):.2f}" == "0.09" and f"{model.double_wait(1000, 999, 999, 32):.4e}" == "1.7991e+36"
    good = (100, 10, 1, 1)
    bits = model.bits_of(model.double_wait(*good))
    rows = [("SAME 0 106474", good, bits), ("DIFF -1 106474", good, bits + 1), ("DIFF 1 106474", good, bits - 1), (f"DIFF {bits} 106474", good, 0)]
    rows += [("BAD", numbers, bits) for numbers in ((0, 0, 0, 0), (1001, 1, 1, 1), (9, 9, 1, 1), (9, 2, 3, 1), (9, 2, 1, 33))]
    rows += [("BAD", good, wrong) for wrong in (2**63, 2**64 - 1, 0x7FF0 << 48, (0x7FF0 << 48) + 1, 0xFFF0 << 48)]
    for answer, numbers, told in rows:
        assert model.compared_line(7, model.simulated(*numbers, told)) == f"7 {answer}", (answer, numbers, told)
    assert list(model.compared(b"")) == [] and list(model.compared(b"\x05")) == ["STOP"]
    return 1000 + len(rows) + 3


def stored_doubles():
    """crates/doubles: the text, its records, the lines and the tables of WAITS.md are what the tools write; every number has its good neighbour."""
    import doubles
    import make_doubles

    folder = os.path.join(ROOT, "crates/doubles")
    with open(os.path.join(folder, "waits.txt")) as text, open(os.path.join(folder, "WAITS.md")) as notes:
        lines, page = text.read(), notes.read()
    assert lines == make_doubles.text()
    for table in (make_doubles.cases(), make_doubles.orders()):
        assert "\n".join(table) in page
    data = doubles.encode(lines.splitlines())
    for name, made in (("stdin", data), ("stdout", written(model.compared(data)))):
        with open(os.path.join(folder, name), "rb") as file:
            assert file.read() == made, name
    return len(list(model.compared(data)))


def doubles_orders():
    """Every wrong order of operations is told by eight stored waits or more, but for those that give the same bits everywhere."""
    import make_doubles

    numbers = make_doubles.whole().numbers
    for name, order in make_doubles.WRONG.items():
        assert sum(make_doubles.differs(order, each) for each in numbers) >= 8, name
    source = make_doubles.drawn("alike")
    drawn = [next(source) for _ in range(5000)]
    for name, order in make_doubles.ALIKE.items():
        assert not any(make_doubles.differs(order, each) for each in numbers + drawn), name
    return len(make_doubles.WRONG) + len(make_doubles.ALIKE)


def doubles_texts():
    """Text to records and back, and lines that are refused."""
    import doubles

    for word, bits in (("92.16", 0x40570A3D70A3D70A), ("1e-7", 0x3E7AD7F29ABCAF48), ("0", 0), ("-0.0", 2**63), ("inf", 0x7FF0 << 48), ("1e400", 0x7FF0 << 48)):
        assert doubles.wait_bits(word) == bits, word
    for word, bits in (("40f5f90000000000", 0x40F5F90000000000), ("0x0000000000000001", 1), ("1234567890123456.0", model.bits_of(1234567890123456.0))):
        assert doubles.wait_bits(word) == bits, word
    lines = ["# a table", "", "100 10 1 1 92.16  # one", "65535 65535 65535 255 nan", "raw 0f00"]
    data = doubles.encode(lines)
    assert len(data) == 34 and doubles.encode(doubles.decode(data)) == data
    source = draws("doubles")
    for turn in range(60):
        any_bytes = b"".join(bytes([15]) + bytes(next(source) for _ in range(15)) for _ in range(turn % 5)) + bytes(next(source) for _ in range(turn))
        assert doubles.encode(doubles.decode(any_bytes)) == any_bytes
    wrong = ["1 2 3 4", "1 2 3 4 5 6", "65536 0 0 0 1", "1 0 0 256 1", "-1 0 0 0 1", "1 0 0 0 1_0", "1 0 0 0 0x12", "1 0 0 0 1234567890123456", "raw f", "raw"]
    for line in wrong + ["raw 00\n1 0 0 0 1"]:
        try:
            doubles.encode(line.split("\n"))
        except command.Failed as refused:
            assert str(refused).startswith("line "), line
        else:
            assert False, line
    return 9 + 61 + len(wrong) + 1


def doubles_table():
    """docs/DOUBLES.md has the table as it is worked out."""
    import doubles

    with open(os.path.join(ROOT, "docs/DOUBLES.md")) as page:
        assert "\n".join(doubles.table()) in page.read()


def doubles_in_pieces():
    """The stored waits, and an input that is cut at each byte of a record or is empty."""
    with open(os.path.join(ROOT, "crates/doubles/stdin"), "rb") as waits, open(os.path.join(ROOT, "crates/doubles/stdout"), "rb") as lines:
        data, right = waits.read(), lines.read()
    sizes = (1, 7, 15, 16, 17, 4095, 4096, 4099)
    for size in sizes:
        assert in_pieces("doubles", data, size) == (right, b""), size
    for end in range(34):
        assert in_pieces("doubles", data[:end], 4096) == (written(model.compared(data[:end])), b""), end
    return len(sizes) + 34


def doubles_drawn():
    """Drawn records, half of them as they come and half with numbers that are in order, and long inputs."""
    import make_doubles

    source, ordered = draws("drawn doubles"), make_doubles.drawn("drawn doubles")
    data = b""
    for turn in range(4000):
        bits = model.number(bytes(next(source) for _ in range(8)))
        numbers = next(ordered) if turn % 2 else tuple(below(source, end) for end in (1010, 1010, 1010, 40))
        data += model.simulated(*numbers, bits % 2**63 if turn % 3 else bits)
    for size in (65536, 4097):
        assert in_pieces("doubles", data, size) == (written(model.compared(data)), b""), size
    return 2 * 4000


def doubles_tried():
    """tools/doubles.py try: the answers in words, which README has, also where it stops and where an answer differs from the model's."""
    import doubles

    program("doubles")
    with open(os.path.join(ROOT, "examples/waits.txt")) as file:
        lines = file.read().splitlines()
    said = doubles_shown(lines)
    assert "1 SAME 0 93: the very same double; the recipe gives 93 ms" in said, said
    assert "3 BAD: not numbers that a registrar can have, or no wait" in said
    with open(os.path.join(ROOT, "README.md")) as page:
        assert "".join(f"    {line}\n" for line in said.splitlines()[2:-1]) in page.read(), said
    assert "STOP" in doubles_shown(lines + ["raw 0f"])
    with mock.patch.object(model, "wait_of", lambda *numbers: 94):
        try:
            doubles_shown(lines)
        except command.Failed as refused:
            assert "from answer 1 on" in str(refused)
        else:
            assert False


def doubles_shown(lines):
    import doubles

    with contextlib.redirect_stdout(io.StringIO()) as shown:
        doubles.try_waits(lines)
    return shown.getvalue()


# Every tool as a command


def commands():
    """--help is short, and what a user can do wrong gives a sentence and its status."""
    tools = ("log.py", "afresh.py", "class_page.py", "doubles.py", "make_day.py", "make_doubles.py", "make_edges.py", "pages.py", "protoc.py", "registrar", "selftest.py", "wrong", "dev")
    for tool in tools:
        status, out, err = ended([tool, "--help"])
        assert status == 0 and 5 < out.count(b"\n") < 70 and not err, tool
        assert ended([tool, "--no-such"])[0] == 2, tool
    asked = [(2, ["log.py"]), (2, ["log.py", "sell"]), (2, ["log.py", "try", "no/such/file"]), (2, ["log.py", "run", "no/such/file"])]
    asked += [(2, ["log.py", "decode", "--names", "no/such/file"]), (1, ["log.py", "encode"]), (2, ["log.py", "try", ROOT])]
    asked += [(2, ["make_day.py", "no-such"]), (2, ["make_edges.py", "no-such"]), (2, ["wrong", "no-such-label"]), (2, ["wrong", "a"]), (2, ["dev", "no_such_crate"])]
    asked += [(2, ["afresh.py"]), (2, ["afresh.py", "day"]), (2, ["afresh.py", "check", "1"]), (2, ["afresh.py", "day", "-1"]), (2, ["class_page.py", "--prover"])]
    asked += [(2, ["doubles.py"]), (2, ["doubles.py", "try", "no/such/file"]), (1, ["doubles.py", "encode"]), (2, ["make_doubles.py", "no-such"])]
    for status, words in asked:
        found, out, err = ended(words, b"\xff not text\n")
        assert found == status and err and not out, (words, found, err)
    for words in (["make_day.py"], ["wrong"], ["log.py", "decode", os.path.join(ROOT, "crates/register_log/stdin")]):
        assert ended(words, cut=True)[2] == b"", words
    return 2 * len(tools) + len(asked) + 3


def checks():
    from log import decode, encode

    return [
        ("P1 to P7, the wait", cases_of_the_wait),
        ("P8 and P9, similarity", cases_of_similarity),
        ("P10 and P11, expiry and window", cases_of_time),
        ("the windows that a call can have", windows_of_a_call),
        ("each refusal of REGISTER", every_refusal_of_register),
        ("a cache of one", one_place),
        ("entries that move", moves),
        ("withdrawals", withdrawals),
        ("two registrars asked at once", two_at_once),
        ("withdrawals in drawn runs, and the counters", kinds_and_counters),
        ("the wait's bounds, in fractions", lambda: bounds(32)),
        ("IPv6: points over 128 levels", long_points),
        ("IPv6: the wait over 128 levels", long_waits),
        ("IPv6: the wait's bounds, in fractions", lambda: bounds(128)),
        ("IPv6: a registrar", long_registrar),
        ("IPv6: lengths, and the head's kind", lengths_of_both),
        ("an IPv4 and an IPv6 registrar asked at once", families_at_once),
        ("crates/conformance/stdout, IPv6 waits", stored_edges),
        ("000's identifiers, RFC 4231 case 2", vectors),
        ("document 01's four lines", lambda: four_lines(encode)),
        ("bytes to text and back", lambda: round_trips(encode, decode)),
        ("lines that are refused", lambda: wrong_lines(encode)),
        ("all bad lines at once", lambda: faults_at_once(encode)),
        ("clocks in units, and due", lambda: clocks_in_units(encode)),
        ("examples/market-day.txt", lambda: stored(encode, "examples/market-day.txt", "examples/market-day.out")),
        ("examples/market-day.txt, what it shows", lambda: example_mistakes(encode)),
        ("examples/market-day.txt, tried", example_tried),
        ("README.md's example day", readme_excerpt),
        ("crates/register_log/day.txt, stdin and stdout", lambda: stored(encode, "crates/register_log/day.txt", "crates/register_log/stdout", "crates/register_log/stdin")),
        ("crates/register_log/day.txt and DAY.md, made again", made_day),
        ("crates/register_log/stdin, what it shows", log_mistakes),
        ("crates/conformance/CASES.md", edges),
        ("a log with old returns", lambda: old_returns(encode)),
        ("register_log through a pipe, in pieces", log_in_pieces),
        ("register_log, old returns", lambda: log_stops(encode)),
        ("a recorded day of eight records", lambda: small_recorded(encode)),
        ("where the replay stops", lambda: stopped_model(encode)),
        ("crates/replay/day.txt, stdin and stdout", lambda: stored(encode, "crates/replay/day.txt", "crates/replay/stdout", "crates/replay/stdin")),
        ("crates/replay/stdin, what it shows", recorded_mistakes),
        ("crates/replay/DAY.md", recorded_notes),
        ("crates/replay_edges/CASES.md, stdin and stdout", replay_edges),
        ("crates/replay/day.txt, tried", lambda: recorded_tried(encode)),
        ("replay through a pipe, in pieces", replay_in_pieces),
        ("replay, where it stops", lambda: replay_stops(encode)),
        ("replay, drawn days", replay_drawn),
        ("order 11's doubles", doubles_of_the_order),
        ("crates/doubles/waits.txt, stdin, stdout and WAITS.md", stored_doubles),
        ("crates/doubles/stdin, wrong orders of operations", doubles_orders),
        ("tools/doubles.py, texts", doubles_texts),
        ("docs/DOUBLES.md's table", doubles_table),
        ("doubles through a pipe, in pieces", doubles_in_pieces),
        ("doubles, drawn records", doubles_drawn),
        ("tools/doubles.py try", doubles_tried),
        ("register_log, replay and doubles, a read or a write that fails", lambda: failures(encode)),
        ("tools as commands", commands),
        *selftest_bounds.CHECKS,
        *selftest_library.CHECKS,
        *selftest_picture.CHECKS,
        *selftest_registrar.CHECKS,
        *selftest_small.CHECKS,
        *selftest_texts.CHECKS,
        *selftest_wrong.CHECKS,
        *selftest_class.CHECKS,
        *selftest_pages.CHECKS,
    ]


def run_check(name, check):
    """One check and its line: passed, FAILED or not run."""
    try:
        count = check()
    except NotRun as why:
        print(f"--  {name}: not run. {why}", flush=True)
        return "not run"
    except Exception as wrong:
        at = traceback.extract_tb(wrong.__traceback__)[-1]
        print(f"BAD {name}: {os.path.basename(at.filename)}, line {at.lineno}: {type(wrong).__name__}: {wrong or at.line}", flush=True)
        return "failed"
    print(f"ok  {name}" + (f" ({count} cases)" if count else ""), flush=True)
    return "passed"


def main(words=()):
    chosen = [each for each in checks() if not words or any(word.lower() in each[0].lower() for word in words)]
    if not chosen:
        raise command.Unable(f"no check has {' or '.join(words)} in its name")
    results = [run_check(name, check) for name, check in chosen]
    print("selftest: " + ", ".join(f"{results.count(result)} {result}" for result in ("passed", "failed", "not run")))
    return 1 if "failed" in results else 0


def alone():
    layout = argparse.RawDescriptionHelpFormatter
    parser = argparse.ArgumentParser(description=__doc__, formatter_class=layout, usage="tools/selftest.py [WORD..]")
    parser.add_argument("words", nargs="*", help=argparse.SUPPRESS)
    return main(parser.parse_args().words)


if __name__ == "__main__":
    command.run("tools/selftest.py", alone)
