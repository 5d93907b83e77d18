"""The checks of tools/selftest.py on the compiled library as Python calls it (tools/library.py), and on what is shown over it (tools/afresh.py)."""

import contextlib
import ctypes
import os
import re
import xml.etree.ElementTree as tree
from unittest import mock

import afresh
import command
import library
import model
import selftest_bounds
from command import ROOT
from model import LIFETIME, MOST_WINDOW, USUAL_WINDOW, V4, V6, Registrar
from selftest_bounds import KEY, ad_of, below, draws, service
from trying import NotRun, ended


def loaded():
    try:
        return library.Library()
    except command.Unable as missing:
        raise NotRun(missing) from None


# The library


def missing():
    """No archive, no compiler, one that cannot link and one that makes nothing: a sentence each, and status 2."""
    found = [({"UNGLASSOT_LIB_DIR": os.path.join(ROOT, "docs")}, b"docs/libunglassot.a is missing: run 'tools/build unglassot'")]
    with contextlib.suppress(command.Unable):
        library.archive()
        found += [({"CC": "no-such-compiler -O2"}, b"there is no 'no-such-compiler'"), ({"CC": "false"}, b"'false' cannot link the library")]
        found += [({"CC": "true"}, b"the library cannot be loaded")]
    for around, said in found:
        status, out, err = ended(["afresh.py", "check"], more=around)
        assert status == 2 and not out and said in err, (around, err)
    return len(found)


def prototypes():
    """The header's calls are read as they stand there."""
    version, calls = library.header()
    with open(os.path.join(ROOT, library.HEADER), encoding="utf-8") as file:
        text = file.read()
    assert version == 6 and len(calls) == text.count("\nint64_t unglassot_") and calls["version"] == []
    sizes = {name: [ctypes.sizeof(each) for each in types] for name, types in calls.items()}
    assert sizes["open"] == [8] * 3 and sizes["withdraw"] == [8] * 7 + [1] and sizes["write_ad"] == [8] * 8 + [2] + [8] * 3 and sizes["read_ad"] == [8] * 8
    return len(calls)


def other_versions():
    """An archive of another version than the header, or without one of its calls, is told."""
    loaded()
    version, calls = library.header()
    for said, header in (("is of version", (version + 1, calls)), ("has no unglassot_close", (version, {**calls, "close": []}))):
        with mock.patch.object(library, "header", lambda: header):
            try:
                library.Library()
            except command.Unable as told:
                assert said in str(told), told
            else:
                assert False, said
    return 2


class Both:
    """A registrar of the library and the model's, asked the same: answers, caches and bounds are the same."""

    def __init__(self, one, family, capacity, places, window):
        self.library = library.Registrar(one, KEY, capacity, window, family, places)
        self.model = Registrar(KEY, capacity, window, family)
        self.bounds = bytes(family.bounds(places))

    def same(self, ours, theirs):
        assert ours == theirs, (ours, theirs)
        assert (self.library.cache(), self.library.bounds()) == (self.model.cache(), self.bounds)
        return ours

    def register(self, *call):
        return self.same(self.library.register(*call), self.model.register(*call))

    def register_bounded(self, *call):
        answer, self.bounds = self.model.register_bounded(self.bounds, *call)
        return self.same(self.library.register_bounded(*call), answer)

    def withdraw(self, *call):
        return self.same(self.library.withdraw(*call), self.model.withdraw(*call))

    def get_ads(self, *call):
        return self.same(self.library.get_ads(*call), self.model.get_ads(*call))

    def ticket(self, ad, *times):
        ticket = afresh.record(model.Ticket.made(KEY, model.ad_hash(ad), *times))
        assert self.library.ticket(ad, *times) == ticket
        return ticket


def turn(source, both, clock, tickets):
    """A drawn call on a registrar."""
    who, what = "ABXYC"[below(source, 5)], below(source, 8)
    ad = ad_of(both.library.family, who, peer=f"peer {below(source, 3)}")
    octets = both.library.library.ad(ad)
    assert octets == ad.record()
    if what == 6:
        return both.withdraw(clock, ad.service, ad.peer, below(source, 4) > 0)
    if what == 7:
        return both.get_ads(clock, ad.service)
    brought = [b"", both.ticket(octets, 0, clock - 1, 1), *tickets[-1:]][below(source, 3) % (2 + len(tickets[-1:]))]
    answer = (both.register if what < 2 else both.register_bounded)(clock, octets, below(source, 9) > 0, brought)
    if answer.ticket:
        tickets.append(afresh.record(answer.ticket))
    return answer


def against_the_model():
    """Drawn calls on registrars of both families, and the newest of two: what the library answers and leaves is what the model does."""
    one, tried, words = loaded(), 0, set()
    for number in range(12):
        source = draws(f"library {number}")
        two = [Both(one, family, 1 + below(source, 8), below(source, 4), (1, USUAL_WINDOW, MOST_WINDOW, 0)[below(source, 4)]) for family in (V4, V6)]
        clock, tickets = 10_000_000, ([], [])
        for _ in range(60):
            clock += (0, 1, 5_000, LIFETIME // 3)[below(source, 4)]
            which = below(source, 2)
            words.add(str(turn(source, two[which], clock, tickets[which])).split()[0])
            wanted = service("ST"[below(source, 2)])
            assert library.newest(*(both.library for both in two), clock, wanted) == model.newest(*(both.model for both in two), clock, wanted)
            tried += 2
    assert words == {"OK", "WAIT", "NO", "DONE", "ADS"}, words
    assert one.service(b"/a") == model.identifier(b"/a") and str(one.service(b"")) == "NO 12" and one.sha256
    return tried


# Asking afresh


class Modelled(Registrar):
    """The model as tools/afresh.py asks a registrar."""

    def __init__(self):
        super().__init__(afresh.KEY, afresh.CAPACITY)
        self.octets = bytes(V4.bounds(afresh.PLACES))

    def ticket(self, ad, *times):
        return afresh.record(model.Ticket.made(self.key, model.ad_hash(ad), *times))

    def register_bounded(self, clock, ad, vouched, ticket=b""):
        answer, self.octets = super().register_bounded(self.octets, clock, ad, vouched, ticket)
        return answer


# Document 02's order 12, with the waits of the day that goes with it.
TOLD = [
    ("10,000,000", "WAIT 38635", "WAIT 38635"), ("10,000,001", "OK", "OK"), ("10,038,635", "WAIT 29550", "WAIT 29550"),
    ("10,038,636", "WAIT 16462", "WAIT 68184"), ("10,055,098", "OK", "NO 11"), ("10,068,185", "OK", "OK"),
]


def told_rows(pairs):
    return [(clock, *answers) for clock, _, *answers in afresh.told(pairs)[1:]]


def request_day():
    """Request 12's day, on the model and on the library: its answers, and what the picture shows of it."""
    days = [afresh.Days(Modelled)]
    assert told_rows(days[0].pairs(0)) == TOLD, told_rows(days[0].pairs(0))
    loaded()
    days.append(afresh.over_library())
    assert days[0].pairs(0) == days[1].pairs(0)
    plain, bounded = days[1].pairs(0)
    assert (plain.ahead(), bounded.ahead(), plain.falls() > 0, bounded.falls()) == (13_087, 0, True, 0)
    assert bounded.grinder.refused == [(10_055_098, 10_106_820)]
    return 2 * len(TOLD)


def drawn_days():
    """Drawn days are lived on the library as on the model."""
    loaded()
    right, numbers = afresh.over_library(), (1, 2, 3, afresh.SHOWN)
    for number in numbers:
        assert afresh.Days(Modelled).pairs(number) == right.pairs(number), number
    return 4 * len(numbers)


SEEN = ("UntilFromTheTicket", "NoneWrittenAtAReturn", "UntilFromTheRecipe", "SmallerWait", "UntilForWhatIsLeft")


def wrong_ones():
    """On request 12's day these wrong definitions of bounds are seen: by another answer, by a mark below one before it, or since nobody is confirmed."""
    for each in SEEN:
        wrong = type(each, (Modelled, getattr(selftest_bounds, each)), {})
        try:
            assert told_rows(afresh.Days(wrong).pairs(0)) != TOLD, each
        except command.Failed:
            pass
    return len(SEEN)


# The picture


SPACE = "{http://www.w3.org/2000/svg}"


def across(letter):
    """How wide a letter is at most, of its size, in a common sans-serif; of small letters the mean."""
    return 0.8 if letter.isupper() else 0.65 if letter.isdigit() else 0.57 if letter.isalpha() else 0.35


def box(text):
    """What a text covers at most: left, right, top and bottom."""
    size, x, y = (float(text.get(name)) for name in ("font-size", "x", "y"))
    wide = size * sum(map(across, text.text)) * (1.15 if text.get("font-weight") else 1)
    left = x - wide * {None: 0, "middle": 0.5, "end": 1}[text.get("text-anchor")]
    return left, left + wide, y - 0.8 * size, y + 0.25 * size


def letters():
    """docs/AFRESH.svg refers to nothing outside; no letter is under 8 points on the page that it is printed on, none is cut, and no two texts overlap."""
    with open(os.path.join(ROOT, afresh.PICTURE), encoding="utf-8") as file:
        text = file.read()
    assert not re.search(r"href|url\(|<image|<style|<script|@import", text)
    picture = tree.fromstring(text)
    wide, high = (float(picture.get(side).removesuffix("pt")) for side in ("width", "height"))
    assert picture.get("viewBox") == f"0 0 {wide:g} {high:g}" and wide <= 190 / 25.4 * 72 and high <= 277 / 25.4 * 72
    texts = picture.findall(f"{SPACE}text")
    for each in texts:
        left, right, top, bottom = box(each)
        assert float(each.get("font-size")) >= 8 and 0 <= left and right <= wide and 0 <= top and bottom <= high, each.text
    boxes = [(box(each), each.text) for each in texts]
    for at, (one, said) in enumerate(boxes):
        for other, beside in boxes[at + 1 :]:
            apart = one[1] <= other[0] or other[1] <= one[0] or one[3] <= other[2] or other[3] <= one[2]
            assert apart, f"'{said}' and '{beside}' overlap"
    assert f"Seed: {afresh.SEED}" in text and "tools/afresh.py picture" in text
    return len(texts)


CHECKS = [
    ("the library, what is missing", missing),
    ("the library, the header's calls", prototypes),
    ("the library, another version", other_versions),
    ("the library against the model", against_the_model),
    ("asking afresh, request 12's day", request_day),
    ("asking afresh, drawn days", drawn_days),
    ("asking afresh, wrong definitions of bounds", wrong_ones),
    ("docs/AFRESH.svg, its letters", letters),
]
