"""The stored requests of the program `conformance` (crates/conformance/src/request.rt has their form), made by the model: those of the calls on a cache.

The lines that they give were written by the other independent implementation, in host/rust/tests.
"""

import hashlib
import os
from functools import cache as once

import model
from command import ROOT

OPEN, REGISTER, WITHDRAW, GET_ADS, NEWEST, REGISTER_BOUNDED = 0, 1, 2, 3, 15, 22
SMALL_OPEN, SMALL_REGISTER, SMALL_WITHDRAW, SMALL_GET_ADS, SMALL_NEWEST, SMALL_REGISTER_BOUNDED = range(23, 29)
SMALL = range(SMALL_OPEN, SMALL_REGISTER_BOUNDED + 1)
UNTOUCHED = 0xA5
LONGEST_CACHE = 163_192


def requests():
    with open(os.path.join(ROOT, "crates/conformance/stdin"), "rb") as file:
        return requests_in(file.read())


def requests_in(data):
    """Each request: its head, and its parts: what the line begins with, what stands between, what the cache begins with, and those of the call."""
    at = 0
    while at < len(data):
        head, rest = data[at : at + 83], model.number(data[at + 9 : at + 11])
        whole = data[at : at + 83 + rest]
        places = [(model.number(head[i : i + 2]), model.number(head[i + 2 : i + 4])) for i in range(51, 83, 4)]
        yield head, [whole[start : start + length] for start, length in places]
        at += 83 + rest


def lines():
    """The stored lines."""
    with open(os.path.join(ROOT, "crates/conformance/stdout"), encoding="ascii") as file:
        return file.read().splitlines()


def digest(octets):
    return hashlib.sha256(octets).hexdigest()


SHOWN = [
    lambda octets: "",
    lambda octets: octets.hex(),
    digest,
    lambda octets: f"{octets[:29].hex()} {digest(octets)}",
    lambda octets: f"{octets[0]} {octets[29]}",
    lambda octets: str(octets[0]),
]


def shown(how, octets):
    """A buffer as a line shows it: not at all, its bytes, with nothing for none, their digest, a head and the digest, two kinds or one."""
    text = SHOWN[how](octets)
    return f" {text}" if text else ""


def numbers_of(head, *widths):
    """The numbers of these widths that stand in a head from its 12th byte on."""
    return [model.number(field) for field in model.cut(head[11 : 11 + sum(widths)], *widths)]


def answered(answer):
    """An answer as C has it."""
    return -answer.number if answer.word == "NO" else answer.number


def handed(answer):
    return bytes([model.TICKET]) + answer.ticket.body() if answer.ticket else b""


class Call:
    """A request of a call on a cache that holds these bytes, as the model has it: its line, and what the cache holds afterwards."""

    def __init__(self, head, parts, cache):
        self.label, self.between, _, *self.parts = parts
        self.call, self.cache_shown, self.output_shown, self.told_shown, vouched, _, self.fill = head[:7]
        self.vouched, self.small, self.told = vouched == 1, self.call in SMALL, UNTOUCHED
        lent, size, self.output_lent, output_size, self.one, self.two, self.three = numbers_of(head, 4, 4, 4, 4, 8, 8, 8)
        self.lent, self.behind = bytes(cache[:lent]), bytes(cache[lent:size])
        self.after, self.output, self.bounds = self.lent, b"", None
        number = self.made()
        told = f" {self.told}" if self.told_shown else ""
        output = self.output.ljust(output_size, bytes([self.fill]))
        buffers = shown(self.cache_shown, self.after + self.behind) + shown(self.output_shown, output)
        if self.bounds is not None:
            buffers += shown(self.output_shown, self.bounds)
        self.line = f"{self.label.decode()} {number}{self.between.decode()}{told}{buffers}"

    def made(self):
        """The number that is answered, with what the call leaves."""
        if self.call in (OPEN, SMALL_OPEN):
            answer, self.after = model.opened(self.lent, self.one, self.small)
        elif self.call in (WITHDRAW, SMALL_WITHDRAW):
            answer, self.after = model.withdraw(self.lent, *self.parts[:2], self.one, self.vouched, self.small)
        elif self.call in (GET_ADS, SMALL_GET_ADS):
            answer = model.get_ads(self.lent, self.one, self.parts[0], self.output_lent, self.small)
            self.output = b"".join(ad.record() for ad in answer.ads)
        elif self.call in (NEWEST, SMALL_NEWEST):
            return self.newest()
        else:
            answer = self.registered()
        return answered(answer)

    def registered(self):
        key, ad, ticket, begins = self.parts[:4]
        window, clock = (model.USUAL_WINDOW, self.one) if self.small else (self.one, self.two)
        rest = key, window, clock, ad, self.vouched, ticket, self.output_lent, self.small
        if self.call in (REGISTER, SMALL_REGISTER):
            answer, self.after = model.register(self.lent, *rest)
        else:
            answer, self.after, self.bounds = model.register_bounded(self.lent, begins.ljust(self.three, b"\0"), *rest)
        self.output = handed(answer)
        self.told = UNTOUCHED if answer.word == "NO" else answer.moves
        return answer

    def newest(self):
        """The number, the offset, the refusal, and the body with a space before it."""
        second, service = self.parts[:2]
        second = second.ljust(self.two, b"\0") if self.small else second
        found = model.newest_at(self.lent, second, self.one, service, self.small)
        if found is None:
            return f"0 {UNTOUCHED} 0"
        if isinstance(found, model.Answer):
            return f"{-found.number} {UNTOUCHED} {found.number}"
        which, at = found
        holder = (self.lent, second)[which - 1]
        return f"{which} {at} 0 {holder[at : at + model.family_of(holder).body].hex()}"


CALLS = {OPEN, REGISTER, WITHDRAW, GET_ADS, NEWEST, REGISTER_BOUNDED, *SMALL}


@once
def replayed():
    """The requests of the calls on a cache, in their order: the call's number, the head, the parts, what the cache held before, and the line."""
    made, cache = [], bytearray([UNTOUCHED]) * LONGEST_CACHE
    for head, parts in requests():
        if head[5] == 1:
            cache[:] = bytes([UNTOUCHED]) * LONGEST_CACHE
        cache[: len(parts[2])] = parts[2]
        if head[0] in CALLS:
            before = bytes(cache[: max(numbers_of(head, 4, 4))])
            call = Call(head, parts, before)
            cache[: len(call.after)] = call.after
            made.append((head[0], head, parts, before, call.line))
    return made


def compared(calls):
    """That the model's lines of these calls are stored; how many they are."""
    stored = set(lines())
    found = {line for call, *_, line in replayed() if call in calls}
    for line in found:
        for each in line.split("\n"):
            assert each in stored, line
    return len(found)


def first_changed(calls):
    """The first stored line of these calls that the model, as it is now, gives otherwise, or nothing."""
    requests_of = ((head, parts, before, line) for call, head, parts, before, line in replayed() if call in calls)
    return next((line for head, parts, before, line in requests_of if Call(head, parts, before).line != line), None)
