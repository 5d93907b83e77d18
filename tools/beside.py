"""A registrar of the compiled library, and the model's beside it, asked the same (tools/registrar.py)."""

import library
import model
from model import CAPACITY, FAMILIES, USUAL_WINDOW
from reasons import span

PLACES = 8          # for lower bounds, where nothing is said


def counted(number, what):
    return f"{number} {what}{'' if number == 1 else 's'}"


class Modelled:
    """The model's calls on bytes, with the calls of library.Registrar."""

    def __init__(self, key, capacity, window, family, places, small):
        self.key, self.window, self.family, self.small = key, window, family, small
        opened_as = next(number for number, each in FAMILIES.items() if each == family)
        _, self.octets = model.opened(bytes(family.cache(capacity)), opened_as, small)
        self.empty_bounds(places)

    def cache(self):
        return self.octets

    def hand_in(self, octets):
        self.octets = octets

    def bounds(self):
        return self.bound_octets

    def empty_bounds(self, places):
        self.bound_octets = bytes(self.family.bounds(places))

    def registrar(self):
        """The model's registrar of this cache."""
        return model.on(self.octets, self.small, self.key, self.window)

    def register(self, clock, ad, vouched, ticket=b""):
        answer, self.octets = model.register(self.octets, self.key, self.window, clock, ad, vouched == 1, ticket, small=self.small)
        return answer

    def register_bounded(self, clock, ad, vouched, ticket=b""):
        request = (self.key, self.window, clock, ad, vouched == 1, ticket)
        answer, self.octets, self.bound_octets = model.register_bounded(self.octets, self.bound_octets, *request, small=self.small)
        return answer

    def withdraw(self, clock, service, peer, vouched):
        answer, self.octets = model.withdraw(self.octets, service, peer, clock, vouched == 1, small=self.small)
        return answer

    def get_ads(self, clock, service):
        return model.get_ads(self.octets, clock, service, model.LISTED * (1 + self.family.body), small=self.small)

    def asked_with(self, other):
        """The model's registrars of both, of the profile where both are small."""
        return [model.on(each.octets, self.small and other.small) for each in (self, other)]

    def newest(self, other, clock, service):
        return model.newest(*self.asked_with(other), clock, service)


class Compiled(library.Registrar):
    """A registrar of the library, with the model's calls."""

    def newest(self, other, clock, service):
        return library.newest(self, other, clock, service)


class Opened:
    """A registrar that was opened: the library's, the model's beside it, and the tickets that it issued."""

    def __init__(self, make, key, capacity=CAPACITY, family=model.V4):
        words = (key, capacity, USUAL_WINDOW, family, PLACES, False)
        self.ours, self.theirs = make(*words), Modelled(*words)
        self.capacity, self.bounded = capacity, False
        self.latest = {}            # the ticket issued last, by service and peer
        self.latest_of = {}         # and by peer alone

    def set(self, **given):
        for name, value in given.items():
            setattr(self.ours, name, value)
            setattr(self.theirs, name, value)

    def both(self, name, *words):
        """What the library's registrar answers to a call, and what the model's does."""
        return getattr(self.ours, name)(*words), getattr(self.theirs, name)(*words)

    def same(self):
        return (self.ours.cache(), self.ours.bounds()) == (self.theirs.cache(), self.theirs.bounds())

    def bound(self, clock, ad):
        """What is left of the lower bound of the ad's service and address, by the model; 0 where there is none in force."""
        found = [each.until - clock for each in self.bounds_kept() if each.pair == (ad.service, ad.address)]
        return max(found + [0]) if self.bounded else 0

    def bounds_kept(self):
        return model.bounds_of(self.theirs.bounds(), self.theirs.family)

    def described(self):
        number = 6 if self.theirs.family == model.V6 else 4
        places = counted(self.capacity, "place")
        kept = counted(len(self.theirs.bounds()) // self.theirs.family.bounds(1), "place")
        modes = ["small"] * self.theirs.small + [f"lower bounds, {kept} for them"] * self.bounded
        return ", ".join([f"IPv{number}", places, f"window {span(self.theirs.window)}", *modes])


def over_library():
    """What opens registrars of the compiled library."""
    one = library.Library()
    return lambda *words: Compiled(one, *words)
