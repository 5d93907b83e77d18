"""The compiled, proved library, called from Python: the archive of `tools/build unglassot`, linked into a shared object by the C compiler.

A registrar here has the model's calls and gives the model's answers (tools/model.py), so that the two can be compared. Whatever is not
there, the archive or the compiler, is said in a sentence (command.Unable). UNGLASSOT_LIB_DIR is the archive's folder and CC the compiler,
as for host/c/run.
"""

import ctypes
import os
import re
import subprocess
import tempfile

from command import ROOT, Unable
from model import CAPACITY, LISTED, TICKET_BODY, USUAL_WINDOW, V4, V6, Ad, Answer, Entry, Ticket, ad_hash, number

HEADER = "host/include/unglassot.h"
OPENED_AS = {V4: 4, V6: 6}
TICKET_LEN = 1 + TICKET_BODY
AGAIN = "run 'tools/build unglassot' in the repository's root"
NUMBERS = {"size_t": ctypes.c_size_t, "uint8_t": ctypes.c_uint8, "uint16_t": ctypes.c_uint16, "uint64_t": ctypes.c_uint64}


def archive():
    """Where the archive is."""
    path = os.path.join(os.environ.get("UNGLASSOT_LIB_DIR") or os.path.join(ROOT, "target/staticlib"), "libunglassot.a")
    if not os.path.isfile(path):
        raise Unable(f"{path} is missing: run 'tools/build unglassot' in the repository's root, or set UNGLASSOT_LIB_DIR to the archive's folder")
    return path


def compiler():
    """The C compiler, as words of a command."""
    return (os.environ.get("CC") or "cc").split()


def shared(folder):
    """A shared object of the whole archive, made in the folder."""
    made = os.path.join(folder, "unglassot.so")
    words = compiler() + ["-shared", "-Wl,--whole-archive", archive(), "-Wl,--no-whole-archive", "-o", made]
    try:
        done = subprocess.run(words, capture_output=True, text=True)
    except OSError as said:
        raise Unable(f"the library is linked by a C compiler, and there is no '{words[0]}' ({said.strerror}); CC can name another") from None
    if done.returncode:
        raise Unable(f"'{words[0]}' cannot link the library: {done.stderr.strip() or 'it does not say why'}")
    return made


def header():
    """What the header says: its version, and each call's name, without `unglassot_`, with the types of its parameters."""
    with open(os.path.join(ROOT, HEADER), encoding="utf-8") as file:
        text = file.read()
    calls = {}
    for name, words in re.findall(r"^int64_t unglassot_(\w+)\(([^)]*)\);", text, re.MULTILINE):
        listed = [] if words == "void" else words.split(",")
        calls[name] = [ctypes.c_void_p if re.search(r"[*\[]", word) else NUMBERS[word.split()[0]] for word in listed]
    return int(re.search(r"#define UNGLASSOT_VERSION (\d+)", text)[1]), calls


def lend(*values):
    """The words of a call: of bytes, and of an array that the call may write, the pointer and the length."""
    words = []
    for value in values:
        words += (value, len(value)) if isinstance(value, (bytes, ctypes.Array)) else (value,)
    return words


class Library:
    """The calls of the header, each by its name without `unglassot_`."""

    def __init__(self):
        with tempfile.TemporaryDirectory() as folder:
            try:
                loaded = ctypes.CDLL(shared(folder))
            except OSError as said:
                raise Unable(f"the library cannot be loaded: {said}") from None
        version, calls = header()
        for name, types in calls.items():
            call = getattr(loaded, f"unglassot_{name}", None)
            if call is None:
                raise Unable(f"{archive()} has no unglassot_{name}, which {HEADER} has: {AGAIN}")
            call.restype, call.argtypes = ctypes.c_int64, types
            setattr(self, name, call)
        if self.version() != version:
            raise Unable(f"{archive()} is of version {self.version()}, and {HEADER} of {version}: {AGAIN}")

    def ad(self, ad):
        """The bytes of an advertisement, tools/model.py's Ad, of either family; or the refusal."""
        call = self.write_ad if ad.family == V4 else self.write_ad_v6
        out = ctypes.create_string_buffer(1 + ad.family.body)
        address = ad.address.to_bytes(ad.family.address, "big")
        return written(out, call(*lend(out, ad.service, ad.peer, address, ad.port, ad.stamp, ad.signature)))

    def ticket(self, key, ad_bytes, first, issued, wait):
        """The bytes of a ticket for an advertisement, which are made under the registrar's key; or the refusal."""
        out = ctypes.create_string_buffer(TICKET_LEN)
        return written(out, self.write_ticket(*lend(key, out, ad_hash(ad_bytes), first, issued, wait)))

    def service(self, protocol):
        """The identifier of a service; or the refusal."""
        out = ctypes.create_string_buffer(32)
        return written(out, self.service_id(*lend(protocol, out)))


def written(out, said):
    return out.raw if said == 0 else Answer("NO", -said)


class Registrar:
    """A cache that the library opened, with the key, the window of its calls and a buffer of lower bounds, which may have no place. Where it
    is small its calls are those of the small-registrar profile, which have no window."""

    def __init__(self, library, key, capacity=CAPACITY, window=USUAL_WINDOW, family=V4, places=0, small=False):
        self.library, self.key, self.window, self.family, self.small = library, key, window, family, small
        self.lent = ctypes.create_string_buffer(family.cache(capacity))
        self.reply, self.moves = ctypes.create_string_buffer(TICKET_LEN), ctypes.c_uint64()
        self.empty_bounds(places)
        said = self.call("open")(*lend(self.lent, OPENED_AS[family]))
        if said:
            raise Unable(f"a cache of {capacity} places cannot be opened: refusal {-said}")

    def call(self, name):
        return getattr(self.library, f"small_{name}" if self.small else name)

    def cache(self):
        return self.lent.raw

    def hand_in(self, octets):
        """Another cache of this length, in place of the one that is there."""
        self.lent.raw = octets

    def bounds(self):
        return self.bounds_lent.raw

    def empty_bounds(self, places):
        self.bounds_lent = ctypes.create_string_buffer(self.family.bounds(places))

    def ticket(self, ad_bytes, first, issued, wait):
        return self.library.ticket(self.key, ad_bytes, first, issued, wait)

    def register(self, clock, ad, vouched, ticket=b""):
        return self.registered("register", [self.lent], clock, ad, vouched, ticket)

    def register_bounded(self, clock, ad, vouched, ticket=b""):
        return self.registered("register_bounded", [self.lent, self.bounds_lent], clock, ad, vouched, ticket)

    def registered(self, name, buffers, *request):
        window = [] if self.small else [self.window]
        said = self.call(name)(*lend(*buffers, self.key, *window, *request, self.reply), ctypes.byref(self.moves))
        if said < 0:
            return Answer("NO", -said)
        if said == 0:
            return Answer("OK", moves=self.moves.value)
        return Answer("WAIT", said, Ticket.of(self.reply.raw[1:]), moves=self.moves.value)

    def withdraw(self, clock, service, peer, vouched):
        said = self.call("withdraw")(*lend(self.lent, service, peer, clock, vouched))
        return Answer("NO", -said) if said else Answer("DONE")

    def get_ads(self, clock, service):
        size = 1 + self.family.body
        listed = ctypes.create_string_buffer(LISTED * size)
        said = self.call("get_ads")(*lend(self.lent, clock, service, listed))
        if said < 0:
            return Answer("NO", -said)
        return Answer("ADS", said, ads=tuple(Ad.of(listed.raw[at * size + 1 : (at + 1) * size], self.family) for at in range(said)))


def newest(first, second, clock, service):
    """Which of two registrars has the newest advertisement of the service, 1 or 2, and its entry; or a refusal, or nothing. Where both are
    small, by the profile's call."""
    offset = ctypes.c_uint64()
    said = (first if second.small else second).call("newest")(*lend(first.lent, second.lent, clock, service), ctypes.byref(offset))
    if said <= 0:
        return Answer("NO", -said) if said else None
    held, at = (first, second)[said - 1], offset.value
    return said, Entry(number(held.cache()[at - 8 : at]), Ad.of(held.cache()[at : at + held.family.body], held.family))
