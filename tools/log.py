#!/usr/bin/env python3
"""Makes and reads inputs of the programs register_log and replay: text to bytes, bytes to text, and what they must print.

    tools/log.py try day.txt            runs the proved program on a text, and prints the day with each answer in words, and why
    tools/log.py picture day.txt        the same as a page (HTML), to look at and to print: a lane for each advertiser
    tools/log.py encode day.txt         text to the program's input
    tools/log.py decode day.bin         the text again; encoding it gives the same bytes, for every input
    tools/log.py run day.bin            the lines that the program must print, by tools/model.py
    tools/log.py selftest               the tools' own checks, as tools/selftest.py

Without a file they read standard input. try and picture compare the program's answers with the model's and with those in the
text. try takes --short (without why), picture --svg (the drawing alone) and --wrong LABEL (below the lanes those of a wrong registrar, where it
differs; tools/wrong lists them), decode --answers (each line ends with its answer) and --names FILE (32 bytes that are the SHA-256 of a word of
FILE are shown as that word).

The text has one record to a line. '#' starts a comment.

    key KEY
    ask CLOCK VOUCHED SERVICE peer=PEER A.B.C.D:PORT [stamp=N] [signature=HEX]
    return ..the same.. ticket TICKET
    list CLOCK SERVICE
    raw HEX

CLOCK         milliseconds; or with units, as 5s, 15m, 1h, 1.5s, 15m1ms. A return may say due: the earliest time that its ticket
              allows. It is taken from then on for the registration window: 10,000 ms in a log, 1,000 in a recorded day.
KEY, SERVICE  64 hex digits, or a name, whose SHA-256 they are. A service's name is its protocol ID, as
and PEER      /waku/store/1.0.0. A peer ID is the hash of a public key; a name stands in for the key.
VOUCHED       vouched (the byte 1), unvouched (the byte 0), or vouched=N for any byte.
stamp,        0 where they are not given; a stamp is written as a clock, a signature is 128 hex digits. The registrar judges
signature     neither.
TICKET        auto                        the latest ticket that the model issued to this peer for this service
              auto FIELD=..               that ticket with fields changed and its old tag: a forgery
              first=N issued=N wait=N     a ticket for this line's advertisement, its tag made under the key (times as CLOCK);
                [service=] [peer=]        for one that differs in these fields,
                [address=A.B.C.D:PORT]
                [stamp=] [signature=]
                [ad_hash=HEX]             or that has this SHA-256;
                [key=] [tag=HEX]          with its tag made under another key, or given
              HEX                         all 88 bytes of its body, 176 digits
raw           bytes as they are: a short key, a cut or an unknown record; - for none. Only at the end.

A recorded day says who came when, without the tickets, and is the input of replay, which works them out again. All its
records are of two other forms, with numbers from 0 to 63; a day with both is refused, and a key alone is a log's.

    advertiser NUMBER ask CLOCK VOUCHED SERVICE peer=PEER A.B.C.D:PORT [stamp=N] [signature=HEX]
    advertiser NUMBER return ..the same..       with the ticket that is held for this number, or with none

A line may end with its answer, as in 'list 5 /waku/store/1.0.0 -> ADS 1'. encode asks the model and refuses a text
whose answers are wrong. Tickets do not show in the output, so auto and due ask the model too.

Status: 0; 1 for bad lines and for answers that differ; 2 for bad usage, a missing file or a missing program.
"""

import argparse
import hashlib
import ipaddress
import os
import re
import subprocess
import sys
import tempfile
import unicodedata
from dataclasses import dataclass, replace
from fractions import Fraction

sys.dont_write_bytecode = True
sys.path.insert(0, os.path.dirname(os.path.realpath(__file__)))

import command
import model
import reasons
from reasons import span
from model import ASK, LIFETIME, LIST, RECORDED_ASK, RECORDED_RETURN, RECORDED_WINDOW, RETURN, USUAL_WINDOW, V4, V6, Ad, Ticket

KINDS = {"ask": ASK, "return": RETURN, "list": LIST}
RECORDED_KINDS = {"ask": RECORDED_ASK, "return": RECORDED_RETURN}
WORDS = {kind: word for kinds in (KINDS, RECORDED_KINDS) for word, kind in kinds.items()}
NAME = re.compile(r"[!\"$-<>-~]{1,255}")          # printable ASCII without space, '#' and '='
AD_FIELDS = ("service", "peer", "address", "stamp", "signature")          # the port stands with the address
ADDRESSES = {V4: "A.B.C.D:PORT", V6: "[A:B::C]:PORT"}          # how an address is written; a log's are IPv4's
FORMS = {ASK: "ask CLOCK VOUCHED SERVICE peer=PEER {}", LIST: "list CLOCK SERVICE"}
TICKET_FIELDS = ("ad_hash", "first", "issued", "wait", "tag")


class Wrong(command.Failed):
    """A line that is not in the form above, or whose answer is wrong."""


class NoTicket(Wrong):
    """A line that brings a ticket which was never issued."""


# Reading text


def whole(word, end, what):
    if not re.fullmatch(r"[0-9]+", word) or int(word) >= end:
        raise Wrong(f"{what} must be a number from 0 to {end - 1}, not '{word}'")
    return int(word)


UNITS = {"h": 3_600_000, "m": 60_000, "s": 1000, "ms": 1}
TIME = re.compile("".join(rf"(?:([0-9]+(?:\.[0-9]+)?){unit}(?![a-z]))?" for unit in UNITS))


def time_of(word, what):
    """Milliseconds, or the sum of a word as 15m, 1.5s, 1h, 15m1ms."""
    if re.fullmatch(r"[0-9]+", word):
        return whole(word, 2**64, what)
    parts = TIME.fullmatch(word)
    if not word or not parts:
        raise Wrong(f"{what} is in ms, or as 5s, 15m, 1h, 1.5s or 15m1ms, not '{word}'")
    total = sum(Fraction(part) * unit for part, unit in zip(parts.groups(), UNITS.values()) if part)
    if total.denominator != 1:
        raise Wrong(f"{what} is a whole number of ms, and '{word}' is not")
    return whole(str(total), 2**64, what)


def octets(word, length, what):
    if not re.fullmatch(r"[0-9a-fA-F]*", word) or len(word) != 2 * length:
        raise Wrong(f"{what} must be {2 * length} hex digits, not '{word}'")
    return bytes.fromhex(word)


def is_name(word):
    """A long word of hex digits alone is a mistyped value and no name."""
    return NAME.fullmatch(word) and word != "->" and not re.fullmatch(r"[0-9a-fA-F]{33,}", word)


def named(word, what):
    """32 bytes: 64 hex digits, or the SHA-256 of a name."""
    if re.fullmatch(r"[0-9a-fA-F]{64}", word):
        return bytes.fromhex(word)
    if not is_name(word):
        raise Wrong(f"{what} must be 64 hex digits or a name, not '{word}'")
    return hashlib.sha256(word.encode()).digest()


# The arrow before an answer, also as word processors make it of '->'.
ARROW = re.compile("\\s(?:->|[\u2192\u27f6\u2794\u21d2\uf0e0]|[\u2013\u2014]>)\\s")
MEANT = {"-": "\u2010\u2011\u2012\u2013\u2014\u2015\u2212", "'": "\u2018\u2019", '"': "\u201c\u201d\u201e", "...": "\u2026", "->": "\u2192\u27f6\u2794\u21d2\uf0e0"}


def parted(line):
    """A line without its comment: the words, the arrow if there is one, and the answer behind it, with single spaces."""
    text, arrow, expected = ARROW.sub(" -> ", re.sub(r"(^|\s)#.*", "", line), count=1).partition(" -> ")
    return text, arrow, " ".join(expected.split())


def only_ascii(text):
    """Outside of comments a text is ASCII; what a word processor puts in place of '-' and quotes is named as what it is."""
    for letter in text:
        if ord(letter) < 128 or letter.isspace():
            continue
        meant = next((plain for plain, letters in MEANT.items() if letter in letters), None)
        what = unicodedata.name(letter, f"U+{ord(letter):04X}").lower()
        raise Wrong(f"'{letter}' is a {what}, as word processors write it: {meant} is meant" if meant else f"'{letter}', {what}, is not ASCII")


def settings(words, allowed):
    """The words NAME=VALUE as a table."""
    found = {}
    for word in words:
        name, sign, value = word.partition("=")
        if not sign or name not in allowed or name in found:
            raise Wrong(f"'{word}' does not belong here")
        found[name] = value
    return found


def read_vouched(word):
    if word in ("vouched", "unvouched"):
        return 1 if word == "vouched" else 0
    if not word.startswith("vouched="):
        raise Wrong(f"vouched, unvouched or vouched=N must stand where '{word}' does")
    return whole(word[len("vouched=") :], 256, "vouched")


def read_address(word, family=V4):
    """The address as a number, and the port."""
    if family == V6:
        return read_long_address(word)
    parts = re.fullmatch(r"(\d+)\.(\d+)\.(\d+)\.(\d+):(\d+)", word)
    if not parts:
        raise Wrong(f"an address is {ADDRESSES[V4]}, not '{word}'")
    address = bytes(whole(part, 256, "a part of an address") for part in parts.groups()[:4])
    return model.number(address), whole(parts[5], 2**16, "a port")


def read_long_address(word):
    parts = re.fullmatch(r"\[([0-9a-fA-F:.]+)\]:(\d+)", word)
    try:
        address = int(ipaddress.IPv6Address(parts[1])) if parts else None
    except ValueError:
        address = None
    if address is None:
        raise Wrong(f"an IPv6 address is {ADDRESSES[V6]}, not '{word}'")
    return address, whole(parts[2], 2**16, "a port")


def address_of(ad):
    """An advertisement's address and port, as they are read."""
    return f"[{ipaddress.IPv6Address(ad.address)}]:{ad.port}" if ad.family == V6 else f"{ipaddress.IPv4Address(ad.address)}:{ad.port}"


def read_ad(words, family=V4):
    """SERVICE peer=PEER A.B.C.D:PORT and the two that may be left out."""
    if len(words) < 3 or not words[1].startswith("peer="):
        raise Wrong(f"after the clock: VOUCHED SERVICE peer=PEER {ADDRESSES[family]}")
    given = {"service": words[0], "peer": words[1][len("peer=") :], "address": words[2]}
    more = settings(words[3:], ("stamp", "signature"))
    return changed(Ad.of(bytes(family.body), family), {**given, **more})


def changed(ad, given):
    """The advertisement with the given fields changed."""
    fields = {}
    for name, word in given.items():
        if name == "address":
            fields["address"], fields["port"] = read_address(word, ad.family)
        elif name == "stamp":
            fields[name] = time_of(word, "a stamp")
        else:
            fields[name] = octets(word, 64, "a signature") if name == "signature" else named(word, f"a {name}")
    return replace(ad, **fields)


def read_field(name, word):
    return octets(word, 32, f"{name} of a ticket") if name in ("ad_hash", "tag") else time_of(word, name)


def read_ticket(words, ad, key, latest):
    """latest: the tickets issued last, by service and peer."""
    if len(words) == 1 and re.fullmatch(r"[0-9a-fA-F]+", words[0]):
        return Ticket.of(octets(words[0], model.TICKET_BODY, "a ticket's body"))
    auto = words[:1] == ["auto"]
    given = settings(words[auto:], TICKET_FIELDS + AD_FIELDS + (() if auto else ("key",)))
    key = named(given.pop("key"), "a key") if "key" in given else key
    other = {name: given.pop(name) for name in AD_FIELDS if name in given}
    if other and "ad_hash" in given:
        raise Wrong("ad_hash names an advertisement, and so do the fields of another")
    fields = {name: read_field(name, word) for name, word in given.items()}
    if other or not auto:
        fields.setdefault("ad_hash", model.ad_hash(changed(ad, other).record()))
    if auto:
        if (ad.service, ad.peer) not in latest:
            raise NoTicket("no ticket was issued to this peer for this service")
        return replace(latest[ad.service, ad.peer], **fields)
    if not {"first", "issued", "wait"} <= fields.keys():
        raise Wrong(f"a ticket is auto, or first=N issued=N wait=N, or {2 * model.TICKET_BODY} hex digits")
    ticket = Ticket(**{"tag": b"", **fields})
    return ticket if "tag" in fields else replace(ticket, tag=ticket.tag_under(key))


@dataclass(frozen=True)
class Request:
    """What a line asks of a registrar: an ask or a return with its advertisement, a return with its ticket too, or a list with its service."""

    kind: int
    clock: int
    service: bytes = b""
    vouched: int = 0
    ad: Ad = None
    ticket: Ticket = None

    def record(self):
        """A log's bytes."""
        head = bytes([self.kind]) + self.clock.to_bytes(8, "big")
        if self.kind == LIST:
            return head + self.service
        return head + bytes([self.vouched]) + self.ad.body() + (self.ticket.body() if self.ticket else b"")


def read_request(words, key, latest, family=V4):
    """What an ask, a return or a list asks. key and latest are for its ticket."""
    kind = KINDS.get(words[0])
    if kind is None:
        raise Wrong(f"a line starts with key, ask, return, list, advertiser or raw, not '{words[0]}'")
    if kind == RETURN:
        return read_return(words, key, latest, family)
    if len(words) < 3:
        raise Wrong(f"it is: {FORMS[kind].format(ADDRESSES[family])}")
    clock = time_of(words[1], "a clock")
    if kind == ASK:
        vouched = read_vouched(words[2])
        return Request(kind, clock, vouched=vouched, ad=read_ad(words[3:], family))
    if len(words) != 3:
        raise Wrong(f"it is: {FORMS[LIST]}")
    return Request(kind, clock, named(words[2], "a service"))


def read_return(words, key, latest, family):
    if "ticket" not in words[6:]:
        raise Wrong("a return is an ask's words, then ticket TICKET")
    at = words.index("ticket", 6)
    vouched, ad = read_vouched(words[2]), read_ad(words[3:at], family)
    ticket = read_ticket(words[at + 1 :], ad, key, latest)
    clock = due(ticket) if words[1] == "due" else time_of(words[1], "a clock")
    return Request(RETURN, clock, vouched=vouched, ad=ad, ticket=ticket)


def due(ticket):
    """The earliest time that the ticket allows."""
    return whole(str(ticket.issued + ticket.wait), 2**64, "the clock at which it is due")


def read_recorded(words, held):
    """One record's bytes of a recorded day. held: the tickets held, by number."""
    if len(words) < 5 or words[2] not in RECORDED_KINDS:
        raise Wrong("a recorded line is: advertiser NUMBER ask, or return, CLOCK VOUCHED SERVICE peer=PEER A.B.C.D:PORT")
    who = whole(words[1], model.ADVERTISERS, "an advertiser's number")
    vouched, ad = read_vouched(words[4]), read_ad(words[5:])
    if words[2:4] == ["return", "due"]:
        if who not in held:
            raise NoTicket(f"no ticket is held for advertiser {who}")
        clock = due(held[who])
    else:
        clock = time_of(words[3], "a clock")
    return bytes([RECORDED_KINDS[words[2]], who]) + clock.to_bytes(8, "big") + bytes([vouched]) + ad.body()


@dataclass
class Row:
    """A line of the text, and what was made of it."""

    line: str
    data: bytes = b""
    answer: str = None          # the model's, of a record
    expected: str = None        # the text's
    reason: str = None          # why it is answered so, by the model
    note: str = None            # what is odd about the line, and not wrong
    printed: str = None         # the proved program's line, of a record
    differs: tuple = ()         # where that, the model's and the text's differ
    fault: str = None           # why the line could not be read

    def shown(self):
        """The line without the answer that it expects."""
        if not self.answer:
            return self.line
        comment = re.search(r"(?:^|\s)#.*", self.line)
        words = ARROW.split(self.line[: comment.start()] if comment else self.line, maxsplit=1)[0].rstrip()
        return f"{words}  {comment[0].strip()}" if comment else words

    def wrong(self):
        """What is wrong with the line, or None."""
        if self.fault or self.expected in (None, self.answer):
            return self.fault
        return f"the text expects {self.expected}, the model answers {self.answer}"


class Reader:
    """Lines of text in, the program's bytes out. The model follows, for auto, due and the answers."""

    def __init__(self, reasoned=False):
        self.reasoned = reasoned    # whether it is wanted why each request is answered so
        self.registrar = None
        self.replay = None
        self.recorded = None        # whether this is a recorded day, once a record tells
        self.latest = {}            # the ticket issued last, by service and peer
        self.answered = None        # the model's answer to the latest record
        self.reason = None          # and why
        self.clock = 0              # of the latest record
        self.ended = False
        self.lost = False           # a line could not be read, so that no answer from there on is known

    def row(self, line):
        """It raises nothing."""
        row = Row(line.rstrip("\n"))
        text, arrow, expected = parted(line)
        self.answered = None
        try:
            only_ascii(text + expected)
            row.data = self.read(text.split(), arrow)
        except Wrong as wrong:
            unsure = self.lost and isinstance(wrong, NoTicket)
            row.fault = f"{wrong}, by the lines that could be read" if unsure else str(wrong)
            self.lost = True
        if self.answered:
            row.answer, row.reason = str(self.answered), self.reason
            row.expected = expected if arrow and not self.lost else None
            row.note = self.turned_back(row.data, text)
        return row

    def turned_back(self, record, text):
        """A return that is due before the line above came; other clocks are the writer's own."""
        before, self.clock = self.clock, clock_of(record)
        if self.clock < before and "due" in text.split():
            return f"due at {span(self.clock)}, which is {span(before - self.clock)} before the line above"
        return None

    def bytes_of(self, line):
        row = self.row(line)
        if row.wrong():
            raise Wrong(row.wrong())
        return row.data

    def read(self, words, arrow):
        if not words:
            if arrow:
                raise Wrong("an answer, and nothing that is answered")
            return b""
        if words[0] in ("key", "raw") and (len(words) != 2 or arrow):
            raise Wrong(f"'{words[0]}' has one word behind it and no answer")
        if words[0] == "raw":
            self.ended = True
            return b"" if words[1] == "-" else octets(words[1], len(words[1]) // 2, "raw bytes")
        if self.ended:
            raise Wrong("only raw lines can follow a raw line")
        if words[0] == "key":
            return self.read_key(words[1])
        if not self.registrar:
            self.start(bytes(32))       # so that the other lines are read too
            raise Wrong("the first line gives the key")
        recorded = words[0] == "advertiser"
        if recorded or words[0] in KINDS:
            self.one_kind_of_day(recorded)
        if recorded:
            record = read_recorded(words, self.replay.tickets)
            self.visit(record)
        else:
            record = read_request(words, self.registrar.key, self.latest).record()
            self.follow(record)
        return record

    def read_key(self, word):
        if self.registrar:
            raise Wrong("the key stands once, first")
        self.start(bytes(32))
        self.start(named(word, "a key"))
        return self.registrar.key

    def start(self, key):
        self.registrar, self.replay = model.Registrar(key), model.Replay(key)

    def one_kind_of_day(self, recorded):
        if self.recorded not in (None, recorded):
            raise Wrong("a day is a log or a recorded day: every record is an advertiser's, or none is")
        self.recorded = recorded

    def follow(self, record):
        self.answered = answer = model.answer(self.registrar, record)
        if self.reasoned:
            ticket = bytes([model.TICKET]) + record[10 + model.AD_BODY :] if record[0] == RETURN else b""
            self.reason = reasons.why(self.registrar, answer, clock_of(record), record[9:], bytes([model.AD]) + record[10 : 10 + model.AD_BODY], ticket)
        if answer.ticket:
            ad = Ad.of(record[10 : 10 + model.AD_BODY])
            self.latest[ad.service, ad.peer] = answer.ticket

    def visit(self, record):
        ticket = self.replay.brought(record[0], record[1])
        self.answered = self.replay.answer(record)
        if self.reasoned:
            self.reason = reasons.why(self.replay.registrar, self.answered, clock_of(record), ad=bytes([model.AD]) + record[11:], ticket=ticket)


def clock_of(record):
    """A record's clock; a recorded day's stands behind the number."""
    return model.number(record[2:10] if record[0] in model.RECORDED_BODY else record[1:9])


def read_text(lines, wrong, reasoned=False):
    """The rows of a text; refused with every line for which wrong gives a fault, each with its line, and where there is no key."""
    reader = Reader(reasoned)
    rows = [reader.row(line) for line in lines]
    said = [f"line {at}: {wrong(row)}\n    {row.line.strip()}" for at, row in enumerate(rows, 1) if wrong(row)]
    if not said and not any(row.data for row in rows) and not reader.ended:
        said = ["there is no key: the first line of a text is 'key KEY'"]
    if said:
        raise Wrong("\n".join(said))
    return rows


def encode(lines):
    rows = read_text(lines, Row.wrong)
    for at, row in enumerate(rows, 1):
        if row.note:
            command.complain("tools/log.py", f"note, line {at}: {row.note}")
    return b"".join(row.data for row in rows)


# Writing text


class Writer:
    def __init__(self, key, words=()):
        self.key = key
        self.names = {}
        self.learn(words)

    def learn(self, words):
        """Words that values may be the SHA-256 of."""
        self.names.update({hashlib.sha256(word.encode()).digest(): word for word in words if is_name(word)})

    def name(self, value):
        return self.names.get(value, value.hex())

    def ad(self, ad):
        words = [self.name(ad.service), f"peer={self.name(ad.peer)}", address_of(ad)]
        if ad.stamp:
            words.append(f"stamp={ad.stamp}")
        if any(ad.signature):
            words.append(f"signature={ad.signature.hex()}")
        return words

    def ticket(self, ticket, ad):
        words = ["ticket", f"first={ticket.first}", f"issued={ticket.issued}", f"wait={ticket.wait}"]
        if ticket.ad_hash != model.ad_hash(ad.record()):
            words.append(f"ad_hash={ticket.ad_hash.hex()}")
        if ticket.tag != ticket.tag_under(self.key):
            words.append(f"tag={ticket.tag.hex()}")
        return words

    def line(self, record):
        if record[0] in model.RECORDED_BODY:
            # what stands behind the number is as in a log's ask
            return f"advertiser {record[1]} " + self.line_of(record[0], record[:1] + record[2:])
        return self.line_of(record[0], record)

    def line_of(self, kind, record):
        words = [WORDS[kind], str(model.number(record[1:9]))]
        if kind == LIST:
            return " ".join(words + [self.name(record[9:])])
        vouched = {0: "unvouched", 1: "vouched"}.get(record[9], f"vouched={record[9]}")
        ad = Ad.of(record[10 : 10 + model.AD_BODY])
        words += [vouched] + self.ad(ad)
        if kind == RETURN:
            words += self.ticket(Ticket.of(record[10 + model.AD_BODY :]), ad)
        return " ".join(words)


def decode(data, words=(), answers=False):
    """The input's text, line by line. Encoding the lines gives the input back, whatever it is."""
    recorded = model.is_recorded(data)
    key, records, rest = model.split_recorded(data) if recorded else model.split(data)
    if key is not None:
        writer, registrar, replay = Writer(key, words), model.Registrar(key), model.Replay(key)
        yield f"key {writer.name(key)}"
        for record in records:
            answer = replay.answer(record) if recorded else model.answer(registrar, record)
            yield writer.line(record) + (f" -> {answer}" if answers else "")
    if rest or key is None:
        cut = "a cut or unknown record" + (", or a number above 63" if recorded else "")
        yield "# STOP: " + ("a short key" if key is None else cut)
        yield f"raw {rest.hex() or '-'}"


# Trying a day

REFUSALS = {
    3: "its clock steps back, or is past the last there is",
    14: "the port is 0",
    5: "the host did not vouch for the signature",
    6: "this peer's advertisement for this service is in already",
    8: "the ticket is not as this registrar issues it",
    9: "the times on the ticket cannot be",
    10: "the ticket is for another advertisement, which differs in a byte or more",
    11: "the ticket is brought too early, or after the registration window",
}


def in_words(line):
    """A line of the log program or of the replay, and what it says."""
    total = re.fullmatch(r"\d+ (\d+) (\d+|-)", line)
    if total:
        last = "never admitted" if total[2] == "-" else f"last admitted at {span(int(total[2]))}"
        return f"{line}: {'one record' if total[1] == '1' else f'{total[1]} records'}, {last}"
    parts = re.fullmatch(r"(\d+ )?(\d+) (OK|WAIT|ADS|NO)(?: (\d+))?", line)
    if not parts:
        return line
    return f"{line}: {says(int(parts[2]), parts[3], int(parts[4] or 0), RECORDED_WINDOW if parts[1] else USUAL_WINDOW)}"


def says(clock, word, number, window):
    """What an answer says, under this window."""
    words = {
        "OK": f"admitted, and listed until {span(clock + LIFETIME)}",
        "WAIT": f"a ticket, to come back in {span(number)}: from {span(clock + number)} to {span(clock + number + window)}",
        "ADS": "one advertisement is listed" if number == 1 else f"{number or 'no'} advertisements are listed",
        "NO": f"refused: {REFUSALS.get(number, 'a number that no log brings about')}",
    }
    return words[word]


def program(name):
    """Where a built program is."""
    made = f"crates/{name}/out/{name}"
    path = os.path.join(command.ROOT, made)
    if not os.path.exists(path):
        raise command.Unable(f"{made} is missing; this makes it: tools/build {name}")
    return path


def proved_lines(data):
    """What the proved program prints that this input is for."""
    name = "replay" if model.is_recorded(data) else "register_log"
    with tempfile.TemporaryFile() as file:
        file.write(data)
        file.seek(0)
        done = subprocess.run([program(name)], stdin=file, capture_output=True)
    if done.returncode or done.stderr:
        raise command.Failed(f"{name} ended with status {done.returncode} and said: {done.stderr.decode(errors='replace')}")
    return done.stdout.decode(errors="replace").split("\n")[:-1]


def differences(line, right, row):
    """Where the proved program's line, the model's and the text's differ."""
    found = []
    if line != right:
        found.append(f"the proved program prints '{line}', the model '{right}'")
    if row.wrong():
        found.append(row.wrong())
    return found


def ask_program(rows):
    """Has the proved program answer: each record's row gets its line and what differs, and why only where the model answers the same. Gives the lines
    that stand behind those of the records, the program's and the model's."""
    data = b"".join(row.data for row in rows)
    printed, right = proved_lines(data), list(model.printed(data))
    records = [row for row in rows if row.answer]
    for at, row in enumerate(records):
        row.printed = printed[at] if at < len(printed) else "nothing"
        row.differs = differences(row.printed, right[at], row)
        row.reason = row.reason if row.printed == right[at] else None
    return printed[len(records) :], right[len(records) :]


def judge(rows, ends):
    """Fails where an answer differs, or what stands behind them; gives how many there are, and in how many the text has them too."""
    records = [row for row in rows if row.answer]
    faults = sum(bool(row.differs) for row in records)
    if faults:
        raise command.Failed(f"{faults} of {answers(len(records))} differ{'s' if faults == 1 else ''}")
    if ends[0] != ends[1]:
        raise command.Failed(f"the proved program ends with {ends[0]}, the model with {ends[1]}")
    return len(records), sum(row.expected is not None for row in records)


def try_day(lines, short=False):
    """Prints the day, with each answer of the proved program in words and, unless it is to be short, why; fails where the three differ."""
    rows = read_text(lines, lambda row: row.fault, not short)
    ends = ask_program(rows)
    for row in rows:
        print(row.shown())
        if row.answer:
            why = [f"        {each}" for each in reasons.wrapped(row.reason)]
            note = [f"    note: {row.note}"] if row.note else []
            print("\n".join([f"    {in_words(row.printed)}"] + why + note + [f"    !! {each}" for each in row.differs]))
    for line in ends[0]:
        print(in_words(line))
    records, told = judge(rows, ends)
    print(f"{answers(records)} of the proved program: the model gives the same" + (f", and so does the text, which has {told}." if told else "."))


def draw_day(lines, name, svg=False, wrong=None):
    """Prints the day as a page, or as its drawing alone; fails as try does."""
    import day_text

    rows = read_text(lines, lambda row: row.fault, True)
    ends = ask_program(rows)
    page = day_text.page(rows, ends[0], name, wrong)
    print(page.svg() if svg else page.html(), end="")
    judge(rows, ends)


def answers(number):
    return "1 answer" if number == 1 else f"{number} answers"


def text_lines(file):
    """The lines of a text file, which is read whole."""
    try:
        return file.read().decode("utf-8-sig").splitlines()
    except UnicodeDecodeError as wrong:
        raise Wrong(f"this is no text, from byte {wrong.start} on; decode turns bytes into text") from None


OPTIONS = {"answers": "decode", "names": "decode", "short": "try", "svg": "picture", "wrong": "picture"}          # each with its command


def arguments():
    layout = argparse.RawDescriptionHelpFormatter
    usage = "tools/log.py try|picture|encode|decode|run|selftest [FILE]  (--help explains)"
    parser = argparse.ArgumentParser(description=__doc__, formatter_class=layout, usage=usage)
    parser.add_argument("command", choices=("try", "picture", "encode", "decode", "run", "selftest"), help=argparse.SUPPRESS)
    parser.add_argument("file", nargs="?", help=argparse.SUPPRESS)
    for option in OPTIONS:
        more = {} if option in ("names", "wrong") else {"action": "store_true"}
        parser.add_argument(f"--{option}", help=argparse.SUPPRESS, **more)
    asked = parser.parse_intermixed_args()
    for option, of in OPTIONS.items():
        if getattr(asked, option) and asked.command != of:
            parser.error(f"--{option} is an option of {of}, and not of {asked.command}")
    if asked.file and asked.command == "selftest":
        parser.error("selftest reads no file")
    return asked


def main():
    asked = arguments()
    if asked.command == "selftest":
        import selftest

        return selftest.main()
    words = ()
    if asked.names:
        with open(asked.names, "rb") as file:
            words = re.split(r"[\s=]+", "\n".join(text_lines(file)))
    with open(asked.file, "rb") if asked.file else sys.stdin.buffer as file:
        if asked.command == "try":
            return try_day(text_lines(file), asked.short)
        if asked.command == "picture":
            return draw_day(text_lines(file), asked.file, asked.svg, asked.wrong)
        if asked.command == "encode":
            sys.stdout.buffer.write(encode(text_lines(file)))
            return None
        data = file.read()
    for line in model.printed(data) if asked.command == "run" else decode(data, words, asked.answers):
        print(line)


if __name__ == "__main__":
    command.run("tools/log.py", main)
