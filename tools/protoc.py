#!/usr/bin/env python3
"""Compares Advertisement messages with those of protoc, the Protocol Buffers compiler.

    tools/protoc.py             some hundreds of advertisements, both ways
    tools/protoc.py --store     the same, and writes host/rust/tests/protoc.txt anew

What the library writes must be what `protoc --encode` makes of the same fields, `protoc --decode` must find these fields in
it, and the library must read protoc's message as the advertisement. A timestamp of 0 is left out by protoc, and the
library refuses that message (15). The stored file has messages of protoc, which the tests of host/rust hold the library to,
so that nobody else needs protoc.

It wants protoc (Debian: apt-get update && apt-get install protobuf-compiler), a C compiler, and the library of
`tools/build unglassot`. Status: 0 all is the same, 1 something is not, 2 it could not be tried.
"""

import argparse
import os
import random
import re
import shutil
import subprocess
import sys
import tempfile
from dataclasses import dataclass

sys.dont_write_bytecode = True
sys.path.insert(0, os.path.dirname(os.path.realpath(__file__)))

from command import ROOT, Failed, Unable, run

STORED = "host/rust/tests/protoc.txt"
LAST_SECOND = 1_099_511_627  # of the clock
EPOCHS = (0, 1, 127, 128, 1_767_225_600, 2**33 - 1)  # in Unix seconds
HOW_MANY = 300
HOW_MANY_STORED = 60

# Source 000's field numbers; the words are ours.
PROTO = """\
syntax = "proto3";

// An advertiser offers a service at its addresses.
message Advertisement {
  bytes service_id_hash = 1;  // 32 bytes
  bytes peerID = 2;           // 32 bytes
  repeated bytes addrs = 3;   // multiaddrs
  bytes signature = 4;        // 64 bytes
  optional bytes metadata = 5;
  uint64 timestamp = 6;       // Unix seconds
}
"""


@dataclass
class Ad:
    service: bytes
    peer: bytes
    address: bytes
    port: int
    stamp: int  # milliseconds since the epoch
    signature: bytes

    def record(self):
        """Kind 1, 143 bytes (document 01, "Records")."""
        return b"\1" + self.service + self.peer + self.address + self.port.to_bytes(2, "big") + self.stamp.to_bytes(8, "big") + self.signature

    def multiaddr(self):
        return b"\4" + self.address + b"\6" + self.port.to_bytes(2, "big")

    def fields(self, epoch):
        """As protoc shows them; a timestamp of 0 is not shown."""
        second = epoch + self.stamp // 1000
        found = {"service_id_hash": self.service, "peerID": self.peer, "addrs": self.multiaddr(), "signature": self.signature}
        return found | ({"timestamp": second} if second else {})


def some_ads(count):
    """Seeded, so that a difference comes again. The first stand at edges."""
    source = random.Random(6)
    seconds = [0, 1, 127, 128, 16_383, 16_384, LAST_SECOND]
    for place in range(count):
        second = seconds[place] if place < len(seconds) else source.randrange(LAST_SECOND + 1)
        port = source.choice((1, 255, 256, 443, 65_535, source.randrange(1, 65_536)))
        yield EPOCHS[place % len(EPOCHS)], Ad(source.randbytes(32), source.randbytes(32), source.randbytes(4), port, second * 1000, source.randbytes(64))
    for epoch in EPOCHS:
        yield epoch, Ad(bytes(32), bytes(32), bytes(4), 1, 0, bytes(64))


class Protoc:
    """The compiler, with the message's description in a folder of its own."""

    def __init__(self, folder):
        if not shutil.which("protoc"):
            raise Unable("protoc is not on the PATH (Debian: apt-get update && apt-get install protobuf-compiler)")
        self.folder = folder
        with open(os.path.join(folder, "advertisement.proto"), "w", encoding="utf-8") as file:
            file.write(PROTO)

    def run(self, what, given):
        words = ["protoc", f"--{what}=Advertisement", f"--proto_path={self.folder}", "advertisement.proto"]
        done = subprocess.run(words, input=given, stdout=subprocess.PIPE, stderr=subprocess.PIPE)
        if done.returncode:
            raise Failed(f"protoc --{what}: {done.stderr.decode(errors='replace').strip()}")
        return done.stdout

    def encode(self, fields):
        def shown(value):
            return str(value) if isinstance(value, int) else '"' + "".join(f"\\{byte:03o}" for byte in value) + '"'

        return self.run("encode", "".join(f"{name}: {shown(value)}\n" for name, value in fields.items()).encode())

    def decode(self, message):
        found = {}
        for line in self.run("decode", message).decode("latin-1").splitlines():
            name, value = line.split(": ", 1)
            if name in found:
                raise Failed(f"protoc shows {name} twice")
            found[name] = unquoted(value) if value.startswith('"') else int(value)
        return found


ESCAPES = {"n": 10, "r": 13, "t": 9, '"': 34, "'": 39, "\\": 92}


def unquoted(text):
    """The bytes of a quoted text as protoc shows them."""
    pieces = re.findall(r"\\([0-7]{3}|.)|([^\\])", text[1:-1], re.DOTALL)
    return bytes(ord(plain) if plain else int(escape, 8) if escape[0] in "01234567" else ESCAPES[escape] for escape, plain in pieces)


class Library:
    """The library, by tools/messages.c."""

    def __init__(self, folder):
        archive = os.path.join(os.environ.get("UNGLASSOT_LIB_DIR") or os.path.join(ROOT, "target/staticlib"), "libunglassot.a")
        if not os.path.exists(archive):
            raise Unable(f"{archive} is missing: tools/build unglassot")
        program = os.path.join(folder, "messages")
        words = [os.environ.get("CC", "cc"), "-std=c99", "-Wall", "-Wextra", "-Wpedantic", "-Werror", "-O2", "-I" + os.path.join(ROOT, "host/include")]
        done = subprocess.run(words + [os.path.join(ROOT, "tools/messages.c"), archive, "-o", program], stderr=subprocess.PIPE, text=True)
        if done.returncode:
            raise Unable(done.stderr.strip())
        self.program = subprocess.Popen([program], stdin=subprocess.PIPE, stdout=subprocess.PIPE, text=True)

    def ask(self, what, epoch, given):
        self.program.stdin.write(f"{what} {epoch} {given.hex()}\n")
        self.program.stdin.flush()
        answer, _, gave = self.program.stdout.readline().strip().partition(" ")
        return int(answer), bytes.fromhex(gave)

    def close(self):
        self.program.stdin.close()
        self.program.wait()


def compare(protoc, library, epoch, ad):
    """protoc's message, after it was compared; None for a timestamp of 0, which protoc leaves out."""
    about = f"epoch {epoch}, ad {ad.record().hex()}"
    length, ours = library.ask("write", epoch, ad.record())
    theirs = protoc.encode(ad.fields(epoch))
    if length != len(ours) or protoc.decode(ours) != ad.fields(epoch):
        raise Failed(f"protoc reads other fields in {ours.hex()}: {about}")
    if epoch + ad.stamp // 1000 == 0:
        # the library writes the field, which protoc takes as what it leaves out itself
        if ours != theirs + b"\x30\x00" or library.ask("read", epoch, theirs)[0] != -15:
            raise Failed(f"a timestamp that is left out is not refused 15: {about}")
        return None
    if ours != theirs:
        raise Failed(f"{ours.hex()} is written, not {theirs.hex()}: {about}")
    if library.ask("read", epoch, theirs) != (0, ad.record()):
        raise Failed(f"{theirs.hex()} is not read: {about}")
    return theirs


def compare_all(folder):
    protoc, library = Protoc(folder), Library(folder)
    stored, left_out = [], 0
    try:
        for place, (epoch, ad) in enumerate(some_ads(HOW_MANY)):
            message = compare(protoc, library, epoch, ad)
            left_out += message is None
            if place < HOW_MANY_STORED or place >= HOW_MANY:
                theirs = message or protoc.encode(ad.fields(epoch))
                stored.append(f"{epoch} {ad.record().hex()} {theirs.hex()}{'' if message else ' 15'}\n")
        metadata = protoc.encode(ad.fields(epoch) | {"metadata": b"m"})
        if library.ask("read", epoch, metadata)[0] != -15:
            raise Failed("a message with metadata is not refused 15")
        stored.append(f"{epoch} {ad.record().hex()} {metadata.hex()} 15\n")
    finally:
        library.close()
    print(f"{HOW_MANY + len(EPOCHS)} advertisements are the same both ways; {left_out} of them with a timestamp of 0, which protoc leaves out: refused 15.")
    return stored


def main():
    layout = argparse.RawDescriptionHelpFormatter
    parser = argparse.ArgumentParser(description=__doc__, formatter_class=layout, usage="tools/protoc.py [--store]")
    parser.add_argument("--store", action="store_true", help="write the stored messages anew")
    asked = parser.parse_args()
    with tempfile.TemporaryDirectory(prefix="protoc.") as folder:
        stored = compare_all(folder)
    version = subprocess.run(["protoc", "--version"], stdout=subprocess.PIPE, text=True).stdout.strip()
    head = "# Messages of protoc --encode, written by tools/protoc.py --store: the epoch, an advertisement's record, the message of its\n"
    head += f"# fields, and 15 where that message is refused, since it has no timestamp or has metadata. {version}.\n"
    text = head + "".join(stored)
    path = os.path.join(ROOT, STORED)
    if asked.store:
        with open(path, "w", encoding="utf-8") as file:
            file.write(text)
        print(f"{len(stored)} of them are stored in {STORED}.")
    else:
        with open(path, encoding="utf-8") as file:
            if [line for line in file if not line.startswith("#")] != stored:
                raise Failed(f"{STORED} has other messages: tools/protoc.py --store")
        print(f"{len(stored)} of them are those of {STORED}.")


if __name__ == "__main__":
    run("tools/protoc.py", main)
