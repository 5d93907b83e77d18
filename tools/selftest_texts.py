"""The checks of tools/selftest.py on what people write and read: texts, options, terminals and why a request is answered so."""

import os
import sys

import model
import reasons
from command import ROOT
from model import Ad, Entry, Registrar
from trying import ended, program, tried


def from_a_word_processor():
    """A byte order mark and a typographic arrow are taken; other letters that are no ASCII are named, with the line. Comments may have any."""
    plain = "key k\nlist 5s /a -> ADS 0\n".encode()
    taken = ["\ufeffkey k\nlist 5s /a -> ADS 0\n", "key k # schl\u00fcssel \u2013\nlist 5s /a \u2192 ADS 0\n"]
    taken += ["key k\nlist\u00a05s /a \u2013> ADS 0\n", "key k\r\nlist 5s /a \uf0e0 ADS 0\r\n"]
    for text in taken:
        assert ended(["log.py", "encode"], text.encode()) == ended(["log.py", "encode"], plain), text
    named = [("list 5s /a\u2013b", "en dash", "- is meant"), ("list 5s /\u201ca\u201d", "left double quotation mark", '" is meant')]
    named += [("list 5s /\u00e4", "latin small letter a with diaeresis", "is not ASCII"), ("list 5s /a \u2192", "rightwards arrow", "-> is meant")]
    named += [("list 5s /a -> ADS\u20090 \u2014", "em dash", "- is meant")]
    for line, letter, said in named:
        status, out, err = ended(["log.py", "encode"], f"key k\n{line}\n".encode())
        assert status == 1 and not out and letter in err.decode() and said in err.decode() and line.split()[0] in err.decode(), (line, err)
    status, out, err = ended(["log.py", "encode"], b"key k\nsell 5s /a\n")
    assert err.decode().split("\n")[1].endswith("    sell 5s /a"), err
    return len(taken) + len(named) + 1


def poor_terminals():
    """Without UTF-8 the tools print what they can, and no traceback."""
    poor = {"LC_ALL": "C", "PYTHONUTF8": "0", "PYTHONCOERCECLOCALE": "0"}
    text = "key k\nlist 5s /a # \u2192 \u03bb\nlist 5s /\u00e4\n".encode()
    assert ended(["log.py", "encode"], text, more=poor)[0] == 1
    # no prover is on this PATH, so that only what is shown before it is asked is printed
    assert ended([sys.executable, os.path.join(ROOT, "tools/wrong.py"), "expired_listed"], more={**poor, "PATH": ""})[0] == 2
    for words in (["wrong"], ["wrong", "--all"], ["log.py", "--help"], ["pages.py"]):
        assert ended(words, more=poor)[0] == 0, words
    if os.path.exists(os.path.join(ROOT, "crates/register_log/out/register_log")):
        status, out, _ = ended(["log.py", "try"], text.replace(b"list 5s /\xc3\xa4\n", b""), more=poor)
        assert status == 0 and b"# ? ?" in out, out
    return 7


def singular():
    program("register_log")
    assert "\n1 answer of the proved program" in tried(["key k", "list 1 /a"]) and "\n2 answers of" in tried(["key k", "list 1 /a", "list 1 /a"])
    assert "\n0 answers of" in tried(["key k"])


WHY = """\
key k
ask 0 vouched /a peer=alice 10.0.0.1:4001
return due vouched /a peer=alice 10.0.0.1:4001 ticket auto
ask 0 vouched /a peer=bob 192.0.2.7:4001
ask 1099511627780 vouched /a peer=bob 192.0.2.7:4001
ask 5s vouched /a peer=alice 10.0.0.1:4001
ask 5s vouched /a peer=carol 10.0.0.2:4001
return 894776 vouched /a peer=carol 10.0.0.2:4001 ticket first=5s issued=5s wait=889777
return 894776 vouched /a peer=carol 10.0.0.2:4001 ticket first=5s issued=5s wait=1
return 894776 vouched /a peer=carol 10.0.0.2:4001 ticket first=5s issued=15m wait=1
return 894776 vouched /a peer=carol 10.0.0.2:4001 ticket first=5s issued=4s wait=1
return 894776 vouched /a peer=carol 10.0.0.2:4001 ticket first=5s issued=5s wait=0
list 894776 /a
list 15m1ms /a
"""
# 900,000 * (256/255)^10 * (1/256 + 30/32 + 1/10^7) is 881,084.34; the other waits are the least there is.
WHYS = [
    "0 of 256 places are taken, 0 by this service; address likeness 0 of 32; crowd's factor 1: wait 1 ms, stayed 0 ms, left 1 ms",
    "0 of 256 places are taken, 0 by this service; address likeness 0 of 32; crowd's factor 1: wait 1 ms, stayed 1 ms, which is enough",
    "1 ms too early: an earlier request came at 1 ms",
    "5 ms past the last clock there is",
    "it came in at 1 ms and stays until 15 min 0.001 s",
    "1 of 256 places is taken, 1 by this service; address likeness 30 of 32; crowd's factor 1.04: wait 14 min 41.085 s, stayed 0 ms, left 14 min 41.085 s",
    "1 ms too early: the ticket is due at 14 min 54.777 s",
    "14 min 39.775 s too late: the ticket was good from 5.001 s to 15.001 s",
    "it was issued at 15 min, 5.224 s from now",
    "it was issued at 4 s, 1 s before its first request",
    "its wait is 0 ms, which is not from 1 ms to 15 min",
    "1 held, 1 of them live, 1 of these of this service",
    "1 held, 0 of them live, 0 of these of this service",
]


def reasons_told():
    """tools/log.py try says why, below each answer that does not say it by itself, and --short leaves that out."""
    program("register_log")
    told = [line.strip() for line in tried(WHY.splitlines()).split("\n") if line.startswith(" " * 8)]
    assert told == [line for why in WHYS for line in reasons.wrapped(why)], told
    assert not any(line.startswith(" " * 8) for line in tried(WHY.splitlines(), short=True).split("\n"))
    # a full cache, a wait past every clock in one that is not full, more than fifteen minutes left, and a crowd's factor in thousands
    never = "wait past every clock, stayed 1 h; a ticket tells 15 min at most"
    cases = [((2, 2, 0, 0), f"2 of 2 places are taken, 0 by this service; address likeness 0 of 32; full: {never}")]
    crowd = "999 of 1000 places are taken, 0 by this service; address likeness 0 of 32; crowd's factor 1" + ",000" * 10
    cases += [((1000, 999, 0, 0), f"{crowd}: {never}")]
    like = "1 of 2 places is taken, 0 by this service; address likeness 32 of 32; crowd's factor 1,024"
    cases += [((2, 1, 0, 32), f"{like}: wait 256 h 0.093 s, stayed 1 h, left 255 h 0.093 s; a ticket tells 15 min at most")]
    for counts, words in cases:
        said = reasons.of_wait(model.Counts(*counts, 32), 3_600_000)
        assert said == words, said
    registrar = Registrar(bytes(32))
    registrar.entries = [Entry(0, Ad(bytes(32), bytes([each] * 32), 0, 1, 0, bytes(64))) for each in range(12)]
    assert reasons.of_listing(registrar, 1, bytes(32)) == "12 held, 12 of them live, 12 of these of this service, of which the 10 oldest are listed"
    visits = [f"advertiser 7 {words} vouched /a peer=alice 10.0.0.1:4001" for words in ("ask 15m", "return 15m", "return 901002")]
    recorded = tried(["key k"] + visits)
    assert "1 ms too early: the ticket is due at 15 min 0.001 s" in recorded
    assert "1 ms too late: the ticket was good from 15 min 0.001 s to 15 min 1.001 s" in recorded
    return len(WHYS) + len(cases) + 3


def due_goes_back():
    """A return that is due before the line above is noted, by try and by encode."""
    text = ["key k", "ask 0 vouched /a peer=alice 10.0.0.1:4001", "list 5s /a", "return due vouched /a peer=alice 10.0.0.1:4001 ticket auto"]
    status, out, err = ended(["log.py", "encode"], "\n".join(text).encode())
    assert status == 0 and len(out) == 32 + 152 + 41 + 240 and b"line 4: due at 1 ms, which is 4.999 s before the line above" in err, err
    recorded = ["key k", "advertiser 1 ask 0 vouched /a peer=alice 10.0.0.1:4001", "advertiser 2 ask 5s vouched /b peer=bob 192.0.2.7:4001"]
    recorded += ["advertiser 1 return due vouched /a peer=alice 10.0.0.1:4001"]
    assert b"line 4: due at 1 ms" in ended(["log.py", "encode"], "\n".join(recorded).encode())[2]
    assert not ended(["log.py", "encode"], "\n".join(text[:2] + text[3:]).encode())[2]
    program("register_log")
    assert "note: due at 1 ms, which is 4.999 s before the line above" in tried(text)


def without_a_key():
    """A text without a key is an error, also where it has comments; raw bytes in place of a key are not."""
    for text in (b"", b"\n", b"# nothing\n", b"\n   # nothing\n\n"):
        for word in ("encode", "try"):
            status, out, err = ended(["log.py", word], text)
            assert status == 1 and not out and b"there is no key" in err, (text, word, err)
    assert ended(["log.py", "encode"], b"raw -\n") == (0, b"", b"") and ended(["log.py", "encode"], b"raw 0001\n") == (0, b"\0\1", b"")
    assert ended(["log.py", "decode"], b"")[1] == b"# STOP: a short key\nraw -\n"
    return 11


def options():
    """Options stand before a file as well as behind it, and one that does not apply is refused."""
    day, names = os.path.join(ROOT, "crates/replay/stdin"), os.path.join(ROOT, "crates/replay/day.txt")
    for given in (["--answers"], ["--names", names], ["--answers", "--names", names]):
        behind, before = ended(["log.py", "decode", day] + given), ended(["log.py", "decode"] + given + [day])
        assert behind == before and behind[0] == 0 and behind[1], given
    refused = [["try", "--answers"], ["try", "--names", names], ["encode", "--answers"], ["run", "--names", names]]
    refused += [["decode", "--short"], ["run", "--short"], ["selftest", day]]
    for words in refused:
        status, out, err = ended(["log.py"] + words, b"")
        assert status == 2 and not out and b"Traceback" not in err, words
    return 6 + len(refused)


CHECKS = [
    ("texts from a word processor", from_a_word_processor),
    ("terminals without UTF-8", poor_terminals),
    ("one answer, two answers", singular),
    ("why a request is answered so", reasons_told),
    ("a return that is due before the line above", due_goes_back),
    ("a text without a key", without_a_key),
    ("options of tools/log.py", options),
]
