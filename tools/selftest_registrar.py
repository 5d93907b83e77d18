"""The checks of tools/selftest.py on tools/registrar: its lessons, its lines, what it saves, and that a difference is seen."""

import contextlib
import glob
import io
import os
import pty
import subprocess
import tempfile
import time
from dataclasses import replace

import beside
import command
import log
import registrar
from beside import Modelled
from command import ROOT
from model import V6, Answer
from registrar import Session
from selftest_bounds import below, draws
from trying import NotRun, ended

LESSONS = os.path.join(ROOT, "tools/lessons")


def over_library():
    try:
        return beside.over_library()
    except command.Unable as missing:
        raise NotRun(missing) from None


def lines_of(path):
    with open(path, encoding="utf-8") as file:
        return file.read().splitlines()


def ran(lines, make=Modelled, short=False):
    """The session of these lines, what it printed, and the status."""
    session = Session(make, short)
    with contextlib.redirect_stdout(io.StringIO()) as printed:
        status = registrar.run_lines(session, lines)
    return session, printed.getvalue().splitlines(), status


# Lessons


SHOWN = {
    "full": ["WAIT 900000", "full: wait past every clock", "63 of 64 places", "ADS 10"],
    "leaving": ["DONE", "NO 17", "NO 6", "is withdrawn, and keeps its place", "but 1 withdrawn", "it is withdrawn already"],
    "afresh": ["WAIT 16462", "WAIT 68184", "lower bound 1 min 8.184 s, of which the larger counts", "NO 19", "NO 11"],
    "small": ["NO 20", "1 s after now", "1 ms more than thirty days", "but 1 with a stamp older than thirty days"],
    "ipv6": ["address likeness 126 of 128", "[2001:db8::1]:4001"],
    "newest": ["NEWEST 2", "NEWEST 1", "NEWEST 0", "in south, admitted at 5.001 s", "NO 3"],
    "tickets": ["NO 11", "NO 10", "it is for: /waku/store/1.0.0 peer=cid 203.0.113.5:4001", "NO 8", "WAIT 3657"],
}


def lessons():
    """Each lesson's stored output is the model's; its lines have the answers in them, all are right, and it shows what it is for."""
    found = sorted(glob.glob(os.path.join(LESSONS, "*.txt")))
    assert {os.path.basename(path)[: -len(".txt")] for path in found} == set(SHOWN)
    for path in found:
        session, printed, status = ran(lines_of(path))
        assert status == 0 and session.answers > 5, (path, printed[-1])
        assert printed == lines_of(path[: -len(".txt")] + ".out"), f"{path}: the stored output is another; tools/registrar --model {path} makes it"
        answers = " ".join(line.strip() for line in printed if line.startswith("    "))
        for words in SHOWN[os.path.basename(path)[: -len(".txt")]]:
            assert words in answers, (path, words)
        assert all("->" in line for line in lines_of(path) if line.split()[:1] and line.split()[0] in registrar.REQUESTS), path
    return len(found)


def lessons_by_the_library():
    """The proved library gives the stored outputs, but for the line that says whose answers these are; and the example day's answers."""
    make, answers = over_library(), 0
    for path in sorted(glob.glob(os.path.join(LESSONS, "*.txt"))) + [os.path.join(ROOT, "examples/market-day.txt")]:
        session, printed, status = ran(lines_of(path), make)
        assert status == 0, (path, [line for line in printed if "!!" in line or "??" in line])
        stored = path[: -len(".txt")] + ".out"
        if LESSONS in path:
            assert printed[:-1] == lines_of(stored)[:-1], path
        assert printed[-1] == f"{session.answers} answers of the proved library: the model gives the same."
        answers += session.answers
    return answers


def short():
    """--short leaves out why, and nothing else."""
    path = os.path.join(LESSONS, "tickets.txt")
    whole, brief = ran(lines_of(path))[1], ran(lines_of(path), short=True)[1]
    assert set(brief) < set(whole) and not any("crowd's factor" in line for line in brief) and len(whole) - len(brief) == 15


# Lines


BEFORE = ["open capacity=2", "bounded on places=1", "ask 0 vouched /a peer=ann 10.0.0.1:4001", "return due vouched /a peer=ann 10.0.0.1:4001"]
AD = "vouched /a peer=ben 192.0.2.7:4001"
BAD = [
    ("sell 5s /a", "a line starts with ask, return, list, withdraw, newest, open"), ("raw 00", "a line starts with"), (" -> OK", "an answer, and nothing"),
    ("advertiser 1 ask 0 " + AD, "a line starts with"), ("ask", "it is: ask CLOCK VOUCHED SERVICE peer=PEER A.B.C.D:PORT"), ("ask 5x " + AD, "a clock is in ms, or as 5s"),
    ("ask 5s maybe /a peer=ben 192.0.2.7:4001", "vouched, unvouched or vouched=N must stand where 'maybe' does"),
    ("ask 5s vouched /a ben 192.0.2.7:4001", "peer=PEER A.B.C.D:PORT"),
    ("ask 5s vouched /a peer=ben [2001:db8::1]:4001", "an address is A.B.C.D:PORT"), ("ask 5s " + AD + " ticket auto", "'ticket' does not belong here"),
    ("ask 5s " + AD + " stamp=x", "a stamp is in ms"), ("return due", "a return is: return CLOCK VOUCHED SERVICE peer=PEER A.B.C.D:PORT"),
    ("return due " + AD, "no ticket was issued to this peer for this service"), ("return 5s " + AD + " ticket of cid", "no ticket was issued to cid here"),
    ("return 5s " + AD + " ticket of", "ticket of PEER"), ("return due " + AD + " ticket none", "it needs a clock"),
    ("return 5s " + AD + " ticket first=0", "a ticket is auto, or first=N"),
    ("list 5s", "it is: list CLOCK SERVICE"), ("list 5s /a /b", "it is: list CLOCK SERVICE"), ("withdraw 5s vouched /a", "withdraw CLOCK VOUCHED SERVICE peer=PEER"),
    ("withdraw 5s vouched /a ann", "peer=PEER must stand where 'ann' does"), ("newest 5s /a registrar", "newest CLOCK SERVICE NAME NAME"),
    ("newest 5s /a registrar south", "no registrar is named 'south'; there is registrar"), ("use south", "no registrar is named 'south'"), ("use", "use NAME"),
    ("open capacity=0", "a capacity is a number from 1 to 1000, not '0'"), ("open capacity=1001", "from 1 to 1000"), ("open family=5", "a family is 4 or 6, not '5'"),
    ("open north places=3", "'places=3' does not belong here"), ("open 7", "a registrar's name is a letter and then"), ("open -> OK", "'open' has no answer"),
    ("window 0", "a window is from 1 ms to 1 min, not '0'"), ("window 61s", "from 1 ms to 1 min"), ("window", "window TIME"),
    ("bounded", "'bounded on' or 'bounded off'"), ("bounded on places=0", "places for lower bounds is a number from 1 to 1000"),
    ("bounded off places=1", "'places=1' does not belong here"), ("small perhaps", "'small on' or 'small off'"),
    ("fill 2 service=/a", "what can be filled is a number from 1 to 1, not '2'"), ("fill 1", "fill NUMBER service=SERVICE"), ("fill service=/a", "fill NUMBER"), ("fill", "fill NUMBER"), ("fill x service=/a", "from 1 to 1"),
    ("fill 1 service=/a clock=0", "the clock is from 1 ms on"), ("key", "key NAME"), ("key " + "0" * 63, "a key must be 64 hex digits or a name"),
    ("show me", "'show' stands alone"), ("quit it", "'quit' stands alone"), ("save", "save FILE"),
    ("save no/such/folder/day.txt", "cannot be written: No such file"), ("save " + ROOT, "is there already"), ("save /dev/full", "is there already"),
    ("list 5s /a\u2013b", "- is meant"),
]


def state(session):
    """What a line can change: of each registrar, and of the session."""
    registrars = {}
    for name, each in session.opened.items():
        lent, given = (each.ours.cache(), each.ours.bounds()), (each.bounded, each.theirs.window, each.theirs.small, each.theirs.key)
        registrars[name] = lent, given, dict(each.latest), dict(each.latest_of)
    return registrars, session.name, list(session.lines), session.answers


def bad_lines():
    """Each is named with what was expected, changes nothing, and gives a file's status 1."""
    session, _, status = ran(BEFORE)
    assert status == 0
    for line, said in BAD:
        before = state(session)
        with contextlib.redirect_stdout(io.StringIO()) as printed:
            session.heed(line)
        words = printed.getvalue()
        assert words.startswith("    ?? ") and said in words and words.endswith(". Nothing has changed.\n") and state(session) == before, (line, words)
    assert session.bad == len(BAD) and ran([*BEFORE, "sell"])[2] == 1
    more = [("small on", "a small registrar has at most 64 places, and this one 256"), ("list 0 /a -> ADS 1", "expects ADS 1, and the answer is ADS 0")]
    for line, said in more:
        _, printed, status = ran([line])
        assert status == 1 and any(said in each for each in printed), printed
    _, printed, _ = ran(["open capacity=1", "small on", "window 5s", "fill 1 service=/a", "fill 1 service=/a"])
    assert any("a small registrar's window is 10 s" in line for line in printed) and any("all of the 1 places are taken" in line for line in printed)
    return len(BAD) + 5


def changed_words():
    """The lessons' lines with a word left out, doubled or put in another's place: each is answered, or named as bad."""
    lines = [line.split() for path in sorted(glob.glob(os.path.join(LESSONS, "*.txt"))) for line in lines_of(path) if line and line[0] != "#"]
    source, session = draws("changed words"), Session(Modelled)
    with contextlib.redirect_stdout(io.StringIO()):
        for words in lines * 20:
            at, other = below(source, len(words)), lines[below(source, len(lines))]
            put = [[], [words[at]] * 2, [other[below(source, len(other))]]][below(source, 3)]
            session.heed(" ".join(words[:at] + put + words[at + 1 :]))
    assert session.bad > len(lines) and session.answers > len(lines), (session.bad, session.answers)
    return 20 * len(lines)


def filled():
    """Filled entries are a cache that the model takes for well formed, and no two are of one peer, also where some have expired since."""
    for family in (4, 6):
        session, _, status = ran([f"open capacity=4 family={family}", "fill 1 service=/a", "fill 3 service=/a clock=5s", "fill 1 service=/a clock=15m", "show"])
        kept = session.here.theirs.registrar()
        assert status == 0 and (len(kept.entries), kept.confirmed, kept.expired) == (4, 5, 1)
        assert len({entry.ad.peer for entry in kept.entries}) == len({entry.ad.address for entry in kept.entries}) == 4
        session, _, status = ran([f"open capacity=1000 family={family}", "fill 1000 service=/a"])
        assert status == 0 and len({entry.ad.address for entry in session.here.theirs.registrar().entries}) == 1000
    return 4


def help_fits():
    _, printed, _ = ran(["help"])
    assert len(printed) - 1 <= 24 and max(map(len, printed)) <= 80
    for verb in registrar.REQUESTS + registrar.SETTINGS + registrar.OTHERS:
        assert any(verb in line for line in printed[1:-1]), verb


OF_A_LOG = [
    *BEFORE[2:], f"ask 1s {AD}", f"return 1s {AD} ticket of ben", f"return due {AD} # back", f"return 9s {AD} ticket none", "list 9s /a",
]


def saved():
    """What was saved gives the same answers again, and to tools/log.py where it has a log's lines alone; no other file is written over."""
    days = [OF_A_LOG] + [lines_of(os.path.join(LESSONS, f"{name}.txt")) for name in ("tickets", "leaving", "afresh", "newest")]
    with tempfile.TemporaryDirectory() as folder:
        path = os.path.join(folder, "day.txt")
        for lines in days:
            session, printed, status = ran([*lines, f"save {path}"])
            assert status == 0 and ("tools/log.py try takes it too" in printed[-2]) == (lines is OF_A_LOG), printed[-2]
            again, _, status = ran(lines_of(path))
            assert status == 0 and again.lines[1:] == session.lines and state(again)[0] == state(session)[0]
            if lines is OF_A_LOG:
                assert log.encode(lines_of(path))
        other = os.path.join(folder, "other.txt")
        with open(other, "w", encoding="utf-8") as file:
            file.write("mine\n")
        assert ran([f"save {other}"])[2] == 1 and lines_of(other) == ["mine"]
    return len(days) + 1


# Differences


class OtherWait(Modelled):
    def register(self, clock, ad, vouched, ticket=b""):
        answer = super().register(clock, ad, vouched, ticket)
        return replace(answer, number=answer.number + 1) if answer.word == "WAIT" else answer


class OtherTicket(Modelled):
    def register(self, clock, ad, vouched, ticket=b""):
        answer = super().register(clock, ad, vouched, ticket)
        return replace(answer, ticket=replace(answer.ticket, first=answer.ticket.first + 1)) if answer.ticket else answer


class OtherCache(Modelled):
    def withdraw(self, clock, service, peer, vouched):
        return Answer("DONE")


class OtherList(Modelled):
    def get_ads(self, clock, service):
        return replace(super().get_ads(clock, service), ads=())


class OtherNewest(Modelled):
    def newest(self, other, clock, service):
        which, entry = super().newest(other, clock, service)
        return which, replace(entry, accepted=entry.accepted + 1)


class OtherBounds(Modelled):
    def register_bounded(self, clock, ad, vouched, ticket=b""):
        before = self.bound_octets
        answer = super().register_bounded(clock, ad, vouched, ticket)
        self.bound_octets = before
        return answer


WRONG = [
    (OtherWait, BEFORE[2], "the library answers WAIT 2, the model WAIT 1"),
    (OtherTicket, BEFORE[2], "first=1"),
    (OtherList, "list 1s /a", "the library answers Answer(word='ADS', number=1, ticket=None, ads=()"),
    (OtherCache, "withdraw 1s vouched /a peer=ann", "another cache"),
    (OtherNewest, "newest 1s /a registrar registrar", "accepted=2"),
    (OtherBounds, "ask 1s " + AD, "other lower bounds"),
]


def differences():
    """Where a registrar answers other than the model, or leaves another cache, both are shown, and the status is 1."""
    for wrong, line, said in WRONG:
        start = {OtherWait: [], OtherTicket: [], OtherBounds: ["bounded on"]}.get(wrong, BEFORE[2:])
        session, printed, status = ran([*start, line], wrong)
        assert status == 1 and session.differ and any("!!" in each and said in each for each in printed), (wrong, printed)
    return len(WRONG)


# Drawn sessions, and the tool as a command


def drawn_line(source, clock, family):
    """Any line, at this clock; some are bad."""
    name, who, place = "/a /b".split()[below(source, 2)], "ann ben cid".split()[below(source, 3)], below(source, 3) + 1
    address = f"[2001:db8::{place}]:4001" if family == 6 else f"{place * 60}.0.0.1:4001"
    ad = f"{'vouched' if below(source, 9) else 'unvouched'} {name} peer={who} {address}" + (f" stamp={clock + below(source, 3) - 1}" if below(source, 2) else "")
    ticket = ["", "", " ticket none", " ticket of ben", " ticket auto first=0", f" ticket first=0 issued={clock - 1} wait=1"][below(source, 6)]
    two = "north south" if below(source, 2) else "south north"
    lines = [
        f"ask {clock} {ad}", f"ask {clock} {ad}", f"return {clock} {ad}{ticket}", f"return due {ad}{ticket}",
        f"return {clock} {ad} ticket first=0 issued={clock - 1} wait=1", f"list {clock} {name}", f"withdraw {clock} vouched {name} peer={who}",
        f"newest {clock} {name} {two}", f"bounded {'on' if below(source, 3) else 'off'}", f"small {'on' if below(source, 2) else 'off'}",
        f"fill {1 + below(source, 2)} service={name} clock={clock}", f"use {two.split()[0]}", f"window {1 + below(source, 9)}s", "show",
    ]
    return lines[below(source, len(lines))]


def drawn_sessions():
    """Lines at random, on two registrars of both families: the library answers as the model does."""
    make, answers, words = over_library(), 0, set()
    for number in range(6):
        source = draws(f"registrar {number}")
        session, clock = Session(make), 3_000_000_000
        with contextlib.redirect_stdout(io.StringIO()) as printed:
            for line in (f"open north capacity={1 + below(source, 5)}", f"open south capacity={3 + below(source, 60)} family=6"):
                session.heed(line)
            for _ in range(150):
                clock += (0, 1, 5_000, 300_000)[below(source, 4)]
                session.heed(drawn_line(source, clock, 6 if session.here.theirs.family == V6 else 4))
        assert not session.differ, [line for line in printed.getvalue().splitlines() if "!!" in line]
        words |= {line.partition(" -> ")[2].split()[0] for line in session.lines if " -> " in line}
        answers += session.answers
    assert words == {"OK", "WAIT", "NO", "DONE", "ADS", "NEWEST"}, words
    return answers


def as_a_command():
    """Through a pipe each line is shown and the status is right; what is missing is said in a sentence; at a terminal there is a prompt."""
    over_library()
    lesson = os.path.join(LESSONS, "full.txt")
    with open(lesson, "rb") as file:
        text = file.read()
    first, second = ended(["registrar", lesson]), ended(["registrar"], text)
    assert first == second and first[0] == 0 and not first[2] and text.splitlines()[0] in first[1]
    assert ended(["registrar"], b"sell\n")[0] == 1
    assert ended(["registrar"], b"quit\nsell\n")[:2] == (0, b"quit\n0 answers of the proved library: the model gives the same.\n")
    assert ended(["registrar", "no/such/file"])[0] == 2 and ended(["registrar"], b"\xff")[0] == 1
    status, out, err = ended(["registrar", lesson], more={"CC": "no-such-compiler"})
    assert status == 2 and not out and b"there is no 'no-such-compiler'" in err
    assert ended(["registrar", "--model", lesson], more={"CC": "no-such-compiler"})[0] == 0
    status, shown = at_a_terminal(b"list 0 /a\nsell\nquit\n")
    assert status == 0 and b"registrar> " in shown and b"0 ADS 0: no advertisements are listed" in shown and b"?? a line starts with" in shown, shown
    return 8


def at_a_terminal(typed):
    """The status of the tool at a terminal, and what is seen there."""
    mine, its = pty.openpty()
    with subprocess.Popen([os.path.join(ROOT, "tools/registrar")], stdin=its, stdout=its, stderr=its) as tool:
        os.close(its)
        os.write(mine, typed)
        shown = b""
        with contextlib.suppress(OSError):
            while piece := os.read(mine, 4096):
                shown += piece
    os.close(mine)
    return tool.returncode, shown


def quick():
    """An answer takes well under a tenth of a second, of the processor's time, in the largest registrar there is too."""
    session = Session(over_library())
    with contextlib.redirect_stdout(io.StringIO()):
        for line in ("open capacity=1000 family=6", "bounded on places=1000", "fill 999 service=/a"):
            session.heed(line)
        for line in ("ask 1s vouched /a peer=ben [2001:db8::5]:4001", "list 1s /a", "withdraw 1s vouched /a peer=filled-500"):
            start = time.process_time()
            session.heed(line)
            assert time.process_time() - start < 0.1, line
    assert session.answers == 3 and not session.differ


CHECKS = [
    ("tools/registrar, its lessons", lessons),
    ("tools/registrar, its lessons by the library", lessons_by_the_library),
    ("tools/registrar, without why", short),
    ("tools/registrar, bad lines", bad_lines),
    ("tools/registrar, lines with a word changed", changed_words),
    ("tools/registrar, filled places", filled),
    ("tools/registrar, help", help_fits),
    ("tools/registrar, what is saved", saved),
    ("tools/registrar, differences", differences),
    ("tools/registrar, drawn sessions", drawn_sessions),
    ("tools/registrar as a command", as_a_command),
    ("tools/registrar, how quick it is", quick),
]
