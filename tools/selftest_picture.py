"""The checks of tools/selftest.py on the picture of a day: what is in it, that it can be read, and that what is stored is what is made."""

import contextlib
import glob
import io
import os
import re
import tempfile
import time
from dataclasses import replace
from functools import cache
from unittest import mock
from xml.etree import ElementTree

import command
import day
import day_page
import day_picture
import day_text
import log
import model
import registrar
import svg
import wrong_run
from beside import Modelled
from command import ROOT
from model import LIFETIME, RECORDED_WINDOW, USUAL_WINDOW
from selftest_bounds import below, draws
from trying import ended, program

LEAST = 8               # points: no letter is smaller as printed
STORED = {"docs/DAY.svg": ["--svg"], "docs/DAY.html": []}
SHOWN = "examples/market-day.txt"
STORED_DAYS = {"crates/register_log/day.txt": USUAL_WINDOW, "crates/replay/day.txt": RECORDED_WINDOW}
NAME = "{http://www.w3.org/1999/xhtml}"
DRAWN = "{http://www.w3.org/2000/svg}"
ODD = ("key k # <&> \u00fc", f"ask 0 vouched /{'wide' * 60} peer={'ab' * 32} 203.113.113.113:40001", "list 9 /<b>&\"c'")
SERVICES = ("/waku/store/1.0.0", "/libp2p/mix/1.2.0", "/example/third/1.0.0")


def lines_of(path):
    with open(os.path.join(ROOT, path), encoding="utf-8") as file:
        return file.read().splitlines()


# Days


def crowded(advertisers):
    """A day of so many, who come within some seconds of each other, and back: when they are due, late in the window, too late, or not at all."""
    source, lines = draws(f"crowded {advertisers}"), ["key crowded"]
    for number in range(advertisers):
        clock = LIFETIME + 4_000 * number
        ad = f"vouched {SERVICES[below(source, 3)]} peer=peer{number} {'.'.join(str(below(source, 256)) for _ in range(4))}:4001"
        lines.append(f"ask {clock} {ad}")
        if below(source, 4):
            lines.append(f"return {clock + 2} {ad} ticket first=0 issued={clock + 1} wait=1")
        if number % 20 == 0:
            lines.append(f"list {clock + 3} {SERVICES[0]}")
    return lines


def by_the_model(data):
    return list(model.printed(data))


def rows_of(lines):
    """Rows that the model answered in the program's place, and what stands behind them."""
    with mock.patch.object(log, "proved_lines", by_the_model):
        rows = log.read_text(lines, lambda row: row.fault, True)
        return rows, log.ask_program(rows)[0]


@cache
def page_of(name):
    """Of a stored day, of a crowd of so many, or of these lines."""
    lines = crowded(name) if isinstance(name, int) else lines_of(name) if isinstance(name, str) else name
    return day_text.page(*rows_of(lines), None)


@cache
def page_of_lesson(path):
    """The session, and its page."""
    session = registrar.Session(Modelled)
    with tempfile.TemporaryDirectory() as folder, contextlib.redirect_stdout(io.StringIO()):
        page = os.path.join(folder, "day.html")
        for line in [*lines_of(path), f"picture {page}"]:
            session.heed(line)
        with open(page, encoding="utf-8") as file:
            return session, file.read()


@cache
def pages():
    """Pages of every kind, each as text and as a tree, with how many records it has."""
    drawn = [page_of(name) for name in (SHOWN, *STORED_DAYS, 3, 30, 300, ODD, ODD[:2])]
    told = [(page.html(), len(page.days[0].visits)) for page in drawn]
    for path in sorted(glob.glob(os.path.join(ROOT, "tools/lessons/*.txt"))):
        session, text = page_of_lesson(path)
        told.append((text, session.answers))
    return [(text, ElementTree.fromstring(text), records) for text, records in told]


# What is in a page


def every_record():
    """A page is well formed, loads nothing, and has every record once as a mark and once in the list."""
    count = 0
    for text, tree, records in pages():
        assert tree.tag == f"{NAME}html" and text.isascii()
        loads = re.findall(r"(?:href|src|@import|<script|url\((?!#(?:waiting|unlisted)\)))", re.sub(r"<title>.*?</title>|<code>.*?</code>", "", text, flags=re.DOTALL))
        assert not loads, loads
        wanted = [str(number) for number in range(1, records + 1)]
        marks = sorted((each.get("id") for each in tree.iter(f"{DRAWN}g") if each.get("id")), key=lambda name: int(name.rpartition("-")[2]))
        assert marks == [f"record-{number}" for number in wanted], "marks"
        items = list(tree.iter(f"{NAME}li"))
        assert [item.get("value") for item in items] == [item.get("id").removeprefix("told-") for item in items] == wanted, "list"
        named = [each.get("id") for each in tree.iter() if each.get("id")]
        assert len(named) == len(set(named))
        titled = {each.get("id"): each.find(f"{DRAWN}title").text.split("\n") for each in tree.iter(f"{DRAWN}g") if each.get("id")}
        for number, item in zip(wanted, items):
            said = [part for part in item.itertext()]
            assert titled[f"record-{number}"] == [f"{number}. {said[0]}", *said[1:]], (said, titled[f"record-{number}"])
        count += records
    return count


def drawn_by_answers():
    """The marks of the example day, and what is drawn of them: by hand, from the text's own answers."""
    lanes = {lane.name: lane for lane in day.lanes_of(page_of(SHOWN).days[0])}
    bars = {name: [mark.bars for mark in lane.marks if mark.bars] for name, lane in lanes.items()}
    assert bars["alice"] == [[("wait", 0, 1), ("window", 1, 10_001)], [("listed", 1, 900_001)]]
    assert bars["bob"][0] == [("wait", 1_000, 4_657), ("window", 4_657, 14_657)] and bars["grace"] == [[("wait", 16_000, 815_004), ("window", 815_004, 825_004)]]
    assert bars["carol"][1:] == [[("wait", 894_777, 962_222), ("window", 962_222, 972_222)], [("listed", 962_222, 1_862_222)]]
    kinds = {name: [(mark.visit.number, mark.kind, mark.text) for mark in lane.marks] for name, lane in lanes.items()}
    assert kinds["bob"] == [(7, "told", "wait 3.657s"), (8, "refused", "NO 11"), (9, "confirmed", ""), (10, "refused", "NO 6")]
    assert kinds["who is listed"][:2] == [(2, "asked", "ADS 0"), (4, "asked", "ADS 1")] and list(lanes)[:2] == ["who is listed", "alice"]
    assert day.taken(mark for lane in lanes.values() for mark in lane.marks) == [(1, 1), (4_657, 2), (15_001, 3), (900_001, 2), (904_657, 1), (915_001, 0), (962_222, 1), (1_862_222, 0)]
    leaving = page_of_lesson("tools/lessons/leaving.txt")[0].days.values()
    ann = next(lane for each in leaving for lane in day.lanes_of(each) if lane.name == "ann")
    assert ann.marks[1].bars == [("listed", 1, 2_000), ("unlisted", 2_000, 900_001)] and ann.marks[3].kind == "withdrawn"
    assert [day.short(ms) for ms in (0, 999, 1_500, 60_000, 889_777, 3_600_000 * 1_720)] == ["0ms", "999ms", "1.5s", "1m", "14m49.777s", "1720h"]


def as_the_model():
    """After the last record of a clock as many places are taken as the model holds, and each ticket is taken when the model's is."""
    records = 0
    for path, window in STORED_DAYS.items():
        count, held, reader, lanes = 0, {}, log.Reader(), day.lanes_of(page_of(path).days[0])
        marks = {mark.visit.number: mark for lane in lanes for mark in lane.marks}
        for line in lines_of(path):
            reader.row(line)
            if not reader.answered:
                continue
            count += 1
            mark, ticket = marks[count], reader.answered.ticket
            if ticket:
                due = ticket.issued + ticket.wait
                assert mark.bars == [("wait", mark.clock, due), ("window", due, due + window)], line
            if reader.answered.word in ("OK", "WAIT"):
                held[mark.clock] = len((reader.replay.registrar if reader.recorded else reader.registrar).live(mark.clock))
        steps = dict(day.taken(marks.values()))
        for clock, number in held.items():
            assert number == steps.get(max((at for at in steps if at <= clock), default=None), 0), clock
        assert count == len(marks)
        records += count
    return records


# That it can be read


def boxes(drawing):
    """Of each text of an SVG from where to where it reaches, across and down, by the width that it has at most."""
    for each in drawing.iter(f"{DRAWN}text"):
        size, bold = float(each.get("font-size")), each.get("font-weight") == "bold"
        assert size >= LEAST, (size, each.text)
        wide = svg.width_of(each.text or "", size, bold) + sum(svg.width_of(part.text, size, True) + svg.width_of(part.tail or "", size) for part in each)
        x, y = float(each.get("x")), float(each.get("y"))
        x -= wide if each.get("text-anchor") == "end" else 0
        yield y - 0.75 * size, y + 0.25 * size, x, x + wide, "".join(each.itertext())


def apart(drawing):
    """That no two texts of an SVG overlap, and that all are inside of it; gives how many there are."""
    width, height = (float(drawing.get(side).removesuffix("pt")) for side in ("width", "height"))
    assert drawing.get("viewBox") == f"0 0 {svg.place(width)} {svg.place(height)}"
    found = sorted(boxes(drawing))
    for at, (top, bottom, left, right, text) in enumerate(found):
        assert 0 <= left and right <= width + 0.1 and 0 <= top and bottom <= height, text
        for other in found[at + 1 :]:
            if other[0] >= bottom - 0.5:
                break
            assert other[2] >= right or other[3] <= left, (text, other[4])
    return len(found)


def readable():
    """No two texts of a picture overlap, none is smaller than 8 points as printed, each picture fits a page, and there is no colour."""
    count = 0
    sizes = [float(size) for size in re.findall(r"font(?:-size)?: ([\d.]+)pt", day_page.STYLE.partition("@media screen")[0])]
    assert len(sizes) == 5 and min(sizes) >= LEAST
    for text, tree, _ in pages():
        for drawing in tree.iter(f"{DRAWN}svg"):
            assert float(drawing.get("height").removesuffix("pt")) <= day_page.PAGE and drawing.get("width") == "720pt"
            count += apart(drawing)
        colours = {colour for colour in re.findall(r'(?:fill|stroke)="(#[0-9a-f]+)"', text)}
        assert all(len(set(re.findall("..", colour[1:]))) == 1 for colour in colours), colours
    for page in [page_of(number) for number in (3, 30, 300)] + list(map(beginning, range(1, 27))):
        count += apart(ElementTree.fromstring(page.svg()))
    return count


def beginning(records):
    """The page of the example day's first records."""
    page = page_of(SHOWN)
    return replace(page, days=[replace(page.days[0], visits=page.days[0].visits[:records])])


def overlaps_caught():
    """What the check above is for: letters that are too small, a text that is too long, and rows that are too close."""
    good = page_of(SHOWN).svg()
    with mock.patch.object(day_picture, "ROW", 6):
        close = page_of(SHOWN).svg()
    wrong = [good.replace('font-size="8.8"', 'font-size="7.9"', 1), good.replace(">wait 1ms<", f">wait 1ms{' and more' * 20}<", 1), close]
    assert apart(ElementTree.fromstring(good)) > 90 and good not in wrong
    for text in wrong:
        try:
            apart(ElementTree.fromstring(text))
        except AssertionError:
            continue
        assert False, "an overlap was not seen"
    return len(wrong)


def forms_differ():
    """Without colour: each kind of mark has a form of its own, and each kind of bar a filling."""
    forms = {draw(50, 50, fill) for draw, fill in day_picture.FORMS.values()}
    assert len(forms) == len(day_picture.FORMS)
    assert len({bar["fill"] + bar.get("stroke_dasharray", "") for bar in day_picture.BARS.values()}) == len(day_picture.BARS) == 4
    kinds = {*day.MARKS.values(), "nothing", "filled"}
    assert kinds == set(day_picture.FORMS) and kinds | set(day_picture.BARS) == {kind for mark, bar, _ in day_picture.LEGEND for kind in (mark, bar)} - {None}
    return len(forms)


# The wrong registrar's lanes


def wrong_beside():
    """The lanes that differ have the wrong registrar's below them, with what differs in bold; the others have none. A record is in the list once."""
    rows, ends = rows_of(lines_of(SHOWN))
    lines = [row.printed for row in rows if row.answer]
    lines[19], lines[24] = "894777 OK", "962222 NO 6"
    for ran, differ in ((wrong_run.Ran(lines), {"carol": [20, 25]}), (wrong_run.Ran(lines[:25], "it broke off"), {"carol": [20, 25], "who is listed": [26]})):
        with mock.patch.object(wrong_run, "ran", lambda label, data: ran):
            page = day_text.page(rows, ends, "a/day.txt", "let_in_when_told")
        lanes = day.lanes_of(page.days[0])
        assert {lane.name: [mark.visit.number for mark in lane.other.marks if mark.bold] for lane in lanes if lane.other} == differ
        carol = next(lane.other for lane in lanes if lane.name == "carol")
        assert [mark.kind for mark in carol.marks] == ["told", "refused", "refused", "confirmed", "refused"]
        tree = ElementTree.fromstring(page.html())
        marks = [each.get("id") for each in tree.iter(f"{DRAWN}g") if each.get("id")]
        assert sorted(mark for mark in marks if mark.startswith("wrong")) == sorted(f"wrong-{mark.visit.number}" for lane in lanes if lane.other for mark in lane.other.marks)
        assert sum(mark.startswith("record") for mark in marks) == len(list(tree.iter(f"{NAME}li"))) == 26
        said = "".join(tree.itertext())
        assert "".join(next(each for each in tree.iter(f"{NAME}li") if each.get("value") == "20").itertext()).count("wrong: 894777 OK: admitted") == 1
        assert "times/let_in_when_told" in said and f"in {len(differ)} of 10 lanes" in said and ("it broke off" in said) == bool(ran.stopped)
        for drawing in tree.iter(f"{DRAWN}svg"):
            apart(drawing)
    return 2


# As a command


def refused():
    """What cannot be drawn is said in a sentence, and where answers differ the page is made and the status is 1."""
    program("register_log")
    asked = [(1, ["log.py", "picture"], b"key k\nsell 5\nask 5x\n", b"line 3"), (1, ["log.py", "picture"], b"key k\n", b"nothing to draw"), (1, ["log.py", "picture"], b"", b"there is no key")]
    asked += [(2, ["log.py", "picture", "--short"], b"", b"option of try"), (2, ["log.py", "try", "--svg"], b"", b"option of picture"), (2, ["log.py", "picture", "--red"], b"", b"--red")]
    asked += [(2, ["log.py", "picture", "--wrong", "no-such"], b"key k\nlist 5 /a\n", b"no wrong registrar is called"), (2, ["log.py", "picture", "no/such/file"], b"", b"No such file")]
    for status, words, data, said in asked:
        found, out, err = ended(words, data)
        assert (found, out) == (status, b"") and said in err, (words, found, err)
    status, out, err = ended(["log.py", "picture"], b"key k\nlist 5 /a -> ADS 1\n")
    assert status == 1 and b"1 of 1 answer differs" in err and ElementTree.fromstring(out) and b"!! the text expects ADS 1" in out
    text = "key k # \u00fc\nlist 5 /a # <&> \x01 \uffff\n".encode()
    status, out, err = ended(["log.py", "picture"], text, more={"LC_ALL": "C", "PYTHONUTF8": "0", "PYTHONCOERCECLOCALE": "0"})
    assert status == 0 and "\u00fc" in "".join(ElementTree.fromstring(out).itertext()) and out.isascii(), err
    return len(asked) + 2


def kept_files():
    """picture in tools/registrar: bad lines, and no file is written over but a picture."""
    asked = ["list 5s /a"]
    with tempfile.TemporaryDirectory() as folder:
        path, other = (os.path.join(folder, name) for name in ("day.html", "mine.html"))
        with open(other, "w", encoding="utf-8") as file:
            file.write("mine")
        for lines, said in ((["picture"], "it is: picture FILE"), ([f"picture {path}"], "nothing was asked so far"), ([*asked, f"picture {other}"], "is there already"), ([*asked, f"picture {folder}/a/b"], "cannot be written")):
            session = registrar.Session(Modelled)
            with contextlib.redirect_stdout(io.StringIO()) as printed:
                for line in lines:
                    session.heed(line)
            assert said in printed.getvalue() and session.bad == 1 and not os.path.exists(path), (lines, printed.getvalue())
        session = registrar.Session(Modelled)
        with contextlib.redirect_stdout(io.StringIO()) as printed:
            for line in [*asked, f"picture {path}", *asked, f"picture {path}"]:
                session.heed(line)
        assert not session.bad and "shows 2 answers" in printed.getvalue() and session.lines == ["list 5s /a -> ADS 0"] * 2
    return 6


def stored():
    """The pictures of the example day in docs are what is made of it, by the proved program."""
    program("register_log")
    for path, more in STORED.items():
        status, out, err = ended(["log.py", "picture", *more, os.path.join(ROOT, SHOWN)])
        assert status == 0 and not err, err
        with open(os.path.join(ROOT, path), "rb") as file:
            assert file.read() == out, f"{path} is not what is made: tools/log.py picture {' '.join([*more, SHOWN])} >{path}"
    return len(STORED)


def quick():
    """A picture of 300 advertisers takes less than two seconds of the processor's time, its text's reading with it."""
    lines, start = crowded(300), time.process_time()
    page = day_text.page(*rows_of(lines), None).html()
    took = time.process_time() - start
    assert took < 2 and page.count('id="record-') > 500, took


CHECKS = [
    ("the picture of a day: every record once", every_record),
    ("the picture of a day, drawn by the answers", drawn_by_answers),
    ("the picture of a day: tickets and places as the model has them", as_the_model),
    ("the picture of a day: no texts overlap", readable),
    ("the picture of a day: overlaps are seen", overlaps_caught),
    ("the picture of a day, without colour", forms_differ),
    ("the picture of a day, a wrong registrar beside", wrong_beside),
    ("the picture of a day: what is refused", refused),
    ("the picture of a day, from tools/registrar", kept_files),
    ("docs/DAY.svg and DAY.html, made again", stored),
    ("the picture of a day, how quick it is", quick),
]
