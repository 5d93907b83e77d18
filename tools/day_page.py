"""A day as a page: HTML that is XML too and loads nothing, with the picture over as many pages as it takes and below it every record with its answer, and why."""

import re
from dataclasses import dataclass
from html import escape

import day_picture
from day_picture import ROW, Sheet

PAGE = 530                      # points: how high a page of A4 or Letter is, turned
HEAD, PARAGRAPH = 70, 30        # and what title and legend take of the first, and a paragraph
MADE = "<!DOCTYPE html>\n<!-- The picture of a day, by tools/log.py or tools/registrar -->"
STYLE = """
@page { size: A4 landscape; margin: 10mm }
body { width: 720pt; margin: 0; font: 9.5pt/1.3 sans-serif; color: #000; background: #fff }
h1 { font-size: 15pt; margin: 0 0 4pt } h2 { font-size: 11pt; margin: 8pt 0 4pt; break-after: avoid } p { margin: 0 0 5pt }
svg { display: block; margin: 0 0 8pt; break-inside: avoid }
.told { columns: 2; column-gap: 18pt; font-size: 8.75pt }
.told ol { margin: 0; padding-left: 28pt } .told li { margin: 0 0 5pt; break-inside: avoid } .told p { margin: 2pt 0 5pt; font-style: italic }
.told li, .told p { overflow-wrap: anywhere } code { font: 8.5pt monospace; white-space: pre-wrap } .wrong { font-weight: bold }
@media screen { body { width: 94vw; margin: 1vw auto; font-size: max(9.5pt, 1.2vw) } h1 { font-size: 1.6em } h2 { font-size: 1.2em }
.told, code { font-size: 1em } svg { width: 100%; height: auto } }
"""


@dataclass
class Page:
    """Its title, paragraphs about it, the days that are drawn, and what is told below: visits, and notes that stand between them."""

    title: str
    about: list
    days: list
    told: list

    def html(self):
        body = [f"<h1>{escape(self.title)}</h1>", *paragraphs(self.about), *figures(self.days, HEAD + PARAGRAPH * len(self.about)), "<h2>Every record, its answer, and why</h2>", *told(self.told)]
        head = f'<head><meta charset="utf-8"/><title>{escape(self.title)}</title><style>{STYLE}</style></head>'
        opening = [MADE, '<html xmlns="http://www.w3.org/1999/xhtml" lang="en">', head, "<body>"]
        return ascii_of("\n".join([*opening, *body, "</body>", "</html>", ""]))

    def svg(self):
        """The picture alone, of the one day that there is, as high as it has to be."""
        return ascii_of(day_picture.whole(self.days[0], self.title) + "\n")


def ascii_of(text):
    """Other letters as XML writes them in ASCII, so that nobody's encoding matters; those that XML cannot have are '?'."""
    return re.sub("[\x00-\x08\x0b-\x1f\x7f\ufffe\uffff]", "?", text).encode("ascii", "xmlcharrefreplace").decode()


def paragraphs(texts):
    return (f"<p>{escape(text)}</p>" for text in texts)


# The picture


def runs(pieces, room, later):
    """The pieces in runs that fit a page each: first in this room, then in that of later pages."""
    run = []
    for piece in pieces:
        if run and piece.needs > room:
            yield run
            run, room = [], later
        run.append(piece)
        room -= piece.height
    yield run


def figures(days, head):
    """The SVGs of all days, behind one with the legend, of what occurs in any of them, and with the patterns. head: what stands above them."""
    room = PAGE - day_picture.top()
    sheets = [Sheet(day, int((room - head) // ROW)) for day in days]
    parts, height = day_picture.legend(set().union(*(sheet.kinds for sheet in sheets)), 0)
    yield day_picture.svg([day_picture.PATTERNS, *parts], height)
    for sheet in sheets:
        if len(sheets) > 1:
            yield f"<h2>{escape(sheet.day.heading)}</h2>"
        yield from (day_picture.svg(*day_picture.chart(sheet, run)) for run in runs(sheet.pieces, room - head, room))


# The list


def told(entries):
    """Records in lists that are numbered, notes in paragraphs between them."""
    yield '<div class="told">'
    listing = False
    for entry in entries:
        note = isinstance(entry, str)
        if listing and note:
            yield "</ol>"
        elif not listing and not note:
            yield "<ol>"
        listing = not note
        yield f"<p>{escape(entry)}</p>" if note else item(entry)
    yield "</ol></div>" if listing else "</div>"


def item(visit):
    line, *more = visit.told
    lines = [f"<code>{escape(line)}</code>", *(f'<span class="wrong">{escape(each)}</span>' if each.startswith(("!!", "wrong")) else escape(each) for each in more)]
    return f'<li id="told-{visit.number}" value="{visit.number}">{"<br/>".join(lines)}</li>'
