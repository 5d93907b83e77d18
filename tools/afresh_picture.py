"""The picture of tools/afresh.py: an SVG of one page. Its units are points as printed, and what it tells apart differs in form, not in colour alone."""

import svg
from svg import element, line, place

WIDTH, HEIGHT, MARGIN = 536, 780, 14        # points: A4 with margins of 10 mm, and one of its own
SMALL, PLAIN, LARGE = 8.5, 9.5, 15          # sizes of letters, in points
PANEL_WIDTH, PANEL_HEIGHT = 212, 172
TOPS = (154, 378)                           # where they begin, down
COLUMNS = (48, 306)                         # where the panels begin, across
HONEST, GRINDER, PALE = "#8fbfe0", "#000000", "#777777"


def words(x, y, text, size=PLAIN, **more):
    return svg.words(x, y, text, size, **more)


# Marks


def fresh(x, y, size):
    """A ticket to a first request."""
    return element("circle", cx=x, cy=y, r=size, fill="#ffffff", stroke=GRINDER, stroke_width=0.9)


def square(x, y):
    """Where the honest one is confirmed."""
    return element("rect", x=x - 5.5, y=y - 5.5, width=11, height=11, fill=HONEST, stroke="#000000", stroke_width=1)


def diamond(x, y):
    """Where the grinder is confirmed."""
    corners = ((0, -4.5), (4.5, 0), (0, 4.5), (-4.5, 0))
    return element("polygon", points=" ".join(f"{place(x + across)},{place(y + down)}" for across, down in corners), fill=GRINDER)


def cross(x, y):
    """A ticket that is brought before it is due."""
    return element("path", d=f"M{place(x - 3.5)} {place(y - 3.5)}l7 7m0 -7l-7 7", stroke=GRINDER, stroke_width=1.4, fill="none")


# A panel


class Panel:
    """Across the clock, up the time at which a ticket is due, both in seconds after the first request."""

    def __init__(self, x, y, first, reach):
        self.x, self.bottom, self.first = x, y + PANEL_HEIGHT, first
        self.across, self.up, self.step_across, self.step_up = reach

    def at(self, clock, due):
        return self.right((clock - self.first) / 1000), self.above((due - self.first) / 1000)

    def right(self, seconds):
        return self.x + seconds / self.across * PANEL_WIDTH

    def above(self, seconds):
        return self.bottom - seconds / self.up * PANEL_HEIGHT

    def frame(self):
        yield element("rect", x=self.x, y=self.bottom - PANEL_HEIGHT, width=PANEL_WIDTH, height=PANEL_HEIGHT, fill="#ffffff", stroke="#000000", stroke_width=0.8)
        for second in range(0, self.across + 1, self.step_across):
            at = self.right(second)
            yield line([(at, self.bottom), (at, self.bottom + 3)], stroke="#000000", stroke_width=0.8)
            yield words(at, self.bottom + 12, f"{second:,}", SMALL, text_anchor="middle")
        for second in range(0, self.up + 1, self.step_up):
            at = self.above(second)
            yield line([(self.x - 3, at), (self.x, at)], stroke="#000000", stroke_width=0.8)
            yield words(self.x - 7, at + 3, f"{second:,}", SMALL, text_anchor="end")
        yield words(self.x + 4, self.bottom - PANEL_HEIGHT + 11, "due (s)", SMALL)
        yield words(self.x + PANEL_WIDTH - 4, self.bottom - 5, "clock (s)", SMALL, text_anchor="end")

    def diagonal(self):
        """Where a ticket is due now."""
        end, label = min(self.across, self.up), 0.14 * self.across
        yield line([(self.right(second), self.above(second)) for second in (0, end)], stroke=PALE, stroke_width=0.8, stroke_dasharray="4 3")
        yield words(self.right(label) + 6, self.above(label) + 9, "due now", SMALL)

    def kept(self, life, **more):
        """The line of the ticket in hand: it lies level till the next is in hand, and ends on the diagonal."""
        tickets = [ticket for ticket in life.tickets if ticket.kept]
        ends = [ticket.clock for ticket in tickets[1:]] + [life.confirmed]
        return line([self.at(clock, ticket.due) for ticket, end in zip(tickets, ends) for clock in (ticket.clock, end)], stroke_linejoin="round", **more)

    def marks(self, pair, size):
        yield self.kept(pair.honest, stroke=HONEST, stroke_width=5)
        yield self.kept(pair.grinder, stroke=GRINDER, stroke_width=1.4)
        yield from (fresh(*self.at(ticket.clock, ticket.due), size) for ticket in pair.grinder.tickets if ticket.afresh)
        yield square(*self.at(pair.honest.confirmed, pair.honest.confirmed))
        yield diamond(*self.at(pair.grinder.confirmed, pair.grinder.confirmed))

    def confirmed(self, pair):
        """The times beside the marks; the grinder's stands lower where it is another."""
        lives = [(pair.honest, 3)] + [(pair.grinder, 15)] * (pair.grinder.confirmed != pair.honest.confirmed)
        for life, under in lives:
            x, y = self.at(life.confirmed, life.confirmed)
            yield words(x + 9, y + under, self.told(life.confirmed), SMALL)

    def told(self, clock):
        return f"{(clock - self.first) / 1000:.3f}"

    def refused(self, pair):
        for clock, due in pair.grinder.refused:
            x, y = self.at(clock, due)
            yield cross(x, y)
            yield words(x - 30, y + 15, f"brought at {self.told(clock)}:", SMALL)
            yield words(x - 30, y + 26, "refused, not due", SMALL)

    def expiry(self, clock, text):
        """A line down the panel, and what happens there."""
        x = self.at(clock, self.first)[0]
        yield line([(x, self.bottom - PANEL_HEIGHT), (x, self.bottom)], stroke=PALE, stroke_width=0.8, stroke_dasharray="1 2")
        yield words(x + 4, self.bottom - 18, text, SMALL)


def reached(pairs, first):
    """How far a day's panels go across and up, in seconds, and the steps of their numbers."""
    clock = max(life.confirmed for pair in pairs for life in (pair.honest, pair.grinder))
    due = max(ticket.due for pair in pairs for ticket in pair.grinder.tickets)
    seconds = (clock - first) / 1000 * 1.3, (due - first) / 1000 * 1.1
    steps = [next(step for step in (20, 50, 100, 200, 500) if each / step < 7) for each in seconds]
    return *(-int(-each // step) * step for each, step in zip(seconds, steps)), *steps


# The page


TITLE = "Asking afresh, under REGISTER and with lower bounds"
INTRODUCTION = (
    "Two advertisers live the same day, each on a registrar of its own that sees the same others. The",
    "honest one comes back when its ticket is due. The grinder asks afresh, without a ticket, every 5 s",
    "besides, and of the ticket in hand and the fresh one it keeps the one that is due first.",
    "Across: the clock. Up: the time at which a ticket is due. Both in seconds after the first request.",
)
LEGEND = (
    ("a mark: a fresh ticket", "honest: the ticket in hand", "grinder: the ticket in hand"),
    ("brought before it is due", "honest: confirmed", "grinder: confirmed"),
)


def legend(y):
    """Two rows of three, each a mark and what it is."""
    ends = (MARGIN, 206, 372)
    for row, texts in enumerate(LEGEND):
        yield from (words(x + 24, y + 15 * row, text, SMALL) for x, text in zip(ends, texts))
    middles, up = [x + 10 for x in ends], y - 3
    yield fresh(middles[0], up, 2.3)
    yield line([(ends[1], up), (ends[1] + 20, up)], stroke=HONEST, stroke_width=5)
    yield line([(ends[2], up), (ends[2] + 20, up)], stroke=GRINDER, stroke_width=1.4)
    yield from (mark(x, up + 15) for mark, x in zip((cross, square, diamond), middles))


def day(top, heading, captions, first, pairs, size, gone):
    yield words(MARGIN, top - 21, heading, font_weight="bold")
    for x, caption, pair in zip(COLUMNS, captions, pairs):
        panel = Panel(x, top, first, reached(pairs, first))
        yield words(x, top - 6, caption)
        yield from panel.frame()
        yield from panel.diagonal()
        yield from (part for each in gone for part in panel.expiry(*each))
        yield from panel.marks(pair, size)
        yield from panel.confirmed(pair)
        yield from panel.refused(pair)


def table_rows(rows, y):
    yield line([(MARGIN, y + 4), (WIDTH - MARGIN, y + 4)], stroke="#000000", stroke_width=0.8)
    for at, cells in enumerate(rows):
        more = {} if at else {"font_weight": "bold"}
        yield from (words(x, y + 13 * at, cell, SMALL, **more) for x, cell in zip((MARGIN, 240, 372), cells))


def picture(shown, headings, captions, first, gone, rows, notes):
    """shown: the pairs of two days, one for each call, with a heading for each day and a caption for each call. gone: when entries of the first day expire, and
    in which words. rows: the table's."""
    parts = [words(MARGIN, 24, TITLE, LARGE, font_weight="bold")]
    parts += [words(MARGIN, 42 + 12 * at, text) for at, text in enumerate(INTRODUCTION)]
    parts += legend(98)
    for top, pairs, heading, size, expiries in zip(TOPS, shown, headings, (2.3, 1.3), ([gone], [])):
        parts += day(top, heading, captions, first, pairs, size, expiries)
    parts += table_rows(rows, 592)
    parts += [words(MARGIN, 692 + 12 * at, text, SMALL) for at, text in enumerate(notes)]
    opening = f'<svg xmlns="http://www.w3.org/2000/svg" width="{WIDTH}pt" height="{HEIGHT}pt" viewBox="0 0 {WIDTH} {HEIGHT}" font-family="sans-serif" fill="#000000" role="img" aria-label="{TITLE}">'
    back = element("rect", width=WIDTH, height=HEIGHT, fill="#ffffff")
    return "\n".join([opening, back, *parts, "</svg>", ""])
