"""The picture of a day (tools/day.py): SVGs of at most a page each. Their units are points as printed; what they tell apart differs in form, not in colour."""

from itertools import pairwise
from xml.sax.saxutils import escape

from day import lanes_of, short, taken
from svg import cut, element, line, place, width_of, words

WIDTH, NAMES = 720, 160             # points: of an SVG, and of the names at its left. It fits A4 and Letter, turned
SIZE, LARGE = 8.8, 13               # of letters
ROW, GAP = 11.5, 5                  # of marks, down; between lanes
MARK, AIR = 3.2, 3                  # of a mark, from its middle; between a mark and a text, and between marks of one row
TAKEN = 38                          # how high the places taken are drawn
AXIS = 14                           # and the clocks above them
EVERY_ROW = 10**9                   # more than there are on any page
PATTERNS = (
    "<style>text { paint-order: stroke; stroke: #fff; stroke-width: 2px }</style>"
    '<defs><pattern id="waiting" width="6" height="6" patternUnits="userSpaceOnUse"><path d="M-1.5 1.5l3-3M0 6l6-6M4.5 7.5l3-3" stroke="#000" stroke-width="0.9"/></pattern>'
    '<pattern id="unlisted" width="6" height="6" patternUnits="userSpaceOnUse"><path d="M3 0v6" stroke="#000" stroke-width="1.2"/></pattern></defs>'
)
BARS = {
    "wait": {"height": 5.6, "fill": "url(#waiting)", "stroke": "#000000", "stroke_width": 0.7},
    "window": {"height": 5.6, "fill": "#ffffff", "stroke": "#000000", "stroke_width": 0.9, "stroke_dasharray": "1.5 1.5"},
    "listed": {"height": 4, "fill": "#000000", "stroke": "#000000", "stroke_width": 0.7},
    "unlisted": {"height": 5.6, "fill": "url(#unlisted)", "stroke": "#000000", "stroke_width": 0.7},
}


# Marks


def corners(*points):
    """What draws a mark that has its corners there, from its middle."""
    return lambda x, y, fill: element("polygon", points=" ".join(f"{place(x + MARK * across)},{place(y + MARK * down)}" for across, down in points), fill=fill, stroke="#000000", stroke_width=0.9)


def circle(x, y, fill):
    return element("circle", cx=x, cy=y, r=MARK, fill=fill, stroke="#000000", stroke_width=0.9)


def cross(x, y, fill):
    far, back = place(2 * MARK), place(-2 * MARK)
    return element("path", d=f"M{place(x - MARK)} {place(y - MARK)}l{far} {far}m0 {back}l{back} {far}", stroke=fill, stroke_width=1.5, fill="none")


FORMS = {
    "told": (circle, "#ffffff"),
    "confirmed": (corners((0, -1.3), (1.3, 0), (0, 1.3), (-1.3, 0)), "#000000"),
    "refused": (cross, "#000000"),
    "withdrawn": (corners((-1, -1), (1, -1), (0, 1)), "#000000"),
    "asked": (corners((-1, 1), (1, 1), (0, -1)), "#ffffff"),
    "filled": (corners((-1, -1), (1, -1), (1, 1), (-1, 1)), "#ffffff"),
    "nothing": (corners((-1, -1), (1, -1), (-1, 1), (1, 1)), "#ffffff"),
}


def form(kind, x, y):
    draw, fill = FORMS[kind]
    return draw(x, y, fill)


def bar(kind, start, end, y):
    return element("rect", x=start, y=y - BARS[kind]["height"] / 2, width=end - start, **BARS[kind])


# Where things are


def across(instants, left, right):
    """Where each instant is: half of the width is to scale, the other half is shared out evenly between them."""
    ordered = sorted(instants)
    ways, length, half = max(len(ordered) - 1, 1), max(ordered[-1] - ordered[0], 1), (right - left) / 2
    return {clock: left + half * (at / ways + (clock - ordered[0]) / length) for at, clock in enumerate(ordered)}


def fits(placed, left, right):
    return all(right + AIR <= start or end + AIR <= left for start, end in placed)


class Sheet:
    """Where everything of a day is: each instant across, the clocks above, and down the lanes, in pieces of so many rows at most."""

    def __init__(self, day, most=EVERY_ROW):
        self.day, self.lanes = day, lanes_of(day)
        marks = [mark for lane in self.lanes for each in (lane, lane.other) if each for mark in each.marks]
        numbers = [width_of(str(mark.visit.number), SIZE, mark.bold) for mark in marks if mark.visit]
        self.left = NAMES + max(numbers, default=0) + MARK + 2 * AIR
        self.spread(marks, WIDTH - 2 * MARK)
        if any(self.extent(mark)[0] < NAMES for mark in marks):
            # some text has room neither behind its bars nor before its number
            self.spread(marks, WIDTH - AIR - max(width_of(mark.text, SIZE, mark.bold) for mark in marks))
        self.ticks = list(self.clocks(marks))
        self.pieces = [piece for lane in self.lanes for piece in self.pieces_of(lane, most)]
        self.kinds = {kind for mark in marks for kind in (mark.kind, *(bar[0] for bar in mark.bars))}

    def spread(self, marks, right):
        self.right, self.x = right, across(set().union(*(mark.instants() for mark in marks)), self.left, right)

    def clocks(self, marks):
        """The instants that have a number above, with where that begins: of records where there is room, then of others."""
        placed, records = [], {mark.clock for mark in marks}
        for clock in sorted(self.x, key=lambda clock: (clock not in records, clock)):
            wide = width_of(short(clock), SIZE)
            start = min(max(self.x[clock] - wide / 2, NAMES), WIDTH - wide)
            if fits(placed, start - AIR, start + wide + AIR):
                placed.append((start, start + wide))
                yield clock, start

    def extent(self, mark):
        """From where to where a mark reaches, its number and its text with it; and where the text begins."""
        x, wide = self.x[mark.clock], width_of(mark.text, SIZE, mark.bold)
        left = x - MARK - AIR - (width_of(str(mark.visit.number), SIZE, mark.bold) if mark.visit else 0)
        right = max(x + MARK, *(self.x[end] for _, _, end in mark.bars), 0)
        if not mark.text:
            return left, right, None
        if right + AIR + wide <= WIDTH:
            return left, right + AIR + wide, right + AIR
        return left - AIR - wide, right, left - AIR - wide

    def rows(self, lane):
        """The marks in rows, each in the first in which there is room, with where its text begins."""
        rows, placed = [], []
        for mark in lane.marks:
            left, right, text = self.extent(mark)
            at = next((at for at, row in enumerate(placed) if fits(row, left, right)), len(rows))
            if at == len(rows):
                rows.append([])
                placed.append([])
            rows[at].append((mark, text))
            placed[at].append((left, right))
        return rows

    def pieces_of(self, lane, most):
        """A lane, and the wrong registrar's below it, in pieces of so many rows at most. The two stay together where each is one piece."""
        pieces = []
        for each in filter(None, (lane, lane.other)):
            rows = self.rows(each)
            pieces += [Piece(each, rows[start : start + most], each is not lane, start > 0) for start in range(0, len(rows), most)]
        if len(pieces) == 2 and lane.other:
            pieces[0].needs += pieces[1].height
        return pieces


class Piece:
    """Rows of a lane; whether it is the wrong registrar's; whether rows before these are in another piece. It is so high, and goes where so much is free."""

    def __init__(self, lane, rows, wrong, again):
        self.lane, self.rows, self.wrong, self.again = lane, rows, wrong, again
        self.needs = self.height = max(len(rows), 2) * ROW + GAP


# What is drawn


def drawn(sheet, mark, text, y, wrong):
    """A mark with its bars, its number, its text, and more of it where the pointer is."""
    x, parts = sheet.x[mark.clock], []
    parts += [bar(kind, sheet.x[start], sheet.x[end], y) for kind, start, end in mark.bars]
    parts.append(form(mark.kind, x, y))
    weight = {"font_weight": "bold"} if mark.bold else {}
    if mark.text:
        parts.append(words(text, y + 3, mark.text, SIZE, **weight))
    if not mark.visit:
        return element("g", "".join(parts))
    number = str(mark.visit.number)
    parts.append(words(x - MARK - AIR, y + 3, number, SIZE, text_anchor="end", **weight))
    title = element("title", escape("\n".join([f"{number}. {mark.visit.told[0]}", *mark.visit.told[1:]])))
    return element("g", title + "".join(parts), id=f"{'wrong' if wrong else 'record'}-{number}")


def names(piece, y):
    """The lane's name, what stands beside it where there is room, and what stands below."""
    lane, x, room = piece.lane, 5, NAMES - 9
    wrong = "wrong: " if piece.wrong else ""
    name = cut(wrong + lane.name, SIZE, room, bold=True)
    left = room - width_of(name + " ", SIZE, bold=True)
    beside = "goes on" if piece.again else lane.beside
    beside = f" {cut(beside, SIZE, left)}" if beside and left > width_of("....", SIZE) else ""
    title = element("title", escape(" ".join(filter(None, (wrong + lane.name, lane.beside, lane.below)))))
    first = element("tspan", escape(name), font_weight="bold") + escape(beside)
    return element("g", title + element("text", first, x=x, y=y + ROW / 2 + 3, font_size=SIZE) + words(x, y + ROW * 1.5 + 3, cut(lane.below, SIZE, room), SIZE))


def lane(sheet, piece, y):
    """A piece, with a line above it; the wrong registrar's has a dashed frame."""
    if piece.wrong:
        frame = {"fill": "none", "stroke": "#000000", "stroke_width": 0.9, "stroke_dasharray": "5 3"}
        yield element("rect", x=0.5, y=y - GAP / 2, width=WIDTH - 1, height=piece.height - 1, **frame)
    else:
        yield line([(0, y - GAP / 2), (WIDTH, y - GAP / 2)], stroke="#888888", stroke_width=0.5)
    yield names(piece, y)
    for at, row in enumerate(piece.rows):
        yield from (drawn(sheet, mark, text, y + ROW * (at + 0.5), piece.wrong) for mark, text in row)


def stairs(sheet, steps, most, bottom):
    """The points of the places taken."""
    points, count = [(sheet.left, bottom)], 0
    for clock, now in steps:
        points += [(sheet.x[clock], bottom - TAKEN * count / most), (sheet.x[clock], bottom - TAKEN * now / most)]
        count = now
    return points + [(sheet.right, bottom - TAKEN * count / most)]


def counts(sheet, steps, most, bottom):
    """The numbers over the stairs, where there is room."""
    for (clock, count), (end, _) in pairwise(steps):
        text = f"{count}, full" if count == sheet.day.capacity else str(count)
        wide, room = width_of(text, SIZE), sheet.x[end] - sheet.x[clock]
        if wide + 2 * AIR <= room:
            yield words(sheet.x[clock] + (room - wide) / 2, bottom - TAKEN * count / most - 3, text, SIZE)


def occupancy(sheet, y):
    """How many places are taken: over grey the right registrar's, dashed the wrong one's where they differ."""
    right = taken(mark for lane in sheet.lanes for mark in lane.marks)
    wrong = taken(mark for lane in sheet.lanes for mark in (lane.other or lane).marks)
    most, bottom = max([count for _, count in right + wrong] + [1]), y + TAKEN + ROW
    points = stairs(sheet, right, most, bottom)
    yield element("polygon", points=" ".join(f"{place(x)},{place(y)}" for x, y in [*points, (sheet.right, bottom)]), fill="#cccccc")
    yield line(points, stroke="#000000", stroke_width=0.9)
    if wrong != right:
        yield line(stairs(sheet, wrong, most, bottom), stroke="#000000", stroke_width=1.2, stroke_dasharray="4 2")
    yield line([(sheet.left, bottom), (WIDTH, bottom)], stroke="#000000", stroke_width=0.9)
    yield from counts(sheet, right, most, bottom)
    yield words(5, bottom - ROW - 2, "places taken", SIZE, font_weight="bold")
    yield words(5, bottom - 2, f"of {sheet.day.capacity}", SIZE)
    yield words(sheet.left - AIR, bottom - TAKEN + 3, str(most), SIZE, text_anchor="end")
    yield words(sheet.left - AIR, bottom, "0", SIZE, text_anchor="end")


def axis(sheet, y, bottom):
    """The clocks, and a line down from each."""
    yield words(5, y + ROW - 3, "clock", SIZE, font_weight="bold")
    for clock, start in sheet.ticks:
        x = sheet.x[clock]
        yield line([(x, y + AXIS - 2), (x, bottom)], stroke="#bbbbbb", stroke_width=0.5)
        yield words(start, y + ROW - 3, short(clock), SIZE)


LEGEND = (
    ("told", "wait", "told to wait"), (None, "window", "its ticket is taken"), ("confirmed", "listed", "confirmed, and listed"),
    ("withdrawn", None, "withdrawn"), (None, "unlisted", "not listed, keeps its place"), ("refused", None, "refused, by its number"),
    ("asked", None, "asked who is listed"), ("filled", "listed", "filled, so many"), ("nothing", None, "no answer"),
)
RULE = "Across is the clock: half of the width is to scale, the other half is shared out evenly between the instants. Numbers are the records'."


def legend(kinds, y):
    """What of the marks and bars occurs, and what it is, in lines; gives the parts and where they end."""
    parts, x, y = [], 5, y + ROW / 2
    for mark, filling, text in LEGEND:
        if (mark or filling) not in kinds:
            continue
        wide = 26 + AIR + width_of(text, SIZE) + 12
        if x + wide > WIDTH:
            x, y = 5, y + ROW + 1
        parts += [bar(filling, x + MARK, x + 26, y)] if filling else []
        parts += [form(mark, x + MARK + (0 if filling else 8), y)] if mark else []
        parts.append(words(x + 26 + AIR, y + 3, text, SIZE))
        x += wide
    parts.append(words(5, y + ROW + 5, RULE, SIZE))
    return parts, y + 2 * ROW


# Figures


def top():
    """How much stands above the lanes."""
    return AXIS + ROW + TAKEN + GAP * 1.5


def chart(sheet, pieces, y=0):
    """The clocks, the places taken and these pieces; gives the parts and where they end."""
    down = y + top()
    bottom = down + sum(piece.height for piece in pieces)
    parts = [*axis(sheet, y, bottom), *occupancy(sheet, y + AXIS)]
    for piece in pieces:
        parts += lane(sheet, piece, down)
        down += piece.height
    return parts, bottom


def svg(parts, height):
    opening = f'<svg xmlns="http://www.w3.org/2000/svg" width="{WIDTH}pt" height="{place(height)}pt" viewBox="0 0 {WIDTH} {place(height)}" font-family="sans-serif" fill="#000000">'
    return "\n".join([opening, element("rect", width=WIDTH, height=height, fill="#ffffff"), *parts, "</svg>"])


def whole(day, title):
    """A day as one SVG, as high as it has to be."""
    sheet = Sheet(day)
    told, y = legend(sheet.kinds, 22)
    parts, bottom = chart(sheet, sheet.pieces, y)
    return svg([PATTERNS, words(5, 15, cut(title, LARGE, WIDTH - 10, bold=True), LARGE, font_weight="bold"), *told, *parts], bottom)
