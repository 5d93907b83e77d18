"""Parts of an SVG as text, whose units are points as printed, and how wide a text is at most."""

from xml.sax.saxutils import escape, quoteattr

NARROW, WIDE = "!'(),-./:;I[\\]fijlrt| ", "#%+<=>@MW^mw~"          # letters of at most 0.42 em, and of at most 1.02
BOLD = 1.18             # how much wider a bold letter is at most


def place(number):
    return f"{number:.1f}".rstrip("0").rstrip(".")


def element(name, text="", **attributes):
    """text: what is in it, as XML. An attribute's '_' is '-', but for one at its end, which keeps it from being a word of Python's."""
    said = "".join(f" {key.rstrip('_').replace('_', '-')}={quoteattr(place(value) if isinstance(value, (int, float)) else value)}" for key, value in attributes.items())
    return f"<{name}{said}>{text}</{name}>" if text else f"<{name}{said}/>"


def words(x, y, text, size, **more):
    return element("text", escape(text), x=x, y=y, font_size=size, **more)


def line(points, **more):
    return element("polyline", points=" ".join(f"{place(x)},{place(y)}" for x, y in points), fill="none", **more)


def em(letter):
    """At most how wide a letter of ASCII is, of its size: DejaVu Sans, which is wider than what else a browser takes for sans-serif."""
    if letter in NARROW:
        return 0.42
    if letter in WIDE:
        return 1.02
    return 0.8 if letter.isupper() or letter == "&" else 0.64


def width_of(text, size, bold=False):
    return size * sum(map(em, text)) * (BOLD if bold else 1)


def cut(text, size, width, bold=False):
    """The text, or its beginning and two dots, no wider than that."""
    if width_of(text, size, bold) <= width:
        return text
    while text and width_of(text + "..", size, bold) > width:
        text = text[:-1]
    return text + ".."
