"""The checks of tools/selftest.py on the lesson, docs/CLASS.md, and on tools/class_page.py, by which the gate holds it to what its commands print."""

import re

import class_page
import pages
from command import Failed

PARTS = ("**Ask the class:** ", "**Why:** ", "**A wrong one** ", "    $ tools/wrong ", "**Promised:** ", "**Not promised:** ")
HOUR = 60
WIDE, LONG = 80, 60         # a sheet of A4 at 10 points, in columns and lines


def page():
    return pages.text_of(class_page.PAGE)


def parts():
    """The numbered sections, by their headings."""
    found = [each.split("\n", 1) for each in re.split(r"^## ", page(), flags=re.MULTILINE)[1:]]
    return {heading: text for heading, text in found if re.match(r"\d+\. ", heading)}


def parts_whole():
    """Each part has its minutes, a question, why, a wrong registrar that is run, a promise with a law, and what is not promised, in this order; all
    together take an hour."""
    table = [(name, int(minutes)) for minutes, name in re.findall(r"^\| (\d+) \| (.*?) \|", page(), re.MULTILINE)]
    assert sum(minutes for _, minutes in table) == HOUR and [name for name, _ in table[:-1]] == list(parts())
    for (name, minutes), text in zip(table, parts().values()):
        assert text.startswith(f"\n{minutes} minutes.\n"), name
        at = [text.find(f"\n{each}") for each in PARTS]
        assert min(at) > 0 and at == sorted(at), (name, at)
        promised = " ".join(text[at[-2] : at[-1]].split())
        assert re.search(r"\(laws? `[a-z]+(?:_[a-z]+)+`", promised), (name, promised)
    return len(table)


def handed_out():
    """What is handed out fits a sheet, and its laws are those of the parts, in their order."""
    lines = class_page.hand_out(page()).splitlines()
    assert 20 < len(lines) <= LONG and max(map(len, lines)) <= WIDE, (len(lines), max(map(len, lines)))
    rows = re.split(r"^ ?(?=\d+ )", "\n".join(lines), flags=re.MULTILINE)[1:]
    assert len(rows) == len(parts())
    for row, text in zip(rows, parts().values()):
        laws = re.findall(r"\b[a-z]+(?:_[a-z]+)+\b", row.partition("\n\n")[0])
        assert laws and all(f"`{law}`" in text for law in laws), (row, laws)
    return len(lines)


def model_writes():
    """The answers of tools/registrar that the page shows are the model's."""
    lines = page().split("\n")
    found = [command for command in class_page.commands(lines) if command.words[0] == "tools/registrar"]
    for command, (said, status) in zip(found, class_page.side_by_side(class_page.as_model, [command.words for command in found])):
        assert status == 0 and said == class_page.shown(lines, command), command.words
    return len(found)


LESSON = "tools/registrar --model tools/lessons/class/first.txt"
PROVERS = [
    "Without the change (rt check in crates/wait): proved.", "With the change: refused in 9 s, at function to_millis: it rounds up.",
    "    crates/wait/proofs/to_millis/Answers.antt, line 3",
]


def told_apart():
    """A page that shows less than is printed, more, something else or nothing is told, and a command that fails; the right page is not, and neither are
    the prover's own lines."""
    said, status = class_page.printed(LESSON.split())
    right = ["Said:", "", f"    $ {LESSON}", *("    " + line for line in said), "", "Why."]
    assert status == 0 and len(said) > 5 and not list(class_page.faults(right))
    changed = [line.replace("WAIT 1:", "WAIT 2:") for line in right]
    wrong = [right[:5] + right[6:], right[:-3] + right[-2:], right[:-2] + ["    more"] + right[-2:], changed, right[:3], ["    $ tools/registrar no.txt"]]
    for page in wrong:
        assert list(class_page.faults(page)), page
    assert class_page.without_prover(["a", *PROVERS, "b"]) == ["a", "b"]
    by_both = [line.replace(class_page.MODEL_ALONE, class_page.BY_BOTH) for line in right]
    assert class_page.written(right[:3] + right[-2:]) == by_both == class_page.written(changed)
    try:
        class_page.written(wrong[-1])
    except Failed as said:
        assert "ended with status 2" in str(said)
    else:
        raise AssertionError("a command that fails is written")
    return len(wrong)


CHECKS = [
    ("docs/CLASS.md, whole parts and an hour", parts_whole),
    ("docs/CLASS.md, a page to hand out", handed_out),
    ("docs/CLASS.md, the model's answers", model_writes),
    ("tools/class_page.py, a page that is not true", told_apart),
]
