"""The checks of tools/selftest.py on wrong registrars: their edits, the stored days that show them, and what tools/wrong makes of them."""

import contextlib
import glob
import io
import os
import re
import shutil
import tempfile
import textwrap

import edits
import pages
import wrong
import wrong_days
from command import ROOT, Unable
from trying import NotRun, ended, program


def wrong_registrars():
    """Each applies and says what it breaks, and no two have one label; those that PROMISES names are there, and so is one for each of its four headings."""
    every = edits.all_edits()
    labels = [edit.label for edit in every.values()]
    assert len(set(labels)) == len(labels), sorted(label for label in set(labels) if labels.count(label) > 1)
    for edit in every.values():
        assert edit.promise and edits.diff(edit), edit.name
    edits.the_four(every)
    for promise in edits.promises():
        missing = [name for name in promise.cited if name not in every]
        assert not missing, f"docs/PROMISES.md names {missing}"
    # an edit that a law refuses is shown under the promise that has that law
    repository = pages.Repository()
    proved = named(repository, r"crates/\w+/proofs/\w+\.antt") - named(repository, r"crates/\w+/(?:src|specs)/.*")
    for promise, found in edits.the_four(every):
        for edit in found:
            laws = [name for name in re.findall(r"`(\w+)`", edit.promise) if name in proved]
            assert not laws or any(f"`{law}`" in promise.words for law in laws), f"{edit.name} is refused by {laws}, and {promise.title} names none of these"
    return len(every)


def named(repository, form):
    """What is declared in the files of this form."""
    return {name for path, names in repository.names.items() if re.fullmatch(form, path) for name in names}


FITS = (
    "refused, as it must be: ./proofs/to_millis/Answers.antt:12:3: error: `returns`: the two types differ only where one has `0`", "refused, as it must be",
    "refused, as it must be: note: src/lib.rt:46:20: it is not proved that the sum fits its type (`overflow_add-result`)",
    "refused, as it must be: proofs/Facts.antt:3:14: error: `none`: `omega`: the goal does not follow from what it read",
)
AT = (("function to_millis", "proofs/to_millis/Answers.antt", 12), None, (None, "src/lib.rt", 46), ("fact none", "proofs/Facts.antt", 3))
UNFIT = (
    "refused, as it must be (only because a proof file names what the edit took away, so this says little of the contract: change a value and keep the names): x",
    "BAD EDIT: an 'old:' text is in src/lib.rt 0 times, and not once", "BAD EDIT: it did not reach the prover; the first lines of what it said:",
)


def first_errors():
    """Of the wrong registrars that the last gate tried, as they are now: each is refused by a fact that fails, and not by a name that is gone, as text that no longer
    fits the code has it. A line of attributes is of the function that it stands above."""
    every = edits.all_edits()
    some = next(edit for edit in every.values() if edit.crate == "wait")
    for words, right in [(word, False) for word in FITS] + [(word, True) for word in UNFIT]:
        said = f"rt: crate: proved\nrt: must-fail {some.name}_too.edit: NOT REFUSED\nrt: must-fail {some.name}.edit: {words}\nrt: must-fail a/b.edit: x\n"
        assert wrong.line_of(some, said) == words and bool(wrong.unfit(words)) == right, words
    for words, at in zip(FITS, AT):
        found = wrong.first_error(some, words)
        assert found == at or found and at[0] is None and found[1:] == at[1:] and re.match(r"function \w+$|src/", found[0]), (words, found)
    for path in sorted(glob.glob(os.path.join(ROOT, "crates/*/src/*.rt"))):
        rows = open(path, encoding="utf-8").read().split("\n")
        for at in (at for at, row in enumerate(rows, 1) if row.startswith("#[tactic(")):
            below = next(found[1] for row in rows[at:] if (found := re.match(r"\s*(?:pub )?fn (\w+)", row)))
            assert wrong.function_at(os.path.relpath(path, ROOT), at) == below, (path, at, below)
    lines = wrong.lines_left(every)
    if not lines:
        raise NotRun("target/ci.log says nothing of them as they are now; bash .ci/run leaves it")
    wrongly = {name: said for name, line in lines.items() if (said := wrong.unfit(line))}
    assert not wrongly, wrongly
    return len(lines) if len(lines) == len(every) else f"{len(lines)} of {len(every)}, of the others it says nothing,"


def wrong_listed():
    """tools/wrong lists the sixteen of the four headings, --all every one; both work through a symlink."""
    every, four = edits.all_edits(), [edit.name for _, found in edits.the_four(edits.all_edits()) for edit in found]
    assert len(four) == 16
    with tempfile.TemporaryDirectory() as folder:
        link = os.path.join(folder, "w")
        os.symlink(os.path.join(ROOT, "tools/wrong"), link)
        for words, right in (([], four), (["--all"], list(every))):
            status, out, err = ended([link] + words)
            listed = re.findall(r"^    (\w+/\w+)$", out.decode(), re.MULTILINE)
            assert status == 0 and not err and sorted(listed) == sorted(right), words
    assert ended(["wrong", "--all", "expired_listed"])[0] == 2
    return len(four)


# On a day

PROGRAMS = ("register_log", "replay", "conformance")
# document 01, "What volunteers' programs got wrong"
FIVE = ("expired_still_counted", "let_in_when_told", "first_time_anew", "wait_cut_before_stayed_is_taken_off", "ticks_rounded_down", "ticks_rounded_to_nearest")
# one of each of the user's four, and what it must be told beside the right one
ON_A_DAY = {
    "full_registrar_refuses": ("1000 WAIT 900000: a ticket, to come back in 15 min", "1000 NO 6: refused"),
    "let_in_when_told": ("894777 WAIT 67445: a ticket, to come back in 1 min 7.445 s", "894777 OK: admitted"),
    "ticks_rounded_down": ("60000 WAIT 68516: a ticket, to come back in 1 min 8.516 s", "60000 WAIT 68515: a ticket, to come back in 1 min 8.515 s"),
    "expired_listed": ("900001 ADS 1: one advertisement is listed", "900001 ADS 2: 2 advertisements are listed"),
}


def reached(name):
    """The crates that a program is made of, by crates.txt."""
    needs = {line.partition(":")[0]: line.partition(":")[2].split() for line in edits.text_of("crates.txt").splitlines() if not line.startswith("#")}
    found, todo = set(), [name]
    while todo:
        one = todo.pop()
        if one in needs and one not in found:
            found.add(one)
            todo += needs[one]
    return found


def days_of_all():
    """tools/days/TABLE has every wrong registrar that one of the three programs has code of, and no other; its days are there, with the model's answers."""
    shown, unshown = wrong_days.table()
    crates = set().union(*(reached(name) for name in PROGRAMS))
    right = {edit.label for edit in edits.all_edits().values() if edit.runs() and edit.crate in crates}
    assert right == shown.keys() | unshown.keys(), sorted(right ^ (shown.keys() | unshown.keys()))
    for path in set(shown.values()):
        assert wrong_days.read(os.path.join(ROOT, path)).model, path
    stored = {os.path.join(wrong_days.DAYS, name) for name in os.listdir(os.path.join(ROOT, wrong_days.DAYS))}
    assert stored == {path for path in shown.values() if path.startswith(wrong_days.DAYS)} | {wrong_days.TABLE}, stored
    four = [[edit.label for edit in found if edit.label in shown] for _, found in edits.the_four(edits.all_edits())]
    assert all(four) and set(FIVE) <= shown.keys()
    assert all(set(labels) & ON_A_DAY.keys() for labels in four)
    return f"{len(shown)} on {len(set(shown.values()))} days, {len(unshown)} on none,"


def on_a_day():
    """One of each of the user's four is built, and run on its stored day beside the proved program: the lines that differ, in words."""
    for name in PROGRAMS:
        program(name)
    if not shutil.which("rt"):
        raise NotRun("there is no rt, which compiles them")
    for label, said in ON_A_DAY.items():
        edit = edits.chosen(edits.all_edits(), label)
        with contextlib.redirect_stdout(io.StringIO()) as printed:
            wrong.show_on(edit, os.path.join(ROOT, wrong_days.stored_day(edit)), every=False)
        text = printed.getvalue()
        assert "was run, and is not proved" in text and max(map(len, text.split("\n")[1:])) <= wrong_days.WIDTH, text
        pairs = re.findall(r"^    right: (.*\n(?:           .*\n)*)    wrong: (.*)", text, re.MULTILINE)
        assert any(all(words.startswith(start) for words, start in zip(pair, said)) for pair in pairs), text
    # the last is the README's
    shown = re.search(r"^    line \d+: .*\n(?:     .*\n)+", edits.text_of("README.md"), re.MULTILINE)[0]
    assert textwrap.dedent(shown) in text, shown
    return len(ON_A_DAY) + 1


def not_on_a_day():
    """What cannot be shown on a day gives a sentence and its status."""
    day, found = os.path.join(ROOT, "examples/market-day.txt"), edits.all_edits()
    asked = [(["--on", day], "--on follows a label"), (["expired_listed", "--every"], "--every goes with --on"), (["--days", "--all"], "a label shows one")]
    asked += [(["expired_listed", "--on", "no/such/day"], "No such file"), (["no_such_label", "--on"], "no wrong registrar is called"), (["a", "--on"], "may mean any")]
    asked += [(["wait_on_the_ticket_is_final", "--on", day], "wrong in a definition alone"), (["epoch_left_out", "--on"], "no stored day shows"), (["--days", "no_such_label"], "no wrong")]
    for words, said in asked:
        status, _, err = ended(["wrong"] + words)
        assert status == 2 and said in err.decode(), (words, err)
    with tempfile.NamedTemporaryFile(suffix=".txt") as file:
        for text, said in ((b"key k\nlist 5s /a -> ADS 1\n", "expects ADS 1"), (b"list 5s /a\n", "the first line gives the key"), (b"open capacity=0\n", "a capacity is")):
            file.seek(0)
            file.truncate()
            file.write(text)
            file.flush()
            status, _, err = ended(["wrong", "expired_listed", "--on", file.name])
            assert status == 1 and said in err.decode(), (text, err)
    for name in ("epoch_left_out", "wait_on_the_ticket_is_final"):
        try:
            wrong_days.stored_day(edits.chosen(found, name))
        except Unable as why:
            assert ": " in str(why)
        else:
            raise AssertionError(name)
    return len(asked) + 5


CHECKS = [
    ("wrong registrars", wrong_registrars),
    ("wrong registrars, the first error of each", first_errors),
    ("wrong registrars, listed", wrong_listed),
    ("wrong registrars, their stored days", days_of_all),
    ("wrong registrars on a day", on_a_day),
    ("wrong registrars, what cannot be shown on a day", not_on_a_day),
]
