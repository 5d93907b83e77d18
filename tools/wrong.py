#!/usr/bin/env python3
"""Shows wrong registrars: what one answers beside the right one, and how the prover refuses it.

    tools/wrong                     lists those of "Four things that people get wrong", each by its mistake
    tools/wrong --all               lists the others too, by crate
    tools/wrong LABEL               the promise that it breaks, what the prover says of it, and the change
    tools/wrong LABEL --on DAY      first runs the day through the right registrar and the wrong one: the lines that differ, in words
    tools/wrong LABEL --on          the same, on the stored day that shows it
    tools/wrong --days [LABEL..]    runs every wrong registrar that has a stored day on it, or these: each must differ

A label is as the list has it, CRATE/LABEL or LABEL alone; a part of it that no other has is enough. The wrong registrars are the files
crates/CRATE/must-fail/LABEL.edit, and the promises are docs/PROMISES.md's. One takes half a minute or so on a quiet machine, once the right
registrar is proved (`rt check`).

A DAY is a text of tools/log.py, a log's or a recorded day's, or lines for tools/registrar, as of tools/lessons, of at most 20 places. The
wrong registrar is compiled as `rt try` compiles a program, and nothing of it is proved; the right one is crates/register_log/out/register_log, replay or
conformance. Ten lines that differ are shown, with --every all; --short leaves out why, the promise and the change, --no-prover what the
prover says. tools/days has the stored days, and tools/days/TABLE which of them shows which.

Status: 0 it was refused, where the prover was asked, and differed; 1 it was NOT refused, or no line differs; 2 it could not be tried.
"""

import argparse
import os
import re
import shutil
import sys
import tempfile
import textwrap
import time
from concurrent.futures import ThreadPoolExecutor

sys.dont_write_bytecode = True
sys.path.insert(0, os.path.dirname(os.path.realpath(__file__)))

import wrong_days
from command import ROOT, Failed, Unable, run
from edits import FOUR, PROMISES, all_edits, changed, chosen, diff, promises, text_of, the_four
from wrong_run import rt

# The prover


def prove_right(crate):
    """rt check in the crate's folder: what is to be refused must be provable without the change."""
    kept = os.path.exists(os.path.join(ROOT, "crates", crate, "out/incremental"))
    news = "" if kept else ", for the first time here, which takes some minutes"
    print(f"Without the change (rt check in crates/{crate}{news}): ", end="", flush=True)
    done = rt(["check"], os.path.join(ROOT, "crates", crate))
    if done.returncode:
        print("NOT proved, so that its wrong registrars show nothing.")
        raise Unable(done.stdout.strip())
    print("proved.", flush=True)


def try_edit(edit):
    """Has rt try this edit alone, on a copy, which begins with what the check here kept; what rt says."""
    with tempfile.TemporaryDirectory(prefix="wrong.") as copy:
        at = os.path.join(copy, "crates")
        shutil.copytree(os.path.join(ROOT, "crates"), at, ignore=shutil.ignore_patterns("must-fail", "out"))
        shutil.copy(os.path.join(ROOT, "crates.txt"), copy)
        os.mkdir(os.path.join(at, edit.crate, "must-fail"))
        shutil.copy(os.path.join(ROOT, "crates", edit.crate, "must-fail", f"{edit.label}.edit"), os.path.join(at, edit.crate, "must-fail"))
        return rt(["must-fail", edit.crate], copy).stdout


def line_of(edit, said):
    """What rt says of this edit, or None."""
    found = re.search(rf"^rt: must-fail {edit.name}\.edit: (.*)", said, re.MULTILINE)
    return found and found[1]


def function_at(path, line):
    """The function that this line of a source file is in, or that it stands above as an attribute; or None."""
    lines = text_of(path).split("\n")
    while line < len(lines) and lines[line - 1].lstrip().startswith("#["):
        line += 1
    above = "\n".join(lines[:line])
    return (re.findall(r"^\s*(?:pub )?(?:extern \"C\" )?fn (\w+)", above, re.MULTILINE) or [None])[-1]


def first_error(edit, line):
    """Where the prover first says no, by rt's line of the edit: (what, file, line)."""
    found = re.search(r": (?:note: )?(?:\./)?((?:src|specs|proofs)/\S+?):(\d+):\d+: (?:error: )?(?:`(\S+?)`)?", line)
    if not found:
        return None
    file, at, fact = found[1], int(found[2]), found[3]
    proof = re.fullmatch(r"proofs/(?:.*/)?\+?(\w+)/(?:Proof|Answers|Invariants)\.antt", file)
    function = proof[1] if proof else function_at(f"crates/{edit.crate}/{file}", at) if file.startswith("src/") else None
    if function:
        return f"function {function}", file, at
    return f"fact {fact}" if fact else file, file, at


# What rt says of an edit that is refused whatever its mistake is: only for a name that is gone; and of one whose text does not fit
UNFIT = re.compile(r"only because a proof file names what the edit took away|^BAD EDIT")


def unfit(line):
    """rt's line of an edit where it is of that kind; else None."""
    return line if UNFIT.search(line) else None


def lines_left(edits):
    """What the last gate's rt ci, whose lines .ci/run leaves in target, said of each edit to a crate that has not changed since."""
    log = os.path.join(ROOT, "target/ci.log")
    if not os.path.exists(log):
        return {}
    made, said = os.path.getmtime(log), open(log, encoding="utf-8", errors="replace").read()
    touched = {crate: touched_at(os.path.join(ROOT, "crates", crate)) for crate in {edit.crate for edit in edits.values()}}
    return {name: line for name, edit in edits.items() if touched[edit.crate] < made and (line := line_of(edit, said))}


def touched_at(folder):
    """When the newest of a crate's files was written."""
    parts = [os.path.join(folder, part) for part in ("src", "specs", "proofs", "must-fail")]
    return max(os.path.getmtime(os.path.join(at, file)) for part in parts for at, _, files in os.walk(part) for file in files)


def judge(edit, promise):
    """Tries the edit and says what came of it; the status."""
    prove_right(edit.crate)
    print("With the change: ", end="", flush=True)
    began = time.monotonic()
    said = try_edit(edit)
    took, line = round(time.monotonic() - began), line_of(edit, said) or ""
    if line.startswith("NOT REFUSED"):
        print(f"\n\n!!! NOT REFUSED !!! The prover accepts {edit.name}: {edit.sentence()}\n!!! The promise above does not rule it out.")
        return 1
    if not line.startswith("refused"):
        print("not tried.")
        raise Unable(f"the prover was not asked:\n{said.strip()}")
    where = first_error(edit, line)
    print(f"refused in {took} s, at {where[0] if where else 'a place that rt does not name'}: {promise}.")
    if where:
        print(f"    crates/{edit.crate}/{where[1]}, line {where[2]}")
    return 0


# What is printed


def paragraph(text, indent="    "):
    return textwrap.fill(text, 110, initial_indent=indent, subsequent_indent=indent, break_long_words=False, break_on_hyphens=False)


def entry(edit, days):
    """days: the stored day of each label that one shows."""
    day = f"\n        day: {days[edit.label]}" if edit.label in days else ""
    return f"    {edit.name}\n" + paragraph(edit.sentence(), " " * 8) + day


def list_edits(edits, whole):
    """The wrong registrars of the four headings; whole: all others behind them."""
    print("Wrong registrars. `tools/wrong LABEL` shows one, and has the prover try it; `tools/wrong LABEL --on` first runs it on a day.")
    shown, days = set(), wrong_days.table()[0]
    for promise, found in the_four(edits):
        print(f"\n{promise.title}")
        for edit in found:
            print(entry(edit, days))
            shown.add(edit.name)
    if not whole:
        print(f"\n{len(edits) - len(shown)} more: tools/wrong --all")
        return
    print("\nThe others, by crate:")
    for name, edit in edits.items():
        if name not in shown:
            print(entry(edit, days))


def show(edit, day=None, every=False, short=False, prover=True):
    """One wrong registrar, whole, and before that on a day, where there is one; the status."""
    change = diff(edit)
    print(paragraph(f"{edit.name}: {edit.sentence()}", "") + "\n", flush=True)
    if day is not None:
        show_on(edit, day or os.path.relpath(os.path.join(ROOT, wrong_days.stored_day(edit))), every, short)
    # a paragraph of the four says it in the words that people get wrong, and comes first
    broken = sorted((promise for promise in promises() if edit.name in promise.cited), key=lambda promise: promise.section != FOUR)
    if not short:
        show_promise(edit, broken)
    status = judge(edit, edit.promise or (broken[0].title if broken else edit.mistake)) if prover else 0
    if not short:
        print(f"\nThe change:\n\n{change}")
    return status


def show_promise(edit, broken):
    print("The promise that it breaks:")
    for promise in broken:
        print(paragraph(promise.words) + f'\n    ({PROMISES}, "{promise.section}")')
    if edit.promise:
        print(paragraph(f"In the code: {edit.promise}."))
    print(flush=True)


# On a day


def show_on(edit, path, every, short=False):
    """The lines of the day where the right registrar and this one differ; fails where none does."""
    compared = wrong_days.compare(edit, wrong_days.read(path))
    if not compared.differ:
        raise Failed(f"on {path} it answers as the right one does, all {compared.lines} lines: this day does not show it{hint(edit, path)}")
    alone = compared.day.program == "conformance"
    how = "Each request is asked by itself, over the cache that the right one has." if alone else "A later line may differ since an earlier one does."
    print(f"It {told(compared, path)}\n{how}\nThe right registrar is proved. The wrong one was run, and is not proved.")
    wrong_days.tell(compared, every, short)
    print(flush=True)


def told(compared, path):
    return f"differs from the right one in {len(compared.differ)} of the {compared.lines} lines of {path}."


def hint(edit, path):
    shown, unshown = wrong_days.table()
    if edit.label in shown:
        return "" if os.path.samefile(os.path.join(ROOT, shown[edit.label]), path) else f"; {shown[edit.label]} does"
    return f". No stored day does: {wrong_days.why_not(edit, unshown)}"


def run_days(edits, labels):
    """Each of these, or every one that has a stored day, on that day; the status."""
    some = [chosen(edits, label) for label in labels] or [edit for edit in edits.values() if edit.label in wrong_days.table()[0]]
    days = [wrong_days.stored_day(edit) for edit in some]
    with ThreadPoolExecutor(os.cpu_count()) as pool:
        tried = list(pool.map(lambda pair: try_on(*pair), zip(some, days)))
    same = tried.count(False)
    how = f"{same} answered as the right one does" if same else "each answers otherwise than the right one"
    print(f"{len(tried)} wrong registrars were run, and not proved: {how}.")
    return 1 if same else 0


def try_on(edit, path):
    """Runs one on its stored day and prints a line; whether it differs."""
    compared = wrong_days.compare(edit, wrong_days.read(os.path.join(ROOT, path)))
    differs = bool(compared.differ)
    print(f"{'ok ' if differs else 'BAD'} {edit.name}: {told(compared, path)}", flush=True)
    return differs


def main():
    layout = argparse.RawDescriptionHelpFormatter
    parser = argparse.ArgumentParser(description=__doc__, formatter_class=layout, usage="tools/wrong [--all | LABEL [--on [DAY] [--every] [--short] [--no-prover]] | --days [LABEL..]]")
    parser.add_argument("label", nargs="?", help=argparse.SUPPRESS)
    parser.add_argument("--all", action="store_true", help=argparse.SUPPRESS)
    parser.add_argument("--on", nargs="?", const="", metavar="DAY", help=argparse.SUPPRESS)
    for name in ("--every", "--short", "--no-prover"):
        parser.add_argument(name, action="store_true", help=argparse.SUPPRESS)
    parser.add_argument("--days", nargs="*", metavar="LABEL", help=argparse.SUPPRESS)
    asked, edits = parser.parse_args(), all_edits()
    if (asked.label is not None) + asked.all + (asked.days is not None) > 1:
        parser.error("--all lists, --days runs the stored days, and a label shows one")
    if asked.on is not None and asked.label is None or (asked.every or asked.short or asked.no_prover) and asked.on is None:
        parser.error("--on follows a label, and --every goes with --on, as --short and --no-prover do")
    if asked.days is not None:
        return run_days(edits, asked.days)
    if asked.label:
        return show(chosen(edits, asked.label), asked.on, asked.every, asked.short, not asked.no_prover)
    return list_edits(edits, asked.all)


if __name__ == "__main__":
    run("tools/wrong", main)
