#!/usr/bin/env python3
"""Holds the lesson, docs/CLASS.md, to what its commands print.

    tools/class_page.py             runs every command of the page, two at a time, and shows where the page has something else
    tools/class_page.py --write     writes what the commands print into the page; with --prover the prover is asked too, which takes minutes
    tools/class_page.py --hand-out  prints the page's last section, which fits one sheet of paper

A command is an indented line that begins with '$ '. It is run from the root, and what it prints stands below it, up to the next command
or to the end of the indented lines. The prover's own lines, how long it took and where it stopped, are shown and not compared: the prover
is not asked here, since the gate tries every wrong registrar. With --write the answers of tools/registrar are the model's, and the prover's
lines stay as they are, unless it is asked, or there are none.

Status: 0 the page shows what is printed, 1 it does not, 2 for bad usage.
"""

import argparse
import concurrent.futures
import difflib
import os
import re
import shlex
import subprocess
import sys
from dataclasses import dataclass

sys.dont_write_bytecode = True
sys.path.insert(0, os.path.dirname(os.path.realpath(__file__)))

from command import ROOT, Failed, run

PAGE = "docs/CLASS.md"
INDENT, PROMPT = "    ", "    $ "
AT_A_TIME = 2
MODEL_ALONE, BY_BOTH = "of the model alone: nothing is compared with it.", "of the proved library: the model gives the same."
HAND_OUT = "## To hand out\n"
PROVERS = re.compile(r"Without the change \(rt check|With the change: |    crates/\S+, line \d+$")     # how the prover's own lines begin


@dataclass
class Shown:
    """A command of the page: the lines from start to end are what it is said to print."""

    words: list
    start: int
    end: int


def commands(lines):
    found, inside = [], False
    for number, line in enumerate(lines, 1):
        if line.startswith(PROMPT):
            found.append(Shown(shlex.split(line[len(PROMPT) :]), number, number))
            inside = True
        elif line.startswith(INDENT) and inside:
            found[-1].end = number
        elif line.strip():
            inside = False
    return found


def shown(lines, command):
    return [line[len(INDENT) :] for line in lines[command.start : command.end]]


def printed(words):
    """What a command prints, line by line, and its status."""
    done = subprocess.run(words, cwd=ROOT, stdin=subprocess.DEVNULL, stdout=subprocess.PIPE, stderr=subprocess.STDOUT, encoding="utf-8", errors="replace")
    return [line.rstrip() for line in done.stdout.rstrip().split("\n")], done.returncode


def unproved(words):
    """What a command prints where the prover is not asked."""
    return printed([*words, "--no-prover"] if words[0] == "tools/wrong" else words)


def without_prover(lines):
    kept = [line for line in lines if not PROVERS.match(line)]
    while kept and not kept[-1]:
        kept.pop()
    return kept


def as_model(words):
    """What a command of tools/registrar must print, by the model."""
    lines, status = printed([*words, "--model"])
    return [line.replace(MODEL_ALONE, BY_BOTH) for line in lines], status


def renewed(words, provers):
    """What is written below a command: by the model where it can tell, and with these lines of the prover, which is asked where there are none."""
    how = as_model if words[0] == "tools/registrar" else unproved if provers else printed
    said, status = how(words)
    if status:
        raise Failed(f"{' '.join(words)} ended with status {status}, and nothing is written: {said[-1]}")
    return [*said, "", *provers] if provers else said


def side_by_side(how, *rows, at_a_time=AT_A_TIME):
    """How each row of these comes out, some at a time."""
    with concurrent.futures.ThreadPoolExecutor(at_a_time) as pool:
        return list(pool.map(how, *rows))


# The page


def faults(lines):
    """Where the page shows something else than is printed."""
    found = commands(lines)
    for command, (said, status) in zip(found, side_by_side(unproved, [command.words for command in found])):
        name = f"{PAGE}:{command.start}: {' '.join(command.words)}"
        if status:
            yield f"{name} ended with status {status}"
        page, now = (without_prover(each) for each in (shown(lines, command), said))
        if page != now:
            yield "\n".join([f"{name} prints something else:", *difflib.unified_diff(page, now, "the page", "now", lineterm="")])


def written(lines, prover=False):
    """The page's lines, with what the commands print. prover: it is asked anew."""
    found, made = commands(lines), list(lines)
    provers = [[line for line in shown(lines, command) if PROVERS.match(line) and not prover] for command in found]
    # one check begins with what another keeps, and so not two at once
    said = side_by_side(renewed, [command.words for command in found], provers, at_a_time=1 if prover else AT_A_TIME)
    for command, now in reversed(list(zip(found, said))):
        made[command.start : command.end] = [(INDENT + line).rstrip() for line in now]
    return made


def hand_out(text):
    """The last section, without its heading and the indent."""
    lines = text.partition(HAND_OUT)[2].split("\n")
    return "\n".join(line[len(INDENT) :] for line in lines if line.startswith(INDENT) or not line).strip("\n") + "\n"


def main():
    layout = argparse.RawDescriptionHelpFormatter
    parser = argparse.ArgumentParser(description=__doc__, formatter_class=layout, usage="tools/class_page.py [--write [--prover] | --hand-out]")
    for name in ("--write", "--prover", "--hand-out"):
        parser.add_argument(name, action="store_true", help=argparse.SUPPRESS)
    asked, path = parser.parse_args(), os.path.join(ROOT, PAGE)
    if asked.write and asked.hand_out or asked.prover and not asked.write:
        parser.error("--prover goes with --write, and --hand-out stands alone")
    with open(path, encoding="utf-8") as file:
        text = file.read()
    if asked.hand_out:
        return print(hand_out(text), end="")
    lines = text.split("\n")
    if asked.write:
        made = written(lines, asked.prover)
        with open(path, "w", encoding="utf-8") as file:
            return print("\n".join(made), end="", file=file)
    found = list(faults(lines))
    print("\n".join(found) if found else f"{PAGE} shows what its {len(commands(lines))} commands print.")
    return 1 if found else 0


if __name__ == "__main__":
    run("tools/class_page.py", main)
