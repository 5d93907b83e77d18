#!/usr/bin/env python3
"""The replay's short cases, from the table in crates/replay_edges/CASES.md.

    tools/make_edges.py stdin > crates/replay_edges/stdin      the cases as bytes
    tools/make_edges.py stdout > crates/replay_edges/stdout    what the model prints of each, under its name

Status: 0 made, 1 the table's lines are not the model's, 2 it could not be tried.
"""

import argparse
import os
import sys

sys.dont_write_bytecode = True

import command
import model
from command import ROOT

PATH = "crates/replay_edges/CASES.md"
NAME, DAY = 60, 536


def octets_of(word, runs):
    """A named run, NAME[:n] its first n bytes, hex digits, or HEX*n."""
    word = word.strip("`")
    if word[0].isupper():
        name, _, end = word.rstrip("]").partition("[:")
        return runs[name][: int(end)] if end else runs[name]
    digits, _, times = word.partition("*")
    return bytes.fromhex(digits) * int(times or 1)


def table(path):
    """The cases of a table: number, name, input and the lines that stand there."""
    runs = {}
    with open(os.path.join(ROOT, path), encoding="utf-8") as file:
        for line in file:
            cells = [cell.strip() for cell in line.split("|")[1:-1]]
            if len(cells) == 4 and cells[0].isdigit():
                told = cells[3].strip("`")
                yield cells[0], cells[1], b"".join(octets_of(word, runs) for word in cells[2].split()), told.split(" / ") if told else []
            elif len(cells) == 3 and cells[0].isupper():
                runs[cells[0]] = b"".join(octets_of(word, runs) for word in cells[1].strip("`").split())
                if len(runs[cells[0]]) != int(cells[2]):
                    raise command.Failed(f"{path}: {cells[0]} has {len(runs[cells[0]])} bytes")


def made():
    """Both files."""
    given, printed = b"", b""
    for number, name, data, told in table(PATH):
        lines = list(model.replay(data))
        if lines != told:
            raise command.Failed(f"{PATH}: case {number} has {told}, and the model {lines}")
        title = f"{number} {name}\n".encode()
        if len(title) > NAME or len(data) > DAY:
            raise command.Failed(f"{PATH}: case {number} is too long")
        given += len(title).to_bytes(2, "big") + len(data).to_bytes(2, "big") + title.ljust(NAME, b"\0") + data.ljust(DAY, b"\0")
        printed += title + b"".join(f"{line}\n".encode() for line in lines)
    return {"stdin": given, "stdout": printed}


def main():
    layout = argparse.RawDescriptionHelpFormatter
    parser = argparse.ArgumentParser(description=__doc__, formatter_class=layout, usage="tools/make_edges.py stdin|stdout")
    parser.add_argument("file", choices=("stdin", "stdout"), help=argparse.SUPPRESS)
    sys.stdout.buffer.write(made()[parser.parse_args().file])
    return 0


if __name__ == "__main__":
    command.run("tools/make_edges.py", main)
