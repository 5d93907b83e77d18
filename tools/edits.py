"""The wrong registrars, crates/CRATE/must-fail/LABEL.edit, and the promises of docs/PROMISES.md that name them."""

import difflib
import glob
import os
import re
from dataclasses import dataclass

from command import ROOT, Unable

PROMISES = "docs/PROMISES.md"
FOUR = "Four things that people get wrong"
CITED = re.compile(r"`(\w+/\w+)`")


def text_of(path):
    with open(os.path.join(ROOT, path), encoding="utf-8") as file:
        return file.read()


# The wrong registrars


@dataclass
class Edit:
    crate: str
    label: str
    mistake: str            # what its first comment says before the colon
    promise: str            # and behind it
    changes: list           # (file of the crate, old text, new text)

    @property
    def name(self):
        return f"{self.crate}/{self.label}"

    def runs(self):
        """Whether it changes code, and not definitions alone."""
        return any(file.startswith("src/") for file, _, _ in self.changes)

    def sentence(self):
        return self.mistake[:1].upper() + self.mistake[1:] + "."


def read_edit(path):
    crate, _, label = path[len("crates/") : -len(".edit")].split("/")
    comment, changes, file, old = None, [], None, None
    for line in text_of(path).split("\n"):
        if line.startswith("#") and comment is None:
            comment = line[1:].strip()
        word, _, rest = line.partition(":")
        rest = rest[1:] if rest.startswith(" ") else rest
        if word == "file":
            file = rest
        elif word == "old":
            old = rest
        elif word == "new":
            changes.append((file, old, rest))
    mistake, _, promise = (comment or label.replace("_", " ")).partition(": ")
    return Edit(crate, label, mistake, promise, changes)


def all_edits():
    """By their names."""
    paths = sorted(glob.glob(os.path.join(glob.escape(ROOT), "crates/*/must-fail/*.edit")))
    return {edit.name: edit for edit in (read_edit(os.path.relpath(path, ROOT)) for path in paths)}


def chosen(edits, word):
    """The one edit that the word means."""
    word = word.removesuffix(".edit").replace("-", "_").lower()
    exact = [name for name in edits if word in (name, name.partition("/")[2])]
    found = exact or [name for name in edits if word in name]
    if len(found) != 1:
        some = "".join(f"\n    {name}" for name in found)
        raise Unable(f"'{word}' may mean any of these:{some}" if found else f"no wrong registrar is called '{word}'; tools/wrong --all lists them")
    return edits[found[0]]


def changed(edit):
    """The files that it changes, each with its text after the change."""
    texts = {}
    for file, old, new in edit.changes:
        path = f"crates/{edit.crate}/{file}"
        text = texts[file] if file in texts else text_of(path)
        if text.count(old) != 1:
            raise Unable(f"{edit.name} changes a text that {path} has {text.count(old)} times: {old.strip()}")
        texts[file] = text.replace(old, new)
    return texts


def diff(edit):
    """The change, as a unified diff."""
    lines = []
    for file, wrong in changed(edit).items():
        path = f"crates/{edit.crate}/{file}"
        lines += difflib.unified_diff(text_of(path).splitlines(), wrong.splitlines(), path, f"{path}, wrong", lineterm="")
    return "\n".join(lines)


# The promises


@dataclass
class Promise:
    section: str
    title: str              # what stands in bold
    words: str              # the paragraph without the wrong registrars
    cited: list             # their names


def promises():
    """The paragraphs of PROMISES that name wrong registrars."""
    found, section = [], ""
    for paragraph in text_of(PROMISES).split("\n\n"):
        text = " ".join(paragraph.split())
        if text.startswith("## "):
            section = text[3:]
        words, refused, cited = text.partition("Refused: ")
        if refused:
            title = re.match(r"\*\*(.*?)\*\*", words)
            found.append(Promise(section, title[1] if title else section, words.replace("**", "").strip(), CITED.findall(cited)))
    return found


def the_four(edits):
    """The four headings of PROMISES, each with its wrong registrars that are there."""
    four = [(promise, [edits[name] for name in promise.cited if name in edits]) for promise in promises() if promise.section == FOUR]
    if len(four) != 4:
        raise Unable(f'{PROMISES}, "{FOUR}", names wrong registrars under {len(four)} of four headings')
    for promise, found in four:
        if not found:
            raise Unable(f"{PROMISES}, {promise.title}: none of these is under crates/: {', '.join(promise.cited)}")
    return four
