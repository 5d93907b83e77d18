#!/usr/bin/env python3
"""Holds the pages to the repository: tools/pages.py

    tools/pages.py                  everything that a page says and the repository does not have, a line each
    tools/pages.py --wrap PAGE..    breaks the lines of these pages anew, at 150 characters; tables and commands stay

The pages are the *.md files of the root, of docs/ and of crates/; names and files in the comments of crates are looked at too. In each:
  - every file, folder and wrong registrar (CRATE/LABEL) that it names, and every link;
  - every name in backticks that looks like a law, a definition, a clause, a function, a number of the header or a
    crate: it is declared somewhere, and where a file stands beside it, as in `name` (FILE) or FILE `name`, in that file;
  - that a page which speaks of the papers, as "document 01" or "order 8", says where they are explained, docs/PAPERS.md, no later than that;
  - that ARCHITECTURE's table of crates is crates.txt's: each with those that it stands over and that stand under no other of these;
  - that no line of README, docs/CLASS.md, docs/HOSTS.md and docs/PROMISES.md is longer than 160 characters, but for rows of tables.
A name that is no more may stand in a sentence which says so ("gone", "is now", "takes the place of", "former").

Status: 0 nothing is wrong, 1 something is.
"""

import argparse
import glob
import os
import re
import sys
import textwrap

sys.dont_write_bytecode = True
sys.path.insert(0, os.path.dirname(os.path.realpath(__file__)))

from command import ROOT, run

WIDTH, NARROW = 160, ("README.md", "docs/CLASS.md", "docs/HOSTS.md", "docs/PROMISES.md")
PAPER = re.compile(r"[Dd]ocument 0\d|[Dd]emands? \d|[Oo]rders? \d|\bP1 to P11\b|(?<![\d,.])000\b")
# Words in backticks that name nothing of this repository: those of the programs' lines, of languages and of other programs.
OUTSIDE = set(
    """
    OK WAIT ADS NO STOP END SAME DIFF BAD rt rattle os rattle-kit-5b-plain rattle-kit-13f cargo protoc valgrind try refl requires ensures pub unsafe xor memmove memcmp
    memcpy memset bin PATH copy_within unfolding uint64_t size_t u8 u16 u32 u64 usize i32 i64 f32 f64 bool IpAddr read_exact NULL NAME LABEL CRATE TMPDIR SIGPIPE stdin
    stdout UNGLASSOT_LIB_DIR wrapping_add_u64 chunks_exact rposition position take_while rotate_left rotate_right wrapping_add div_ceil Result Option errno EINTR EAGAIN EWOULDBLOCK ENOSPC write_all
    """.split()
)
PAST = re.compile(r"\b(gone|is now|take the place of|takes the place of|former)\b", re.IGNORECASE)
FILE = r"(?:[\w.+-]+/)*[\w+-]+\.(?:antt|rt|rs|py|md|txt|out|h|c|edit|bin)\b"
PATH = rf"(?:{FILE}|(?:\.ci|bench|crates|docs|examples|host|tools)/[\w./+-]*\w|(?:[\w-]+/)+(?:src|specs|proofs)\b)"
MARKS = {"antt": "--", "rt": "//", "edit": "#"}      # how a comment begins
NAMED = r"`[^`\n]+`"
LISTED = rf"{NAMED}(?:(?:,| and|, and) {NAMED})*"


def text_of(path):
    with open(os.path.join(ROOT, path), encoding="utf-8") as file:
        return file.read()


def files(*patterns):
    found = (path for pattern in patterns for path in glob.glob(os.path.join(glob.escape(ROOT), pattern), recursive=True))
    return sorted({os.path.relpath(path, ROOT) for path in found if os.path.isfile(path)})


def pages():
    """All but those that say what was called otherwise, and stood elsewhere, before the port and before the design pass."""
    return [path for path in files("*.md", "docs/*.md", "docs/changes/*.md", "crates/*/*.md") if path not in ("docs/PORT.md", "docs/DESIGN-PASS.md")]


# What the repository declares

DECLARING = {
    # a definition, a law, a field; a record or a data type; a constructor or a field after 'pub'
    "antt": [r"^[ \t]*(?:(?:pub|unfoldable|abbrev|opaque|private) )*(?:(?:record|data|module) )?([^\s:(){}]+)(?=[ \t][^\n]*?:|[ \t]*\n?:)"],
    "rt": [r"\b(?:fn|struct|enum|const|mod|ensures|static) (\w+)", r"\b(\w+): ", r"^\s+(\w+)(?:\(.*\)| \{.*\})?,$", r"use [\w:]+::(\w+);"],
    "rs": [r"\b(?:fn|struct|enum|const|mod|type|trait|static) (\w+)", r"\b(\w+): ", r"^\s+(\w+)(?: = \d+|\(.*\)| \{.*\})?,$"],
    "h": [r"#define (\w+)", r"\b(unglassot_\w+)\(", r"\b\*?(\w+)[,)]"],
    "py": [r"\b(?:def|class) (\w+)", r"^(\w+)(?:, \w+)* = "],
}


class Repository:
    """Which names are declared in which files, and which crates and wrong registrars there are."""

    def __init__(self):
        self.names = {}         # by file, the names that it declares
        sources = ("crates/*/specs/**/*.antt", "crates/*/proofs/**/*.antt", "crates/*/src/**/*.rt", "host/**/*.rs", "host/**/*.h", "tools/*.py", "bench/**/*.rs")
        for path in files(*sources):
            kind = path.rpartition(".")[2]
            if "/target/" not in path:
                self.names[path] = {name for form in DECLARING[kind] for name in re.findall(form, text_of(path), re.MULTILINE)}
        self.crates = {name for name in os.listdir(os.path.join(ROOT, "crates"))}
        self.edits = {edit[len("crates/") : -len(".edit")].replace("/must-fail/", "/") for edit in files("crates/*/must-fail/*.edit")}
        self.labels = {edit.partition("/")[2] for edit in self.edits}
        self.anywhere = set().union(*self.names.values()) | self.crates | self.labels
        # a file of definitions or laws may be named without its ending, and a function's proof by its folder
        self.anywhere |= {os.path.basename(path).partition(".")[0] for path in self.names}

    def has(self, path):
        return os.path.exists(os.path.join(ROOT, path))

    def place(self, path, before):
        """Where the path of a page is, from the root: as it is, below crates/, or beside the ones named before it; or None."""
        path = path.rstrip("/.")
        for start in ("", "crates/"):
            if self.has(start + path):
                return start + path
        for other in reversed(before):
            folder = other if "." not in os.path.basename(other) else os.path.dirname(other)
            crate = "/".join(folder.split("/")[:2])
            for beside in [folder, crate] + [f"{crate}/{part}" for part in ("specs", "proofs", "src")]:
                if self.has(f"{beside}/{path}"):
                    return f"{beside}/{path}"
        found = [each for each in self.names if each.endswith("/" + path)]
        return found[0] if len(found) == 1 else None

    def declares(self, place, name):
        """Whether a file, or a file of a folder, declares the name."""
        inside = [names for path, names in self.names.items() if path == place or path.startswith(place + "/")]
        return not inside or any(name in names for names in inside)


# What a page says


def plain(name):
    """What is looked up of a word in backticks, or None where it looks like no name: `cache::count` is count."""
    if re.fullmatch(r"_?[A-Za-z][\w']*|[a-z][a-z0-9]*(?:-[a-z0-9]+)+|(?:\w+::)+\w+", name):
        return name.rpartition("::")[2]
    return None


def sentence_of(text, at):
    start = max(text.rfind(end, 0, at) for end in (". ", "; ", "| "))
    ends = [found for found in (text.find(end, at) for end in (". ", "; ", " |")) if found >= 0]
    return text[max(start, 0) : min(ends, default=len(text))]


def blocks(text):
    """Paragraphs and rows of tables, each with the number of its first line; what is indented as a command or its output is left out."""
    block, first = [], 1
    for number, line in enumerate(text.split("\n") + [""], 1):
        if not line.strip() or line.startswith(("|", "#", "    ")) or re.match(r"- |\d+\. ", line):
            if block:
                yield first, " ".join(block)
            block, first = [], number
            if line.startswith("    ") and not block:
                continue
        if line.strip():
            block, first = (block or []) + [line.strip()], first if block else number
    if block:
        yield first, " ".join(block)


def faults_of_block(repository, block, before):
    """What a paragraph names and the repository does not have. before: the places named so far, of which the last counts most."""
    places = {}
    # a file of the reader's own, in a command
    block = re.sub(r"`[^`]+`", lambda code: re.sub(r"(?<=\s)\w+\.c\b", "it", code[0]) if " " in code[0] else code[0], block)
    before[:0] = [f"crates/{word}" for word in re.findall(r"`(\w+)`", block) if word in repository.crates]
    for found in re.finditer(rf"(?<![\w/.])(?:({PATH})|`(\w+)`)", block):
        path, crate = found[1], found[2]
        if crate in repository.crates:
            before.append(f"crates/{crate}")
        if not path or path.startswith("target/") or re.search(r"\b(NAME|LABEL|CRATE|NN|F)\b", path):
            continue
        place = places[found.start()] = repository.place(path, before)
        if place:
            before.append(place)
        elif path not in repository.edits and not PAST.search(sentence_of(block, found.start())):
            yield f"no file '{path}'"
    # FILE `name`; `name` (FILE); in a paragraph also (`name`, FILE), which in a row is a name and then a file of the next
    pairs = [(found[2], (found.start(1), found.end(1))) for found in re.finditer(rf"({PATH}) ({LISTED})", block)]
    between = r" \((?:both |all )?" if block.startswith("|") else r"(?:,(?: both)? (?=[^ ,]*\))| \((?:both |all )?)"
    pairs += [(found[1], found.span(2)) for found in re.finditer(rf"({LISTED}){between}({PATH}(?:(?:,| and|, and) {PATH})*)", block)]
    for names, (start, end) in pairs:
        among = [place for at, place in places.items() if start <= at < end]
        for name in (plain(name.strip("`")) for name in re.findall(NAMED, names)):
            if name and name not in OUTSIDE | repository.crates and among and all(among) and not any(repository.declares(place, name) for place in among):
                yield f"'{name}' is not in {' or '.join(among)}"
    for found in re.finditer(NAMED, block):
        yield from faults_of_name(repository, found[0].strip("`"), sentence_of(block, found.start()))


def faults_of_name(repository, word, sentence):
    if re.fullmatch(r"[a-z0-9_]+/\w+", word) and not repository.has(word) and not repository.has(f"crates/{word}"):
        if word not in repository.edits and not PAST.search(sentence):
            yield f"no wrong registrar '{word}'"
        return
    name = plain(word)
    if name is None or name in OUTSIDE or name in repository.anywhere or PAST.search(sentence):
        return
    if name.startswith("_") and any(each.endswith(name) for each in repository.anywhere):
        return
    yield f"nothing is called '{name}'"


def faults_of_comments(repository, path):
    """(line, what is wrong) of a crate's file: its comments may also name what stands in the file itself, as a local variable."""
    mark, text = MARKS[path.rpartition(".")[2]], text_of(path)
    inside = set(re.findall(r"[\w'-]+", re.sub(rf"^\s*{mark}.*", "", text, flags=re.MULTILINE)))
    crate = "/".join(path.split("/")[:2])
    for comment in re.finditer(rf"(?:^[ \t]*{mark}.*\n)+", text, re.MULTILINE):
        block = " ".join(line.strip()[len(mark) :].strip() for line in comment[0].split("\n"))
        for fault in faults_of_block(repository, block, [crate]):
            name = re.fullmatch(r"nothing is called '(.*)'", fault)
            if not name or name[1] not in inside:
                yield text.count("\n", 0, comment.start()) + 1, fault


def faults_of_labels(repository, block):
    """M CRATE/LABEL, LABEL: the later ones are of the same crate."""
    for found in re.finditer(r"\bM ((?:\w+/)?\w+(?:, (?:\w+/)?\w+)*)", block):
        crate = None
        for each in found[1].split(", "):
            if "/" in each:
                crate = each.partition("/")[0]
            elif crate is None:
                break               # "M of `cache`", all of a crate's
            label = each if "/" in each else f"{crate}/{each}"
            if label not in repository.edits:
                yield f"no wrong registrar '{label}'"


def faults_of_links(path, text):
    for target in re.findall(r"\]\(([^)#\s]+)[^)]*\)", text):
        if not re.match(r"\w+:", target) and not os.path.exists(os.path.join(ROOT, os.path.dirname(path), target)):
            yield f"no file at the link '{target}'"


def faults(repository, path):
    """(line, what is wrong) of a page."""
    text = text_of(path)
    before = []
    for line, block in blocks(text):
        before = [os.path.dirname(path)] if block.startswith("#") else before
        for fault in [*faults_of_block(repository, block, before), *faults_of_labels(repository, block)]:
            yield line, fault
    for fault in faults_of_links(path, text):
        yield 1, fault
    yield from faults_of_lines(path, text)
    if path == "docs/ARCHITECTURE.md":
        yield from faults_of_layers(text)


def layers():
    """crates.txt: each crate with those of the repository that it lists and that are not below another that it lists, in the file's order."""
    needs = {}
    for line in text_of("crates.txt").split("\n"):
        name, colon, listed = line.partition("#")[0].partition(":")
        if colon:
            needs[name.split()[0]] = listed.split()          # behind a name may stand staticlib
    own = {name: [each for each in listed if each in needs] for name, listed in needs.items()}

    def below(name):
        return set(own[name]).union(*map(below, own[name]))

    return {name: [each for each in listed if not any(each in below(other) for other in listed)] for name, listed in own.items()}


def faults_of_layers(text):
    """Of ARCHITECTURE's table against crates.txt."""
    right, table = layers(), {}
    for line, row in enumerate(text.split("\n"), 1):
        cells = re.fullmatch(r"\| `(\w+)` \| (.*?) ?\| (.+) \|", row)
        if cells:
            name, over = cells[1], re.findall(r"`(\w+)`", cells[2])
            if name in table or over != right.get(name) or not set(over) <= set(table):
                yield line, f"the row of {name} is not crates.txt's: it stands over {', '.join(right.get(name, ['nothing that is listed']))}"
            table[name] = over
    for name in right:
        if name not in table:
            yield 1, f"the table of crates has no row | `{name}` | {', '.join(f'`{each}`' for each in right[name])} | .. |"


def faults_of_lines(path, text):
    """Lines that are too long, and papers that are not explained."""
    lines = text.split("\n")
    for line, each in enumerate(lines, 1):
        # a row of a table cannot be broken
        if path in NARROW and len(each) > WIDTH and not each.startswith("|"):
            yield line, f"{len(each)} characters, more than {WIDTH}"
    used = next((at for at, each in enumerate(lines) if PAPER.search(each)), None)
    if used is not None and os.path.basename(path) != "PAPERS.md":
        end = next((at for at in range(used, len(lines)) if not lines[at].strip()), len(lines))
        # a heading names its own order, and the paragraph under it explains
        end = end + 3 if lines[used].startswith("#") else end
        if "PAPERS.md" not in "\n".join(lines[:end]):
            yield used + 1, f"'{PAPER.search(lines[used])[0]}', and PAPERS.md is not named up to there"


# Lines


def wrapped(text, width=150):
    """The text with its paragraphs and lists broken anew, and every word as it was. No line begins with what would make a list, a heading or a row of it."""
    lines, block = [], []

    def flush():
        if block:
            words = re.sub(r" (?=(?:[-+*#|]|\d+\.)(?: |$))", "\0", " ".join(line.strip() for line in block))
            item = re.match(r"(?:- |\d+\.[ \0])", words)
            broken = textwrap.wrap(words, width, subsequent_indent=" " * len(item[0]) if item else "", break_long_words=False, break_on_hyphens=False)
            lines.extend(line.replace("\0", " ") for line in broken)
            block.clear()

    for line in text.split("\n"):
        stays = not line.strip() or line.startswith(("|", "#", "    "))
        if stays or re.match(r"- |\d+\. ", line):
            flush()
        lines.append(line) if stays else block.append(line)
    flush()
    return "\n".join(lines)


def wrap(paths):
    for path in paths:
        with open(path, encoding="utf-8") as file:
            text = file.read()
        with open(path, "w", encoding="utf-8") as file:
            file.write(wrapped(text))


def all_faults():
    repository = Repository()
    sources = files("crates/*/specs/**/*.antt", "crates/*/proofs/**/*.antt", "crates/*/src/**/*.rt", "crates/*/must-fail/*.edit")
    found = [(path, fault) for path in pages() for fault in faults(repository, path)]
    found += [(path, fault) for path in sources for fault in faults_of_comments(repository, path)]
    return [f"{path}:{line}: {fault}" for path, (line, fault) in dict.fromkeys(found)]


def main():
    layout = argparse.RawDescriptionHelpFormatter
    parser = argparse.ArgumentParser(description=__doc__, formatter_class=layout, usage="tools/pages.py [--wrap PAGE..]")
    parser.add_argument("--wrap", nargs="+", help=argparse.SUPPRESS)
    asked = parser.parse_args()
    if asked.wrap:
        return wrap(asked.wrap)
    found = all_faults()
    print("\n".join(found + [f"tools/pages.py: {len(pages())} pages and the comments of crates, {len(found)} faults"]))
    return 1 if found else 0


if __name__ == "__main__":
    run("tools/pages.py", main)
