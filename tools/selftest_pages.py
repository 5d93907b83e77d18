"""The checks of tools/selftest.py that hold the pages: to what the repository has, to what is measured, and to what each is for."""

import os
import re
import shutil
import subprocess
from unittest import mock
from xml.etree import ElementTree

import pages
from command import ROOT
from model import RECORDED_WINDOW, USUAL_WINDOW
from trying import NotRun, ended


def readme_windows():
    """README and --help give both windows."""
    with open(os.path.join(ROOT, "README.md"), encoding="utf-8") as file:
        readme = " ".join(file.read().split())
    helped = " ".join(ended(["log.py", "--help"])[1].decode().split())
    for text in (readme, helped):
        assert f"{USUAL_WINDOW:,} ms in a log" in text and f"{RECORDED_WINDOW:,} in a recorded day" in text, text


def pages_name():
    """Every file, law, definition, clause, function and wrong registrar that a page names is there, and where the page says."""
    found = pages.all_faults()
    assert not found, "\n    " + "\n    ".join(found)
    return len(pages.pages())


def first_screen():
    """README's first lines say what it is, for which machine, who brings what, where rt comes from, and lead on; PROMISES begins with one screen
    of sentences without a symbol or a file."""
    readme, promises = pages.text_of("README.md").split("\n"), pages.text_of("docs/PROMISES.md").partition("\n## ")[0].split("\n")
    top = "\n".join(readme[:24])
    for word in ("library", "Linux on x86-64", "host", "signatures", "storage", "rt version", "(#show-a-class)", "(#link-it)", "docs/PROMISES.md"):
        assert word in top, f"README.md's first lines have no '{word}'"
    link = "\n".join(readme).partition("\n## Link it\n")[2].partition("\n## ")[0]
    assert len(link.strip().split("\n")) <= 14 and "docs/HOSTS.md" in link, "README.md, Link it: ten lines and the way to docs/HOSTS.md"
    assert len(promises) <= 32 and sum(line[:1].isdigit() for line in promises) >= 10, "docs/PROMISES.md: one screen of promises"
    symbols = [line for line in promises if re.search(r"[`_≡·^/]|\.(?:antt|rt)\b", line)]
    assert not symbols, symbols
    return len(promises)


def changes_told():
    """CHANGELOG.md has a paragraph for each version down from the header's, and names every call that came after the first, every program and
    every tool; README says what the licence is, SECURITY.md where to report."""
    log, header = pages.text_of("CHANGELOG.md"), pages.text_of("host/include/unglassot.h")
    version = int(re.search(r"#define UNGLASSOT_VERSION (\d+)", header)[1])
    assert [int(each) for each in re.findall(r"^## Version (\d+)", log, re.MULTILINE)] == list(range(version, 0, -1))
    first = "version open register get_ads service_id write_ad read_ad write_ticket read_ticket sha256 hmac".split()
    calls = set(re.findall(r"^int64_t (unglassot_\w+)\(", header, re.MULTILINE)) - {f"unglassot_{name}" for name in first}
    tools = {path for path in pages.files("tools/*") if os.access(os.path.join(ROOT, path), os.X_OK)}
    tools -= {f"{path}.py" for path in tools}           # a tool without an ending runs the file beside it
    for name in sorted(calls | tools | {"register_log", "replay"}):
        assert f"`{name}" in log, f"CHANGELOG.md has no line for {name}"
    assert "licence" in pages.text_of("README.md") and "How to report" in pages.text_of("SECURITY.md") and "tools/dev" in pages.text_of("CONTRIBUTING.md")
    return version + len(calls | tools)


def stack_measured():
    """docs/HOSTS.md's table of the stack is what bench/stack/run measures, rounded up."""
    if not os.path.exists(os.path.join(ROOT, "target/staticlib/libunglassot.a")) or not shutil.which(os.environ.get("CC", "cc")):
        raise NotRun("target/staticlib/libunglassot.a or a C compiler is missing; this makes the first: tools/build unglassot")
    done = subprocess.run([os.path.join(ROOT, "bench/stack/run")], capture_output=True, text=True)
    assert done.returncode == 0, done.stderr
    table = re.findall(r"^\| (`unglassot_.*|every other) \| ([\d,]+) \|$", pages.text_of("docs/HOSTS.md"), re.MULTILINE)
    rows = [(re.findall(r"`unglassot_(\w+)`", names), int(most.replace(",", ""))) for names, most in table]
    named = {name: most for names, most in rows for name in names}
    other = next(most for names, most in rows if not names)
    measured = {name: int(used) for name, used in (line.split() for line in done.stdout.splitlines())}
    assert measured and set(named) <= set(measured)
    for name, used in measured.items():
        assert 0 < used <= named.get(name, other), f"{name} takes {used} bytes of the stack, and docs/HOSTS.md says {named.get(name, other)}"
    assert max(named.values()) - max(measured.values()) < 1024, "docs/HOSTS.md says far more than is measured"
    return len(measured)


def pages_caught():
    """What tools/pages.py is for: a sentence with a wrong name, a wrong place, a wrong label or a wrong file is told, and a right one is not."""
    repository = pages.Repository()
    wrong = ["Law: `never_proved`.", "Laws: `wait_never_zero` (crates/wait/proofs/Lawes.antt).", "`start_at` is a definition."]
    wrong += ["Laws: `wait_never_zero` (crates/ticket/proofs/Tickets.antt).", "Refused: `wait/two_factors`."]
    wrong += ["| a | wait/specs/Exact.antt `start_of` (D) |", "| a | M wait/one_factor, two_factors |"]
    wrong += ["Laws: `wait_never_zero`, `working_not_below` (crates/wait/proofs/Laws.antt, Bounds.antt)."]
    wrong += ["See docs/NOWHERE.md.", "`unglassot_close` ends it.", "(`wait_never_zero`, crates/ticket/proofs/Tickets.antt)"]
    right = ["Laws: `wait_never_zero` (crates/wait/proofs/Laws.antt).", "| a | wait/specs/Wait.antt `start_of` (D) |"]
    right += ["| a | b (P); M wait/one_factor, one_factor_in_the_definition |"]
    right += ["Laws: `wait_never_zero`, `working_not_below` (crates/wait/proofs/Laws.antt and Growth.antt)."]
    right += ["`old_name` is gone.", "Run `rt check` and `cargo`.", "`unglassot_open` (host/include/unglassot.h)", "In `wait` (specs/Exact.antt, Wait.antt)."]
    for text, some in [(text, True) for text in wrong] + [(text, False) for text in right]:
        told = [*pages.faults_of_block(repository, text, []), *pages.faults_of_labels(repository, text)]
        assert bool(told) == some, (text, told)
    for text, some in (("-- law `never_proved`\na : N\n", True), ("-- `here` is local\nlet here = 1\n", False), ("x\n  -- see specs/Nowhere.antt\n", True)):
        with mock.patch.object(pages, "text_of", lambda path: text):
            assert bool(list(pages.faults_of_comments(repository, "crates/wait/specs/Wait.antt"))) == some, text
    table, changes = pages.text_of("docs/ARCHITECTURE.md"), [("| `cache` | `times`, `record` |", "| `cache` | `record` |")]
    for old, new in changes + [("| `wire` |", "| `wires` |"), ("| `listing` | `cache` |", "| `listing` | `cache`, `search` |")]:
        assert not list(pages.faults_of_layers(table)) and list(pages.faults_of_layers(table.replace(old, new))), old
    return len(wrong) + len(right) + 6


def pages_wrapped():
    """Breaking the lines of a page anew leaves its words, its tables and its commands, and doing it twice changes nothing."""
    for path in pages.pages():
        text = pages.text_of(path)
        once = pages.wrapped(text)
        assert once.split() == text.split() and pages.wrapped(once) == once, path
        for kept in (r"^\|.*", r"^#.*", r"^    .*"):
            assert re.findall(kept, once, re.MULTILINE) == re.findall(kept, text, re.MULTILINE), (path, kept)
        assert len(re.findall(r"^(?:- |\d+\. )", once, re.MULTILINE)) == len(re.findall(r"^(?:- |\d+\. )", text, re.MULTILINE)), path
        assert max((len(line) for line in once.split("\n") if not line.startswith(("|", "#", "    ")) and " " in line.strip()), default=0) <= pages.WIDTH, path
    assert pages.wrapped("a " * 74 + "is 4. Not\nb - c") == ("a " * 74).strip() + "\nis 4. Not b - c"
    return len(pages.pages())


def plot_drawn():
    """docs/first-ask.svg, which bench/plot makes, is whole in itself, needs no colour, and has a line in each of its two halves for each of the four."""
    text = pages.text_of("docs/first-ask.svg")
    drawing = ElementTree.fromstring(text)
    assert "href" not in text and "url(" not in text and "@import" not in text
    colours = set(re.findall(r"(?:stroke|fill)='([^']+)'", text))
    assert colours <= {"black", "white", "none", "#ccc"}, colours
    lines = [each for each in drawing.iter() if each.tag.endswith("polyline")]
    dashes = [line.get("stroke-dasharray") for line in lines]
    assert len(lines) == 8 and len(set(dashes)) == 4 and all(len(line.get("points").split()) >= 10 for line in lines)
    return len(lines)


CHECKS = [
    ("README.md and --help, the registration windows", readme_windows),
    ("pages name what is there", pages_name),
    ("pages that name what is not there", pages_caught),
    ("pages whose lines are broken anew", pages_wrapped),
    ("the first screen of README.md and of docs/PROMISES.md", first_screen),
    ("docs/HOSTS.md, the stack of each call", stack_measured),
    ("CHANGELOG.md, versions, calls and tools", changes_told),
    ("docs/first-ask.svg, whole and without colour", plot_drawn),
]
