"""A wrong registrar is built and run, unproved: its edit is applied to a copy of the code, and the copy's program compiled as `rt try` compiles one.

    answers(label, data)    the lines that the wrong program prints on a day's bytes (tools/log.py encode): a log's or a recorded day's
    ran(label, data)        the same, and why the program stopped before its end, where it did

What is built is kept in target/wrong, and built again where the code, the edit or the kit is another. Nothing of it is proved.
"""

import hashlib
import os
import shutil
import subprocess
import tempfile
from dataclasses import dataclass

import edits
import model
from command import ROOT, Unable

SECONDS = 60            # that a program is given; on a stored day it takes none
COMPILED = 1            # ways in which `rt try` compiles: with every assumption of the compiler checked (besides, it interprets)

OWN = ("rt", "rtlib.py")    # of the kit's programs: rt itself, and what it loads

# The linker of the kit, which besides keeps what it linked
LINKER = """#!/bin/sh
"{linker}" "$@" || exit
cp program "{kept}/$(ls "{kept}" | wc -l)"
"""


@dataclass(frozen=True)
class Ran:
    lines: list             # that were printed
    stopped: str = None     # why it did not come to its end


def answers(label, data):
    return ran(label, data).lines


def ran(label, data):
    """A part of a label that no other has is enough, as for tools/wrong."""
    return run(built(edits.chosen(edits.all_edits(), label), program_for(data)), data)


def program_for(data):
    """The program whose input this is."""
    return "replay" if model.is_recorded(data) else "register_log"


def run(program, data):
    with tempfile.TemporaryFile() as file:
        file.write(data)
        file.seek(0)
        try:
            done = subprocess.run([program], stdin=file, capture_output=True, timeout=SECONDS)
        except subprocess.TimeoutExpired as late:
            return Ran(lines_of(late.stdout or b""), f"it was stopped, since it came to no end in {SECONDS} s")
    broke = "it broke off, having done what the prover rules out, as to write outside of a buffer"
    return Ran(lines_of(done.stdout), broke if done.returncode else None)


def lines_of(printed):
    return printed.decode(errors="replace").splitlines()


# Building


def built(edit, program):
    """Where the wrong program is, built anew where it has to be."""
    if not edit.runs():
        raise Unable(f"{edit.name} is wrong in a definition alone: there is no code of it that could run")
    texts = {f"crates/{edit.crate}/{file}": text for file, text in edits.changed(edit).items()}
    path = os.path.join(ROOT, "target/wrong", program, edit.label)
    stamp = stamp_of(texts)
    if not os.path.exists(path) or read(f"{path}.stamp") != stamp:
        os.makedirs(os.path.dirname(path), exist_ok=True)
        with tempfile.TemporaryDirectory(prefix="wrong.") as folder:
            shutil.copy(compiled(edit, program, texts, folder), f"{path}.new")
        os.replace(f"{path}.new", path)
        with open(f"{path}.stamp", "w", encoding="utf-8") as file:
            file.write(stamp)
    return path


def compiled(edit, program, texts, folder):
    """Has rt try the program over a copy of the code with these texts in it; what was linked, which checks every assumption."""
    copy, kit, kept = (os.path.join(folder, name) for name in ("copy", "kit", "kept"))
    for path in sources():
        to = os.path.join(copy, path)
        os.makedirs(os.path.dirname(to), exist_ok=True)
        with open(to, "w", encoding="utf-8") as file:
            file.write(text_with(texts, path))
    os.mkdir(kept)
    make_kit(kit, kept)
    said = rt(["try"], os.path.join(copy, "crates", program), os.path.join(kit, "bin/rt")).stdout
    linked = sorted(os.listdir(kept))
    if len(linked) != COMPILED:
        raise Unable(f"{edit.name} could not be built into {program}:\n{said.strip()}")
    return os.path.join(kept, linked[-1])


def sources():
    """The files that a program is compiled from."""
    found = ["crates.txt"]
    for folder, _, files in os.walk(os.path.join(ROOT, "crates")):
        found += [os.path.relpath(os.path.join(folder, file), ROOT) for file in files if file.endswith(".rt")]
    return sorted(found)


def text_with(texts, path):
    return texts[path] if path in texts else edits.text_of(path)


def stamp_of(texts):
    """Of all that a program is made of: the kit, and the files with these in place of theirs."""
    whole = hashlib.sha256(edits.text_of(os.path.join(kit_home(), "KIT-ID")).encode())
    for path in sources():
        whole.update(f"{path}\0{text_with(texts, path)}\0".encode())
    return whole.hexdigest()


def read(path):
    if not os.path.exists(path):
        return None
    with open(path, encoding="utf-8") as file:
        return file.read()


# The kit


def rt(words, where, program="rt"):
    """program: of another kit. It gets no input."""
    how = {"stdin": subprocess.DEVNULL, "stdout": subprocess.PIPE, "stderr": subprocess.STDOUT, "encoding": "utf-8", "errors": "replace"}
    try:
        return subprocess.run([program] + words, cwd=where, **how)
    except FileNotFoundError:
        raise Unable("the Rattle toolchain, rt, is not on the PATH") from None


def kit_home():
    """The kit's folder, as rt finds it."""
    found = shutil.which("rt")
    if not found:
        raise Unable("the Rattle toolchain, rt, is not on the PATH")
    return os.path.dirname(os.path.dirname(os.path.realpath(found)))


def make_kit(kit, kept):
    """A kit of links to this one's files, but for its linker, which keeps each program that it links in a folder. rt finds a kit by where it lies itself, and
    so it and what it loads are copied."""
    home, linker = kit_home(), "toolchain/bin/ld.lld"
    link_all(home, kit, but=("bin", "toolchain"))
    link_all(os.path.join(home, "bin"), os.path.join(kit, "bin"), but=OWN)
    for name in OWN:
        shutil.copy(os.path.join(home, "bin", name), os.path.join(kit, "bin"))
    link_all(os.path.join(home, "toolchain"), os.path.join(kit, "toolchain"), but=("bin",))
    link_all(os.path.join(home, "toolchain/bin"), os.path.join(kit, "toolchain/bin"), but=("ld.lld",))
    with open(os.path.join(kit, linker), "w", encoding="utf-8") as file:
        file.write(LINKER.format(linker=os.path.join(home, linker), kept=kept))
    os.chmod(os.path.join(kit, linker), 0o755)


def link_all(source, made, but):
    """A folder of links to another's files, but for these."""
    os.mkdir(made)
    for name in os.listdir(source):
        if name not in but:
            os.symlink(os.path.join(source, name), os.path.join(made, name))
