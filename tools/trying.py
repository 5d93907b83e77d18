"""What the tools' own checks share: a program or a tool is run, and what it wrote."""

import contextlib
import io
import os
import subprocess

import command
import log
from command import ROOT


class NotRun(Exception):
    """What a check needs is not there."""


def program(name):
    try:
        return log.program(name)
    except command.Unable as missing:
        raise NotRun(missing) from None


def tried(lines, short=False):
    with contextlib.redirect_stdout(io.StringIO()) as printed:
        log.try_day(lines, short)
    return printed.getvalue()


def ended(words, data=b"", cut=False, more=()):
    """A tool's status and what it wrote. cut: nobody reads its output. more: of its environment."""
    where, around = os.path.join(ROOT, "tools", words[0]), {**os.environ, **dict(more)}
    with subprocess.Popen([where] + words[1:], stdin=subprocess.PIPE, stdout=subprocess.PIPE, stderr=subprocess.PIPE, env=around) as tool:
        if cut:
            tool.stdout.close()
            tool.stdout = None
        out, err = tool.communicate(data)
    assert b"Traceback" not in err, err.decode()
    return tool.returncode, out or b"", err
