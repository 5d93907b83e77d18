"""How every tool here ends: with 0, with 1 where what it was asked about is wrong, with 2 where it could not be asked.

A file that is not there, bad usage, a terminal that has not all letters and a reader that leaves before the end of the output, as head
does, give no traceback.
"""

import os
import sys

ROOT = os.path.dirname(os.path.dirname(os.path.realpath(__file__)))


class Failed(Exception):
    """What the tool was asked about is wrong: status 1."""


class Unable(Exception):
    """It could not be asked: status 2."""


def run(name, main):
    """main gives the status, None for 0."""
    for stream in (sys.stdout, sys.stderr):
        # what the terminal has no letter for is shown as '?'
        stream.reconfigure(errors="replace")
    try:
        status = main()
        sys.stdout.flush()
    except (Failed, Unable) as said:
        complain(name, said)
        status = 1 if isinstance(said, Failed) else 2
    except BrokenPipeError:
        os.dup2(os.open(os.devnull, os.O_WRONLY), sys.stdout.fileno())
        status = 1
    except OSError as said:
        complain(name, f"{said.filename or 'input or output'}: {said.strerror}")
        status = 2
    except KeyboardInterrupt:
        status = 130
    sys.exit(status)


def complain(name, said):
    sys.stdout.flush()
    for line in str(said).split("\n"):
        print(f"{name}: {line}", file=sys.stderr)
