"""What `elements` and `tones` share as programs: a Python that has numpy, the version, and faults of
words."""
import argparse
import os
import sys

NAME = os.path.basename(sys.argv[0])
SYSTEM = "/usr/bin/python3"


def fault(text):
    sys.exit(f"{NAME}: {text}")


def need_numpy():
    """Goes on, with the same words and the same input, as the system's Python where this one has no
    numpy: another one may stand first in the path."""
    try:
        import numpy  # noqa: F401
    except ImportError:
        if sys.executable != SYSTEM and os.access(SYSTEM, os.X_OK):
            os.execv(SYSTEM, [SYSTEM, *sys.argv])
        fault(f"this Python, {sys.executable}, has no numpy (Debian: python3-numpy)")


def version():
    """The version of the program that this stands beside: of a package, or of the repository."""
    here = os.path.dirname(os.path.realpath(__file__))
    for path in ("VERSION", "../../VERSION"):
        if os.path.isfile(os.path.join(here, path)):
            with open(os.path.join(here, path), encoding="ascii") as file:
                return file.read().strip()
    return "of unknown version"


class Words(argparse.ArgumentParser):
    """Reads the words of a tool; a fault of theirs is one line."""

    def __init__(self, text):
        super().__init__(description=text)
        self.add_argument("--version", action="version", version=f"{NAME} {version()}", help="say the version")

    def error(self, message):
        fault(message + ": it is --centre here" * ("--center" in message))
