"""What the scripts share that run `rt try`."""

import contextlib
import os
import signal
import time


def end_hints(tool):
    """Ends the check that `rt try` starts beside what it runs. It gives hints alone, which
    `rt check` gives too, and would take a third of the time. Where there is none, or it can't be
    found, nothing is ended."""
    while tool.poll() is None:
        time.sleep(1)
        with contextlib.suppress(OSError):
            with open(f"/proc/{tool.pid}/task/{tool.pid}/children") as file:
                children = file.read().split()
            for child in children:
                with open(f"/proc/{child}/cmdline", "rb") as file:
                    words = file.read().split(b"\0")
                if words[1:2] == [b"check"] and b"no function" in words:
                    os.kill(int(child), signal.SIGTERM)
                    return
