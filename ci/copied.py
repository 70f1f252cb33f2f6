"""A copy of the crates, in which a script changes one of them and checks it."""
import os
import re
import shutil
import subprocess


class NotProved(Exception):
    """The crate isn't proved as it stands."""


def crates_below(crate):
    """The crate and those of the repository that it stands on."""
    with open("crates.txt", encoding="utf-8") as file:
        text = file.read()
    stands_on = {name: below.split() for name, below in
                 re.findall(r"(?m)^(\w+)[^:#\n]*:([^#\n]*)", text)}
    found, more = set(), [crate]
    while more:
        name = more.pop()
        if name in stands_on and name not in found:
            found.add(name)
            more += stands_on[name]
    return found


def take(file, to):
    """Copies a file; what was proved by a link, since a check replaces such a file and changes none."""
    if file.endswith(".oantt"):
        try:
            return os.link(file, to)
        except OSError:
            pass
    return shutil.copy2(file, to)


def make_copy(copy, crate):
    """Copies the crates, with what checks of this one and those below it kept; checks it if there is nothing."""
    for name in ("crates.txt", "HANDLES"):
        if os.path.exists(name):
            shutil.copy(name, copy)
    shutil.copytree("crates", f"{copy}/crates", ignore=shutil.ignore_patterns("out", "must-fail"))
    for name in crates_below(crate):
        if os.path.isdir(f"crates/{name}/out"):
            shutil.copytree(f"crates/{name}/out", f"{copy}/crates/{name}/out", symlinks=True, copy_function=take)
    if not os.path.isdir(f"{copy}/crates/{crate}/out/incremental"):
        print(f"{crate} was not checked here: it is checked first", flush=True)
        words = ["rt", "check", "--jobs", "1"]
        ran = subprocess.run(words, cwd=f"{copy}/crates/{crate}", stdin=subprocess.DEVNULL,
                             stdout=subprocess.PIPE, stderr=subprocess.STDOUT, text=True, errors="replace")
        if ran.returncode:
            raise NotProved(f"{crate} is not proved: {ran.stdout[-300:]}")
