"""Which code a program reaches: read off the sources, by names.

A function reaches all that its body names: each item of that name in its own crate and in those on
which that crate stands, and each call of that name by which a type keeps a trait, in any crate. So
what isn't reached by this reckoning no program calls; what is reached may yet be another item of
the same name.
"""
import glob
import os
import re
from collections import defaultdict
from dataclasses import dataclass

from sources import HEAD, ROOT, UNREAD, without_antt

# Where programs begin: the process, the calls for C with a heap and without, and the example of a
# program.
ROOTS = {"nx_cli": ["main"], "nx_c": None, "nx_live": None, "nx_example": ["main"]}
WORD = re.compile(r"\w+")
EXTERN = re.compile(r"\bextern \"C\" ")


def stands_on():
    """Of each crate, the crates of this repository on which it stands."""
    with open(f"{ROOT}/crates.txt", encoding="utf-8") as file:
        rows = re.findall(r"(?m)^(\w+)[^\n#:]*:(.*)$", file.read())
    crates = {name for name, _ in rows}
    return {name: [it for it in given.split() if it in crates] for name, given in rows}


def end_of(lines, first, indent):
    """The line behind the last one of the item that begins at this line, as rt fmt lays it out."""
    closing, depth = " " * indent + "}", 0
    for at in range(first, len(lines)):
        line = lines[at]
        depth += line.count("{") - line.count("}")
        is_whole = at == first and line.endswith("}")
        if depth == 0 and (is_whole or line.endswith(";") or line in (closing, " " * indent + "{}")):
            return at + 1
    return len(lines)


def items_of(lines):
    """The functions, constants and types of a file, with what stands in its `impl` and `trait`
    blocks: first line, end, name, and whether it stands in the impl of a trait."""
    plain = [EXTERN.sub("", line) for line in lines]
    in_trait = False
    for indent in (0, 4):
        at = 0
        while at < len(plain):
            if plain[at].startswith("impl"):
                in_trait = " for " in plain[at]
            found = HEAD.match(plain[at], indent) if plain[at].startswith(" " * indent) else None
            if found and found[2] not in ("impl", "trait", "use", "mod", "ghost"):
                last = end_of(plain, at, indent)
                yield at, last, found[3], in_trait and indent == 4
                at = last
            else:
                at += 1


@dataclass
class Item:
    """A function, a constant or a type: where it stands, and the words of its body."""
    crate: str
    path: str
    first: int
    end: int
    name: str
    words: set


class Reached:
    """The items of the crates, and which of them a program reaches."""

    def __init__(self):
        self.items = []
        self.named = defaultdict(list)  # of a crate and a name, the numbers of its items
        self.kept = defaultdict(list)  # of a name, the numbers of the calls that keep a trait
        self.below = stands_on()
        for crate in self.below:
            for path in sorted(glob.glob(f"{ROOT}/crates/{crate}/src/**/*.rt", recursive=True)):
                if not re.search(r"/src/tests[/.]", path):
                    self.read(crate, path)
        self.reached = self.reach()

    def read(self, crate, path):
        with open(path, encoding="utf-8") as file:
            lines = file.read().split("\n")
        for first, last, name, in_trait in items_of(lines):
            text = EXTERN.sub("extern ", "\n".join(lines[first:last]))
            words = set(WORD.findall(without_antt(UNREAD.sub(" ", text))[0]))
            self.named[crate, name].append(len(self.items))
            if in_trait:
                self.kept[name].append(len(self.items))
            self.items.append(Item(crate, os.path.relpath(path, ROOT), first, last, name, words))

    def roots(self):
        for number, item in enumerate(self.items):
            begins = ROOTS.get(item.crate, [])
            if item.name in begins if begins is not None else "extern" in item.words:
                yield number

    def reach(self):
        reached, left = set(), list(self.roots())
        while left:
            number = left.pop()
            if number in reached:
                continue
            reached.add(number)
            item = self.items[number]
            for word in item.words:
                left += self.kept[word]
                for home in [item.crate, *self.below[item.crate]]:
                    left += self.named.get((home, word), [])
        return reached

    def is_reached(self, path, line):
        """Whether a program reaches the item in which this line of a file stands, if one does."""
        for number, item in enumerate(self.items):
            if item.path == path and item.first <= line < item.end:
                return number in self.reached
        return True
