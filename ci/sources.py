"""Reads the definitions of crates/*/specs and the items of crates/*/src, and what each of them
names.

It reads the sources alone, without the toolchain, and relies on the form that `rt fmt` gives them:
an item begins at its indent and ends there. Names are followed through `use` lines, with `as` and
braces, through modules that are imported whole, `declared` types and what a lib.rt hands out; what
a pattern, a parameter, a field or a λ binds is no name of anything else.
"""

import os
import re
from collections import defaultdict
from dataclasses import dataclass, field

ROOT = os.path.dirname(os.path.dirname(os.path.abspath(__file__)))
# The constructors of std that stand in patterns.
MAKERS = set("zero suc true false tt [] ∷ Some None Ok Err".split())
NAME = r"[^\s(){}\[\];,.\"λ]+"
TOKEN = re.compile(rf'"[^"]*"|\[\]|{NAME}(?:\.{NAME})*|[()\[\]{{}};,.λ]')
# The head of an item of Rust, and where a text of antt begins in one.
HEAD = re.compile(r"(pub )?(?:pub\(\w+\) )?(fn|struct|enum|trait|impl|const|static|type|mod|use|ghost)\b *(\w*)")
GHOST = re.compile(r"\b(?:(?:requires|ensures)\*?(?: \w+)?|ghost \w+(?::| =)) \{")
UNREAD = re.compile(r"//[^\n]*|\"(?:\\.|[^\"\\])*\"|'(?:\\.[^']*|[^'\\])'|#!?\[[^\n]*\]", re.S)


@dataclass
class Item:
    """A definition, a type, a model, a trait, a constant or a call, and the keys of what it names, in order."""
    path: str
    name: str
    start: int
    end: int
    public: bool = False
    lines: int = 0
    comments: int = 0
    names: dict = field(default_factory=dict)
    law: str = ""

    def take_law(self, lines, start):
        """Takes the name of the law that the comment directly before says to say what this is."""
        first = start
        while first > 0 and lines[first - 1].startswith("--"):
            first -= 1
        found = re.search(r"the law `(\w+)` says", " ".join(line.lstrip("- ") for line in lines[first:start]))
        self.law = found[1] if found else self.law

    def count(self, lines, start, end):
        """Counts these lines, and the comment directly before them."""
        while start > 0 and re.match(r"\s*(--|//|#\[)", lines[start - 1]):
            start -= 1
        shown = [line for line in map(str.strip, lines[start:end]) if line and not line.startswith("#[")]
        comments = sum(line.startswith(("--", "//")) for line in shown)
        self.comments += comments
        self.lines += len(shown) - comments


class Scope(dict):
    """What the names of a module mean: a module and a name in it, or None for that module itself."""

    def __init__(self, home, names=()):
        super().__init__(names)
        self.home = home

    def take(self, line):
        """Takes a `use` line of antt."""
        path, braces = re.fullmatch(r"(?:ghost )?use (.*?)(?:\.\{(.*)\})?;?", " ".join(line.split())).groups()
        if braces is None:
            path, _, alias = path.partition(" as ")
            self[alias or path.split(".")[-1]] = (path, None)
        for one in filter(None, map(str.strip, (braces or "").split(","))):
            name, _, alias = one.partition(" as ")
            self[alias or name] = self[(alias or name).strip("◌").split("◌")[0]] = (path, name)

    def find(self, chain):
        """The module and the name that this chain of names begins with, or two empty texts."""
        path, name = self.get(chain.split(".")[0], ("", ""))
        return (path, name) if name is not None else (path, (chain + ".").split(".")[1])


def free_names(text, bound=()):
    """The names in a text of antt that it doesn't bind, and those that are bound after it."""
    tokens = TOKEN.findall(re.sub(r"(?m)(^|\s)--.*", r"\1", text)) + [""]
    scopes, groups, names, at = [set(bound)], [], [], 0
    while tokens[at]:
        token, end = tokens[at], at + 1
        while re.fullmatch(NAME, tokens[end]) and tokens[end] != ":":
            end += 1
        if token in "([{":
            binds = tokens[end] == ":"
            groups.append(tokens[at + 1:end] if binds else [])
            scopes.append(set())
            at = end if binds else at
        elif token in ")]}" and groups:
            scopes.pop()
            scopes[-1].update(groups.pop())
        elif token == "λ":
            scopes[-1].update(tokens[at + 1:end])
            at = end - 1
        elif tokens[at + 1] == ":" and len(scopes) == 1 or token == "let":
            scopes[-1].add(tokens[at + 1] if token == "let" else token)
        elif not (tokens[at + 1] == "=" and tokens[at - 1] in "{;" or any(token.split(".")[0] in it for it in scopes)):
            names.append(token)
        at += 1
    return names, scopes[0]


def without_modules(lines):
    """The lines of antt, where the items below `module _ (..) where` stand as if they had no parameters in common."""
    inside = False
    for line in lines:
        is_head = line.startswith("module _ ")
        inside = is_head or inside and (not line or line.startswith("  "))
        yield "" if is_head else line[2:] if inside else line


def without_antt(text):
    """A text of Rust without its clauses and ghosts, and what stands in these."""
    plain, inside, at = "", [], 0
    while found := GHOST.search(text, at):
        plain, at, depth = plain + text[at:found.start()], found.end(), 1
        while depth:
            depth += {"{": 1, "}": -1}.get(text[at], 0)
            at += 1
        inside.append(text[found.end():at - 1])
    return plain + text[at:], inside


def blocks(lines, start, end, indent):
    """The items of Rust that begin at this indent: the first line, the end, whether public, the kind, the name."""
    at = start
    while at < end:
        found = HEAD.match(lines[at], indent) if lines[at].startswith(" " * indent) else None
        if found:
            first, depth = at, 0
            while True:
                line = lines[at]
                depth += line.count("{") - line.count("}")
                closes = line[indent:].startswith(("}", "{}")) or at == first and line.endswith("}")
                if depth == 0 and (closes or line.endswith(";")):
                    break
                at += 1
            yield first, at + 1, bool(found[1]), found[2], found[3]
        at += 1


class Sources:
    """All items of the crates, by path and name, and what each names."""

    def __init__(self):
        with open(f"{ROOT}/crates.txt") as file:
            self.stands_on = {row[1]: row[2].split() for row in re.finditer(r"(?m)^(\w+):(.*)$", file.read())}
        self.items = {}
        self.names = defaultdict(dict)  # of a module of specs/ or src/, the key of each name in it
        self.makers = set()  # the constructors of data, each by its module and name
        self.uses = defaultdict(dict)  # of a module of src/, where each name of its `use` lines comes from
        self.handed_out = defaultdict(list)  # of a crate, a module and a name in it, or None for all that is public
        self.parts = defaultdict(list)  # of a type, the keys of its calls and of what it implements
        self.views = defaultdict(str)  # of a type with a model, the text of its value and its view
        self.later = []  # items, and what gives the keys that they name once all is read
        self.members = []  # keys of what stands in an impl, and what gives the key of its type once all is read
        for crate in self.stands_on:
            for folder, _, files in sorted(os.walk(f"{ROOT}/crates/{crate}")):
                for path in sorted(os.path.relpath(f"{folder}/{name}", ROOT) for name in files):
                    inside = re.fullmatch(r"crates/(\w+)/(specs|src)/(?!tests\b)(.*)\.(?:antt|rt)", path)
                    if inside:
                        with open(f"{ROOT}/{path}") as file:
                            read = self.read_specs if inside[2] == "specs" else self.read_source
                            read(path, (crate, inside[2], *inside[3].split("/")), file.read().split("\n"))
        for key, owner in self.members:
            self.parts[owner()].append(key)
        for item, keys in self.later:
            item.names.update((key, None) for key in keys() if key and key != (item.path, item.name))

    def key(self, scope, chain):
        """The key of what this chain of names begins with; what std and the kit define has a key without a path."""
        module, name = scope.find(chain)
        if not name:
            return self.rust_key(scope.home, chain.split(".")[0])
        _, crate, *rest = module.split(".")
        # a lemma of proofs/ that a definition names in a proof of its own is no definition
        if crate not in self.stands_on or rest[0] == "proofs":
            return (None, f"{module}.{name}")
        home, one = (crate, *rest), name
        if rest[1:2] == ["declared"]:
            home = (crate, "src", *rest[2:-2 if rest[-1] == "TheVariants" else -1])
            one = {"TheConstants": name, "TheVariants": rest[-2]}.get(rest[-1], rest[-1])
        if one not in self.names[home]:
            raise SystemExit(f"{'/'.join(scope.home)}: {module} has no {name} that ci/sources.py can read")
        return self.names[home][one]

    def rust_key(self, home, name):
        """The key of what a name of Rust means in a module of src/."""
        if home[1] != "src" or name in self.names[home] or name not in self.uses[home]:
            return self.names[home].get(name) if home[1] == "src" else None
        crate, *path, name = self.uses[home][name]
        if home[2] == "lib" and (home[0], "src", crate) in self.names:
            crate, path = "crate", [crate, *path]
        crate = home[0] if crate == "crate" else crate
        if crate in self.stands_on:
            return self.rust_key((crate, "src", *(path or ["lib"])), name)
        return (None, "::".join((crate, *path, name)))

    def read_specs(self, path, module, lines):
        scope, here, lines = Scope(module), ".".join(("Rattle", *module)), [*without_modules(lines)]
        starts = [at for at, line in enumerate(lines)
                  if line and not line.startswith((" ", "--", "}", ")", "unfolding "))]
        for start, end in zip(starts, [*starts[1:], len(lines)]):
            while not lines[end - 1] or lines[end - 1].startswith("--"):
                end -= 1
            kind, text = re.fullmatch(r"((?:(?:pub|abbrev|unfoldable|data|record|mod) )*)(.*)",
                                      "\n".join(lines[start:end]), re.S).groups()
            name = text.split()[0]
            if name == "use":
                scope.take(text)
            elif "mod" not in kind:
                goes_on = (path, name) in self.items
                item = self.items.setdefault((path, name), Item(path, name, start + 1, end))
                item.count(lines, start, end)
                item.take_law(lines, start)
                item.end = max(item.end, end)
                head, *members = re.split(r"\n  (?:pub )?(?=[^\s-])", text)
                names, bound = free_names("" if goes_on else head)
                for first, _, rest in (member.partition(" :") for member in members):
                    names += free_names(rest, bound)[0]
                    bound = bound | {first}
                makers = [member.split()[0] for member in members] if "data" in kind else []
                self.makers.update((here, maker) for maker in makers)
                for one in (name, *makers):
                    scope[one], self.names[module][one] = (here, one), (path, name)
                said = lambda item=item, text=text: self.said_keys(scope, item, text)  # noqa: E731
                self.later.append((item, said if goes_on else
                                   (lambda names=names: [self.key(scope, name) for name in names])))

    def said_keys(self, scope, item, text):
        """What one clause of a definition names.

        Where it names a private definition, and the comment of its own says 'the law `NAME` says',
        it is that law in their stead: what the private definition is, the law says.
        """
        keys = self.clause_keys(scope, text)
        is_private = any(key and key[0] and "/specs/private/" in key[0] for key in keys)
        if not item.law or not is_private or "/specs/private/" in item.path:
            return keys
        laws = (scope.home[0], "src", "laws")
        if item.law not in self.names[laws]:
            raise SystemExit(f"{item.path}: {item.name} names a law {item.law}, which isn't there")
        return [self.names[laws][item.law]]

    def clause_keys(self, scope, text):
        """What one clause of a definition names: its patterns name constructors, and bind all else."""
        left, _, right = text.partition(" =")
        names, bound = [], set()
        for token in TOKEN.findall(left)[1:]:
            found = scope.find(token)
            makes = found in self.makers or found[0].endswith("TheVariants") or found[1] in MAKERS
            names.append(token) if makes else bound.add(token)
        return [self.key(scope, name) for name in names + free_names(right, bound)[0]]

    def read_source(self, path, module, lines):
        blank = UNREAD.sub(lambda it: re.sub(r"[^\n]", " ", it[0]), "\n".join(lines)).split("\n")
        blank = [line.rstrip() for line in blank]
        is_program, module = module[2] == "main", (*module[:2], "lib") if module[2] == "main" else module
        scope, found = Scope(module), list(blocks(blank, 0, len(blank), 0))
        for start, end, public, kind, name in found:
            text = "\n".join(blank[start:end])
            if kind == "ghost":
                scope.take(text)
            elif kind == "use":
                self.take_use(module, text, module[2] == "lib" and (public or is_program))
            elif kind == "mod":
                inner = (*module[:2], *(it for it in module[2:] if it != "lib"), name)
                self.names.setdefault(inner, {})  # of a folder, whose file may have modules alone
                if public:
                    self.handed_out[module[0]].append((inner, None))
            elif kind not in ("impl", "mod"):
                self.names[module][name] = (path, name)
                if public and module[2] == "lib":
                    self.handed_out[module[0]].append((module, name))
                self.read_item(kind, Item(path, name, start + 1, end, public), scope, lines, text)
        for start, end, _, kind, _ in found:
            if kind == "impl":
                self.read_impl(path, Scope(module, scope), lines, blank, start, end)

    def take_use(self, home, text, hands_out):
        path, braces = re.search(r"use ([\w:*]+?)(?:::\{(.*)\})?;", " ".join(text.split())).groups()
        for one in re.findall(r"[\w:]+(?: as \w+)?", braces) if braces else [""]:
            one, _, alias = f"{path}::{one}".strip(":").partition(" as ")
            *source, name = one.split("::")
            self.uses[home][alias or name] = (*source, name)
            if hands_out and source[:1] != ["std"]:
                self.handed_out[home[0]].append(((*home[:2], *source), name))

    def read_item(self, kind, item, scope, lines, text, owner=None):
        """Reads a function by its signature and clauses, a trait by those and its ghosts, a type by its fields."""
        if kind == "fn":
            body = re.search(r"(?m)^(?:.*\bfn .*| *\).*)( \{\}?)$|^( *\{\}?)$", text)
            text = text[:body.start(body.lastindex)].rstrip() if body else text
        start, end = item.start - 1, item.start + text.count("\n")
        item = self.items.setdefault((item.path, item.name), item)
        item.end = end
        item.count(lines, start, start + text.count("\n") + 1)
        plain, inside = without_antt(text)
        bound = {"result", "self", *re.findall(r"(\w+): ", plain)} if kind in ("fn", "trait") else ()
        names = [name for part in inside for name in free_names(part, bound)[0]]
        speaks_of_self = owner and (kind == "ghost" or re.search(r"\b[sS]elf\b", text))

        def keys():
            view = self.views[(item.path, item.name)]
            rows = [re.sub(r"^ {4}\w+(?=[,({ ])", "", row) if kind == "enum" else row for row in plain.split("\n")]
            seen = [row for row in rows if not view or f".{row.split(':')[0].strip()}" in view]
            types = re.findall(r"\b[A-Z]\w*", " ".join(seen)) if kind not in ("ghost", "const", "static") else []
            found = [self.key(scope, name) for name in names] + [self.rust_key(scope.home, name) for name in types]
            return [owner() if speaks_of_self else None, *found,
                    (item.path, f"{item.name}, its model") if view else None]

        self.later.append((item, keys))

    def read_impl(self, path, scope, lines, blank, start, end):
        """Reads a model by its value and its view, what the ghosts of a trait are for a type, and a type's calls."""
        trait, of = re.match(r"impl(?:<.*?>)? (?:([\w:]+)(?:<.*>)? for )?(\w+)", blank[start]).groups()
        owner = lambda: self.rust_key(scope.home, of) or (path, of)  # noqa: E731, since it may stand elsewhere
        members = list(blocks(blank, start + 1, end - 1, 4))
        for first, last, *_, name in members:
            if name == "use":
                scope.take("\n".join(blank[first:last]).strip())
        for first, last, public, kind, name in members:
            if name == "use" or kind not in ("fn", "ghost"):
                continue
            text, is_seen = "\n".join(blank[first:last]), trait != "Model" or name in ("Value", "view")
            part = f"{of}::{name}" if not trait else f"{trait} for {of}" if trait != "Model" else f"{of}, its model"
            part += "" if is_seen else f"'s {name}"
            part += ", its ghosts" if kind == "ghost" and trait != "Model" else ""
            if trait == "Model" and is_seen:
                self.views[(path, of)] += text
            self.members.append(((path, part), owner))
            item = Item(path, part, first + 1, last, public or bool(trait) and is_seen)
            self.read_item(kind, item, scope, lines, text, owner)
