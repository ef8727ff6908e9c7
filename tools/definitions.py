"""Which definitions the contract of a call stands on: those that it names, and those that they name in turn."""

from __future__ import annotations

import glob
import os
import re
from dataclasses import dataclass, field

WORD = re.compile(r"[^\s(){}\[\],.;\"`]+")
USE = re.compile(r"^\s*(?:ghost )?use ([\w.]+?)(?:\.\{([^}]*)\}| as (\w+))?;?\s*$")
NAME = re.compile(r"^\s*(?:(?:abbrev|unfoldable|private|pub)\s+)*(?:(?:record|data)\s+)?([^\s:({]+)\s*(?=[:({])")
DATA = re.compile(r"^\s*(?:pub\s+)?data\s")
FIELD = re.compile(r"^\s+(?:pub )?([\w']+) :")
BINDER = re.compile(r"[({]((?:[\w']+ )+):")
LAMBDA = re.compile(r"λ ([^.]+)\.")
CONTAINER = re.compile(r"^\s*(?:module\s+_|(?:abbrev\s+|unfoldable\s+)*mutual\b)")


@dataclass(frozen=True, order=True)
class Place:
    """A definition: its crate, its module under specs/ (or a file of src/, for how a type is seen), and its name."""

    crate: str
    module: str
    name: str


@dataclass
class Module:
    """The words that each definition of a module names, what its words mean that come from elsewhere, and whose cases it has."""

    words: dict[str, set[str]] = field(default_factory=dict)
    names: dict[str, tuple[str, str]] = field(default_factory=dict)
    others: dict[str, str] = field(default_factory=dict)
    cases: dict[str, str] = field(default_factory=dict)


def without_comments(text: str, mark: str) -> str:
    return "\n".join(line.split(mark, 1)[0].rstrip() if mark in line else line.rstrip() for line in text.split("\n"))


def words_in(text: str) -> set[str]:
    return set(WORD.findall(text))


def parts_of(name: str) -> set[str]:
    """The words by which a name is written: an operator's stand between its places."""
    return {it for it in name.split("◌") if it} if "◌" in name else {name}


def take_use(module: Module, line: str) -> bool:
    """Takes a line that brings in names, and tells whether it was one."""
    found = USE.match(line)
    if not found:
        return False
    path, names, other = found.groups()
    if other:
        module.others[other] = path
    for it in (names or "").split(","):
        own, _, called = it.strip().partition(" as ")
        if own:
            module.names[(called or own).strip()] = (path, own.strip())
    return True


def bound_in(line: str, name: str | None) -> set[str]:
    """The words that a line binds: parameters, fields, and the variables of an equation's left side."""
    bound = {it for found in BINDER.findall(line) for it in found.split()}
    bound |= {it for found in LAMBDA.findall(line) for it in WORD.findall(found)}
    field = FIELD.match(line)
    if field:
        bound.add(field.group(1))
    left, equals, _ = line.partition(" = ")
    if name and equals and WORD.findall(left)[:1] == [name]:
        bound |= {it for it in WORD.findall(left)[1:] if it[0].islower()}
    return bound


def read_module(text: str) -> Module:
    """Reads a module of specs/. What stands deeper than a definition is its own, and so is what a block round it takes."""
    module, lines, types, open_ones = Module(), {}, set(), []
    for line in without_comments(text, "--").split("\n"):
        if not line.strip() or take_use(module, line):
            continue
        depth = len(line) - len(line.lstrip())
        inside = [it for it in open_ones if it[0] < depth]
        if CONTAINER.match(line):
            open_ones = [*inside, (depth, None, line)]
            continue
        owner = next((it[1] for it in inside if it[1]), None)
        head, first = NAME.match(line), WORD.search(line)
        if owner:
            lines[owner].append(line)
            if head and owner in types:
                module.cases[head.group(1)] = owner
            continue
        begins = first and first[0] in lines
        name = first[0] if begins else head.group(1) if head else next((it[1] for it in open_ones if it[0] == depth), None)
        if name is None:
            continue
        lines.setdefault(name, [it[2] for it in inside]).append(line)
        if DATA.match(line):
            types.add(name)
        open_ones = [*inside, (depth, name, "")]
    for name, texts in lines.items():
        bound = set().union(*[bound_in(it, name) for it in texts])
        module.words[name] = words_in("\n".join(texts)) - (bound - {name})
    return module


def read_model(text: str, name: str) -> Module | None:
    """Reads how contracts see a type of a source: what value its `impl Model` gives it, and how that is made."""
    found = re.search(rf"impl(?:<[^{{]*>)? Model for {re.escape(name)}\b[^{{]*\{{", text)
    if not found:
        return None
    depth, at = 1, found.end()
    while depth:
        depth += {"{": 1, "}": -1}.get(text[at], 0)
        at += 1
    module = Module(words={name: set()})
    for line in re.split(r";\s*\n", text[found.end() : at - 1]):
        if not take_use(module, line.strip() + ";") and re.match(r"ghost (Value|view)\b", line.strip()):
            module.words[name] |= words_in(line)
    return module


class Definitions:
    """The definitions of a repository's crates."""

    def __init__(self, top: str) -> None:
        self.top, self.read, self.seen = top, {}, {}

    def text(self, path: str) -> str | None:
        try:
            with open(path, encoding="utf-8") as it:
                return it.read()
        except OSError:
            return None

    def module(self, crate: str, name: str) -> Module | None:
        """A module of a crate's specs/, or None where the repository hasn't it."""
        key = (crate, name)
        if key not in self.read:
            text = self.text(f"{self.top}/crates/{crate}/specs/{name.replace('.', '/')}.antt")
            self.read[key] = None if text is None else read_module(text)
        return self.read[key]

    def model(self, crate: str, name: str) -> tuple[str, Module] | None:
        """The file and the model of a type of a crate, where it has one."""
        key = (crate, name)
        if key not in self.seen:
            paths = sorted(glob.glob(f"{self.top}/crates/{crate}/src/*.rt"))
            texts = {os.path.basename(it): self.text(it) or "" for it in paths}
            models = {it: read_model(without_comments(text, "//"), name) for it, text in texts.items() if "Model for" in text}
            self.seen[key] = next(((it, found) for it, found in models.items() if found), None)
        return self.seen[key]

    def meant(self, path: str, name: str) -> list[Place]:
        """What a name that is brought in means, where it is a definition of the repository."""
        parts = path.split(".")
        if parts[0] != "Rattle" or len(parts) < 4 or parts[2] != "specs":
            return []
        if parts[3] == "declared":
            found = self.model(parts[1], name)
            return [Place(parts[1], f"src/{found[0]}", name)] if found else []
        module = self.module(parts[1], ".".join(parts[3:]))
        own = module and (name if name in module.words else module.cases.get(name))
        return [Place(parts[1], ".".join(parts[3:]), own)] if own else []

    def behind(self, module: Module, own: tuple[str, str] | None, words: set[str]) -> list[Place]:
        """The definitions that these words of a module mean."""
        found = []
        if own:
            found += [Place(*own, it) for it in module.words if parts_of(it) <= words]
            found += [Place(*own, name) for case, name in module.cases.items() if case in words]
        for called, (path, name) in module.names.items():
            if parts_of(called) <= words:
                found += self.meant(path, name)
        for called, path in module.others.items():
            if called in words:
                found += [it for word in words for it in self.meant(path, word)]
        return found

    def of(self, place: Place) -> list[Place]:
        """The definitions that a definition names."""
        if place.module.startswith("src/"):
            file, module = self.model(place.crate, place.name)
            return self.behind(module, None, module.words[place.name])
        module = self.module(place.crate, place.module)
        return self.behind(module, (place.crate, place.module), module.words[place.name])

    def under(self, first: list[Place]) -> set[Place]:
        """These definitions, and all that they name."""
        reached, left = set(first), list(first)
        while left:
            for it in self.of(left.pop()):
                if it not in reached:
                    reached.add(it)
                    left.append(it)
        return reached

    def contract(self, crate: str, file: str, function: str) -> list[Place]:
        """The definitions that the clauses of a function name."""
        text = without_comments(self.text(f"{self.top}/crates/{crate}/src/{file}") or "", "//")
        found = re.search(rf"\bfn {function}\b", text)
        if not found:
            raise LookupError(f"crates/{crate}/src/{file} has no function {function}")
        module = Module()
        for line in text.split("\n"):
            take_use(module, line)
        end = re.compile(r"^\{", re.M).search(text, found.end())
        return self.behind(module, None, words_in(text[found.end() : end.start() if end else len(text)]))
