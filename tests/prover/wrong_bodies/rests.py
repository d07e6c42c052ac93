"""What the refusal of a wrong body rests on: the texts of its function, of what that names, and of what these name.

A check of a function takes all that it calls by its contract. So a refusal rests on the function's text, its clauses and
answers; on the heads and contracts of the functions that its body may call; on the types, traits and constants that are
named in any of these, with the impls of traits for these types; and on the definitions and lemmas that clauses and answers
name, and so on from each. Where a name may mean several things it rests on all of them. Comments do not count, and neither
do the bodies of other functions. What comes with the toolchain counts by the toolchain's identity."""

import functools
import hashlib
import os
import re
from typing import Dict, FrozenSet, List, Optional, Set, Tuple

from edits import Edit
from modules import module_at, reached
from parts import Crate, Part, without_comments
from source import text_of

WORD = re.compile(r"[^\W\d]\w*")
# A call of a method of any type, and one of a type that is named. In place of `Self` stands the type of the impl.
METHOD = re.compile(r"\.\s*([a-z_]\w*)(?:::<[^>]*>)?\(")
AFTER_PATH = re.compile(r"::(\w+)")
# What an attribute says to use or to unfold.
TACTIC = re.compile(r"\b(\w+)::((?:specs|proofs)(?:::\w+)+)")
CYCLE = re.compile(r"#\[cycle\((\w+)\)\]")
OF_TYPE = re.compile(r"\b([A-Z]\w*)(?:::<[^>]*>)?::([a-z_]\w*)")


def crates_of(root: str) -> Dict[str, List[str]]:
    """Each crate's libraries, as crates.txt names them."""
    lines = [line.partition("#")[0].partition(":") for line in text_of(f"{root}/crates.txt").split("\n") if ":" in line.partition("#")[0]]
    return {name.split()[0]: rest.split() for name, _, rest in lines}


class House:
    """The crates of a repository, each with those that it stands on."""

    def __init__(self, root: str, crates: Dict[str, List[str]]) -> None:
        self.root, self.crates = root, crates

    @functools.lru_cache(maxsize=None)
    def crate(self, name: str) -> Crate:
        return Crate(self.root, name)

    @functools.lru_cache(maxsize=None)
    def below(self, name: str) -> List[Crate]:
        """A crate and those of the repository that it stands on."""
        found = [name]
        for it in found:
            found += [other for other in self.crates[it] if other in self.crates and other not in found]
        return [self.crate(it) for it in found]


class Closure:
    """The texts that an edit rests on, each by a name of its own."""

    def __init__(self, house: House, home: str) -> None:
        self.house, self.home = house, house.crate(home)
        self.below = house.below(home)
        self.texts: Dict[str, Set[str]] = {"attributes": {self.home.attributes}}
        self.roots: Set[str] = set()
        # The types whose values may be there, what is called of any type, and of one that is named.
        self.types: Set[str] = set()
        self.methods: Set[str] = set()
        self.of_types: Set[Tuple[str, str]] = set()
        self.asked: Set[Tuple[object, ...]] = set()

    def is_new(self, *what: object) -> bool:
        if what in self.asked:
            return False
        self.asked.add(what)
        return True

    # What a text names.

    def meant(self, crate: Crate, path: str, text: str) -> List[Tuple[Crate, Part]]:
        """The parts that the words of a text in a file may mean: what the file imports, and has itself; and after `::` any
        that has the name."""
        found: List[Tuple[Crate, Part]] = []
        imports, after = crate.imports.get(path, {}), set(AFTER_PATH.findall(text))
        for word in set(WORD.findall(text)):
            first, name = imports.get(word, ("", word))
            if first in self.house.crates:
                other = self.house.crate(first)
                found += [(other, it) for it in other.by_name.get(name, [])]
                continue
            found += [(crate, it) for it in crate.by_name.get(name, []) if first or word in after or it.path == path]
            if word in after and not first:
                found += [(other, it) for other in self.below if other is not crate for it in other.by_name.get(name, [])]
        return found

    def add_code(self, crate: Crate, path: str, text: str) -> None:
        """Adds the types, traits and constants that a compiled text names, and what its attributes say to use."""
        for other, part in self.meant(crate, path, text):
            if part.kind != "fn":
                self.add_part(other, part, True)
        for first, module in TACTIC.findall(text):
            *parts, name = module.split("::")
            self.add_module(".".join(["Rattle", crate.name if first == "crate" else first, *parts]), frozenset([name]))

    def add_ghost(self, crate: Crate, path: str, text: str) -> None:
        """Adds what a clause names: definitions, by the file's `ghost use`, and types."""
        ghosts = crate.ghosts.get(path, {})
        for word in set(WORD.findall(text)) & ghosts.keys():
            for module, name in ghosts[word]:
                self.add_module(module, frozenset([name]) if name else None)
        for other, part in self.meant(crate, path, text):
            if part.kind in ("type", "value"):
                self.add_part(other, part, False)

    def add_body(self, crate: Crate, path: str, owner: str, text: str) -> None:
        """Adds what a body names, and what it may call."""
        self.add_code(crate, path, text)
        self.add_ghost(crate, path, text)
        for other, part in self.meant(crate, path, text):
            if part.kind == "fn":
                self.add_part(other, part, True)
        self.methods |= set(METHOD.findall(text))
        for name, method in OF_TYPE.findall(text):
            named = [owner] if name == "Self" else [part.name for _, part in self.meant(crate, path, name)]
            self.of_types |= {(it, method) for it in named}
        for name in sorted(self.types):
            self.add_methods(name)

    # Parts of the sources.

    def add_part(self, crate: Crate, part: Part, is_compiled: bool) -> None:
        if not self.is_new(crate.name, part, is_compiled):
            return
        key = f"{crate.name} {part.path} {part.kind} {part.trait} {part.owner} {part.name}"
        self.texts.setdefault(key, set()).add(f"{part.code}\n{part.ghost}")
        self.add_ghost(crate, part.path, part.ghost)
        if not is_compiled:
            self.add_ghost(crate, part.path, part.code)
            # What its values are in clauses.
            for it in crate.impls_of(part.name) if part.kind == "type" else []:
                if "Model" in it.trait:
                    self.add_part(crate, it, False)
            return
        self.add_code(crate, part.path, part.code)
        if part.kind == "type" and part.name not in self.types:
            self.types.add(part.name)
            self.add_methods(part.name)
            for other in self.below:
                for it in other.impls_of(part.name):
                    self.add_part(other, it, True)

    def add_methods(self, name: str) -> None:
        """Adds what is called of a type."""
        for crate in self.below:
            for part in crate.by_owner.get(name, []):
                if part.name in self.methods or (name, part.name) in self.of_types or part.kind != "fn":
                    self.add_part(crate, part, True)

    # Modules of definitions and lemmas.

    def add_module(self, module: str, names: Optional[FrozenSet[str]]) -> None:
        if not self.is_new(module, names):
            return
        top, name, *rest = module.split(".")
        if top != "Rattle" or name not in self.house.crates:
            return
        crate = self.house.crate(name)
        files = [at for at in range(2, len(rest) + 1) if module_at(f"{crate.folder}/{'/'.join(rest[:at])}.antt")]
        if rest[1:2] in (["declared"], ["contracts"]):
            self.add_declared(crate, rest[2:])
        elif files:
            # What is inside a declaration, as the cases of a type, has the name of it.
            inner = rest[files[-1] : files[-1] + 1]
            self.add_file(crate, rest[: files[-1]], frozenset(inner) if inner else names)
        elif not self.add_proved(crate, rest[1:]):
            # A module of which nothing is known: the whole crate counts.
            for part in crate.parts:
                self.add_part(crate, part, True)

    def add_declared(self, crate: Crate, parts: List[str]) -> None:
        """Adds a type, or the head of a function, by the module that the toolchain makes of it."""
        last = [it for it in parts if not it.startswith("The")][-1]
        for it in crate.by_name[last] + [it for it in crate.parts if it.owner and it.name == last]:
            self.add_part(crate, it, False)

    def add_proved(self, crate: Crate, parts: List[str]) -> bool:
        """Adds the head of a function, by a module that the toolchain makes of its proof; whether there is such a function."""
        *path, kind = parts
        if kind in ("Goals", "Given") and "::".join(path) in self.roots:
            return True
        found = [it for it in crate.parts if path and it.kind == "fn" and it.name == path[-1] and kind in ("Met", "Statement")]
        for it in found:
            self.add_part(crate, it, False)
        return bool(found)

    def add_file(self, crate: Crate, parts: List[str], names: Optional[FrozenSet[str]]) -> None:
        """Adds those declarations of a file that these names rest on."""
        module, key = module_at(f"{crate.folder}/{'/'.join(parts)}.antt"), f"{crate.name} {'.'.join(parts)}"
        found, words = reached(module, names)
        for it in found:
            self.texts.setdefault(f"{key} {it.key}", set()).add(it.text)
        wanted = words | (names or frozenset())
        for it in module.imports:
            used = it.names if names is None and it.passes or it.names is None else it.used(wanted)
            if used or it.names is None and found:
                self.texts.setdefault(f"{key} from {it.module}", set()).update(used or ["all"])
                self.add_module(it.module, used)
        for it in found:
            for module_name, name in it.qualified:
                self.add_module(module_name, frozenset([name]))

    # The function of an edit.

    def add_root(self, function: str) -> None:
        """Adds a function that an edit changes, with its body and its answers."""
        self.roots.add(function)
        crate = self.home
        for part in crate.parts:
            if part.kind == "fn" and crate.path_of(part) == function:
                self.texts[f"body {function}"] = {part.code, part.ghost, part.body}
                self.add_code(crate, part.path, part.code)
                self.add_ghost(crate, part.path, part.ghost)
                self.add_body(crate, part.path, part.owner, part.body)
        cycles = [f"+{it}" for text in self.texts.get(f"body {function}", ()) for it in CYCLE.findall(text)]
        for parts in [function.split("::"), *([it] for it in cycles)]:
            folder = f"{crate.folder}/proofs/{'/'.join(parts)}"
            for file in sorted(os.listdir(folder)) if os.path.isdir(folder) else []:
                if file.endswith(".antt"):
                    self.add_file(crate, ["proofs", *parts, file[: -len(".antt")]], None)


def rests_on(house: House, crate: str, edit: Edit) -> Tuple[str, Dict[str, Set[str]]]:
    """The checksum of all that the refusal of an edit rests on but the toolchain and the scripts, and the texts of it."""
    closure = Closure(house, crate)
    for function in sorted(edit.functions):
        closure.add_root(function)
    for path, _, new in edit.changes:
        closure.add_body(closure.home, path, "", without_comments(new))
    how = edit.copy.clause or "" if edit.copy else "as it is"
    closure.texts["edit"] = {how, *(f"{at} {path}\n{old}\n{new}" for at, (path, old, new) in enumerate(edit.changes))}
    found = hashlib.sha256()
    for key, texts in sorted(closure.texts.items()):
        found.update("\0".join([key, *sorted(texts), "\n"]).encode())
    return found.hexdigest(), closure.texts
