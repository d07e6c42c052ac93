"""Files of definitions and lemmas, taken apart: what each declaration is named, and what it names."""

import collections
import functools
import os
import re
from typing import Dict, FrozenSet, List, NamedTuple, Optional, Tuple

from source import text_of

class Import(NamedTuple):
    """What a file imports: whether it passes that on, the module, and the names; None for all."""

    passes: bool
    module: str
    names: Optional[FrozenSet[str]]
    # Those names that are operators, each by a part of it.
    operators: Dict[str, str]

    def used(self, words: FrozenSet[str]) -> FrozenSet[str]:
        """Which of the names are among these words."""
        return self.names & words | {name for part, name in self.operators.items() if part in words}


class Declaration(NamedTuple):
    """A declaration: its names (of a record also those of its fields), its text, the words in it, and what of other modules
    it names with the module."""

    key: str
    names: FrozenSet[str]
    text: str
    words: FrozenSet[str]
    qualified: FrozenSet[Tuple[str, str]]


class Module:
    """A file: its declarations by name, those that have none (as the rank of an operator), and its imports."""

    def __init__(self) -> None:
        self.named: Dict[str, List[Declaration]] = collections.defaultdict(list)
        self.nameless: List[Declaration] = []
        self.imports: List[Import] = []
        # What was found of it before.
        self.found: Dict[Optional[FrozenSet[str]], Tuple[FrozenSet[Declaration], FrozenSet[str]]] = {}

    def is_whole(self, names: FrozenSet[str]) -> bool:
        """Whether all of it counts where these names do: a record is opened, so that its fields stand without a word before
        them; an operator is declared, whose lines begin with anything; or one of the names is not known."""
        passed = {name for it in self.imports if it.passes for name in it.names or ()}
        is_open = any("open" in it.text.split()[:2] for it in self.nameless)
        return is_open or any("◌" in it for it in self.named) or not names <= self.named.keys() | passed


USE = re.compile(r"^(pub )?use ([\w.+]+?)(?:\.\{(.*)\}| as [\w']+)?$")
BEFORE_NAME = re.compile(r"^(?:(?:pub|abbrev|unfoldable|record|data|private) )*")
QUALIFIED = re.compile(r"\bRattle\.\w+\.(?:specs|proofs)(?:\.[\w+]+)+")
IN_BLOCK = re.compile(r"^ +(?:(?:pub|abbrev|unfoldable|record|data) )*([^\s(){}\[\];,.:]+)(?= .*:| :)", re.M)


def without_remarks(text: str) -> str:
    """A text of definitions or lemmas without its comments."""
    kept = re.sub(r"(?:^|(?<=\s))--(?=[\s-]|$).*", "", text, flags=re.M)
    return "\n".join(it.rstrip() for it in kept.split("\n") if it.strip())


def words_of(text: str) -> FrozenSet[str]:
    return frozenset(re.findall(r"[^\s(){}\[\];,.\"]+", text))


def names_of(text: str) -> FrozenSet[str]:
    """The names that a declaration gives. An operator is named in use by each of its parts."""
    text = re.sub(r"\Aunfolding .*\n", "", text)
    found = {text[BEFORE_NAME.match(text).end() :].split()[0]}
    if re.match(r"(?:pub )?(?:record|data|module)\b", text):
        found.update(IN_BLOCK.findall(text))
    return frozenset(part for name in found for part in ([*name.split("◌"), name] if "◌" in name else [name]) if part)


def declaration(text: str, names: FrozenSet[str]) -> Declaration:
    qualified = frozenset(tuple(it.rsplit(".", 1)) for it in QUALIFIED.findall(text))
    return Declaration(" ".join(sorted(names)), names, text, words_of(text), qualified)


def imported(text: str) -> Import:
    passes, module, names = USE.match(" ".join(text.split())).groups()
    if not names:
        return Import(bool(passes), module, None, {})
    each = [it.strip().partition(" as ")[0] for it in names.split(",")]
    return Import(bool(passes), module, frozenset(each), {part: it for it in each if "◌" in it for part in it.split("◌") if part})


@functools.lru_cache(maxsize=None)
def module_at(path: str) -> Optional[Module]:
    """The module that a file is, if there is one."""
    if not os.path.isfile(path):
        return None
    blocks: List[List[str]] = []
    for line in without_remarks(text_of(path)).split("\n"):
        # A line `unfolding ..` is of the declaration below it.
        if blocks and (re.match(r"[\s})\]]", line) or blocks[-1][-1].startswith("unfolding ")):
            blocks[-1].append(line)
        elif line:
            blocks.append([line])
    module = Module()
    for block in blocks:
        text = "\n".join(block)
        if re.match(r"(?:pub )?use ", text):
            module.imports.append(imported(text))
        elif re.match(r"(?:infix|syntax|open |pub open |(?:pub )?mod )", text):
            module.nameless.append(declaration(text, frozenset()))
        else:
            it = declaration(text, names_of(text))
            for name in it.names:
                module.named[name].append(it)
    return module


def reached(module: Module, names: Optional[FrozenSet[str]]) -> Tuple[FrozenSet[Declaration], FrozenSet[str]]:
    """The declarations of a module that these names, or all, rest on, and all words in them."""
    if names not in module.found:
        if names is None or module.is_whole(names):
            found = {it for each in module.named.values() for it in each}
        else:
            found, work = set(), [it for name in names for it in module.named.get(name, [])]
            while work:
                it = work.pop()
                if it not in found:
                    found.add(it)
                    work += [more for word in it.words & module.named.keys() for more in module.named[word]]
        found |= set(module.nameless) if found else set()
        module.found[names] = frozenset(found), frozenset(word for it in found for word in it.words)
    return module.found[names]
