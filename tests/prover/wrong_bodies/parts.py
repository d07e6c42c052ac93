"""The parts of a crate's sources: functions, types, traits, impls and constants, each with what is compiled and what is said."""

import collections
import functools
import re
from typing import Dict, List, NamedTuple, Optional, Set, Tuple

from source import module_of, sources_of


class Part(NamedTuple):
    """A part: its kind (`fn`, `type`, `trait`, `impl` or `value`), its name, the type and the trait of the impl around it, its
    file, what is compiled of it but the body of a function, what is said of it in clauses, and a function's body."""

    kind: str
    name: str
    owner: str
    trait: str
    path: str
    code: str
    ghost: str
    body: str = ""


# A comment, and what may look as if one began in it.
COMMENT = re.compile(r'"(?:[^"\\]|\\[\s\S])*"|\'(?:[^\'\\]|\\.)\'|//[^\n]*')
HEAD = re.compile(r"^(?:pub(?:\(\w+\))? )?(?:const (?=fn)|unsafe )*(fn|struct|enum|type|trait|impl|const|static|use)\b(?:<.*?>)? *(\w*)")
KINDS = {"struct": "type", "enum": "type", "type": "type", "trait": "trait", "const": "value", "static": "value"}
IMPL = re.compile(r"(?:unsafe )?impl\b(?:<.*?>(?= ))?\s+(?:(.*?) for )?&?(?:'\w+ )?(?:mut )?(\w+)")
CLAUSE = re.compile(r"^ +(?:ensures|requires|never|ghost)\b")
GHOST_USE = re.compile(r"\bghost use ([\w.+]+?)(?:\.\{([^}]*)\}| as ([\w']+))?;")


def without_comments(text: str) -> str:
    """A text of Rattle without its comments, without the blank lines that these leave, and with each string on one line."""
    kept = COMMENT.sub(lambda it: "" if it[0].startswith("//") else it[0].replace("\n", " "), text)
    return "\n".join(it.rstrip() for it in kept.split("\n") if it.strip())


def depth_of(line: str) -> int:
    """By how much a line opens more brackets than it closes."""
    bare = COMMENT.sub("", line)
    return sum(bare.count(it) for it in "{([") - sum(bare.count(it) for it in "})]")


def items_in(lines: List[str]) -> List[List[str]]:
    """The items of lines of one depth, each as its lines: attributes, head, and all up to its end."""
    items: List[List[str]] = []
    item: List[str] = []
    depth = 0
    for line in lines:
        item.append(line)
        depth += depth_of(line)
        # Not with a clause, which stands deeper than the function that it is of.
        is_deeper = len(line) - len(line.lstrip()) > len(item[0]) - len(item[0].lstrip())
        if depth == 0 and (line.endswith(";") or line.endswith("}") and not is_deeper):
            items.append(item)
            item = []
    return items + [item] * bool(item)


def head_of(item: List[str]) -> Tuple[int, str]:
    """The first line of an item that is none of its attributes, and its place among the lines."""
    depth = 0
    for place, line in enumerate(item):
        if depth == 0 and not re.match(r" *#!?\[", line):
            return place, line.strip()
        depth += depth_of(line)
    return len(item), ""


def split(item: List[str], indentation: str) -> Tuple[str, str, str]:
    """What is compiled of a function but its body, its clauses, and its body."""
    end = next((at for at, it in enumerate(item) if re.match(rf"{indentation}(?:[^\s#].*)?\{{$", it)), len(item))
    begin = next((at for at, it in enumerate(item[:end]) if CLAUSE.match(it)), end)
    return "\n".join(item[:begin] + item[end : end + 1]), "\n".join(item[begin:end]), "\n".join(item[end + 1 :])


def split_fields(item: List[str]) -> Tuple[str, str]:
    """What is compiled of a type or a trait, and what is said of it. A function that a trait has counts whole."""
    code, ghost, is_ghost = [], [], False
    for line in item:
        if re.match(r"(?:    )?\S", line) or CLAUSE.match(line):
            is_ghost = bool(CLAUSE.match(line))
        (ghost if is_ghost else code).append(line)
    return "\n".join(code), "\n".join(ghost)


def parts_of_impl(path: str, item: List[str], at: int) -> List[Part]:
    """The parts of an impl: of a trait's one with the heads of all its methods, else one a method."""
    found = IMPL.match(" ".join(item[at:]).split("{")[0])
    trait, owner = (found[1] or "", found[2]) if found else ("", "")
    begin = next(place for place, it in enumerate(item) if place >= at and it.endswith(("{", "{}"))) + 1
    head = "\n".join(item[:begin])
    code, ghost, parts = [head], [], []
    for it in items_in(item[begin:-1]):
        place, line = head_of(it)
        kind = HEAD.match(line)
        if kind and kind[1] == "fn":
            said = split(it, "    ")
            code.append(said[0])
            ghost.append(said[1])
            parts.append(Part("fn", kind[2], owner, trait, path, f"{head}\n{said[0]}", *said[1:]))
        elif line.startswith("ghost"):
            ghost.append("\n".join(it))
        elif kind and not trait:
            parts.append(Part("value", kind[2], owner, "", path, "\n".join(it), ""))
        else:
            code.append("\n".join(it))
    whole = Part("impl", owner, owner, trait, path, "\n".join(code), "\n".join(ghost))
    return [*parts, whole] if trait or not parts else parts


def imports_of(lines: List[str]) -> Dict[str, Tuple[str, str]]:
    """What a file's `use` brings: for each name the first word of its path, and what it is called there."""
    found: Dict[str, Tuple[str, str]] = {}

    def add_all(path: List[str], text: str) -> None:
        depth, begin = 0, 0
        for at, it in enumerate(text + ","):
            depth += (it == "{") - (it == "}")
            if it == "," and depth == 0:
                add(path, text[begin:at].strip())
                begin = at + 1

    def add(path: List[str], text: str) -> None:
        before, inner, after = text.partition("{")
        if inner:
            add_all([*path, *(it for it in before.split("::") if it)], after.rpartition("}")[0])
        elif text:
            name, _, other = text.partition(" as ")
            parts = [*path, *name.split("::")]
            found[other or parts[-1]] = (parts[0], parts[-1])

    add_all([], re.sub(r"^(?:pub(?:\(\w+\))? )?use |;$", "", " ".join(it.strip() for it in lines)))
    return found


class Crate:
    """A crate's sources, taken apart."""

    def __init__(self, root: str, name: str) -> None:
        self.folder, self.name = f"{root}/crates/{name}", name
        self.parts: List[Part] = []
        # By file: what its `use` brings, and for each word of a clause the modules that it is from, with its name there.
        self.imports: Dict[str, Dict[str, Tuple[str, str]]] = {}
        self.ghosts: Dict[str, Dict[str, Set[Tuple[str, Optional[str]]]]] = {}
        # The crate's own attributes, as `tactic`.
        self.attributes = ""
        for path, text in sorted(sources_of(self.folder).items()):
            self.read(path, without_comments(text))
        self.by_name: Dict[str, List[Part]] = collections.defaultdict(list)
        self.by_owner: Dict[str, List[Part]] = collections.defaultdict(list)
        for it in self.parts:
            if not it.owner:
                self.by_name[it.name].append(it)
            elif not it.trait:
                self.by_owner[it.owner].append(it)

    def read(self, path: str, text: str) -> None:
        ghosts = self.ghosts.setdefault(path, {})
        for module, names, other in GHOST_USE.findall(text):
            for it in names.split(",") if names else [other or module.rpartition(".")[2]]:
                said, _, alias = it.strip().partition(" as ")
                ghosts.setdefault(alias or said, set()).add((module, said if names else None))
        for item in items_in(text.split("\n")):
            self.attributes += "".join(f"{it}\n" for it in item if it.startswith("#!"))
            at, line = head_of(item)
            kind = HEAD.match(line)
            if kind and kind[1] == "use":
                self.imports.setdefault(path, {}).update(imports_of(item[at:]))
            elif kind and kind[1] == "impl":
                self.parts += parts_of_impl(path, item, at)
            elif kind and kind[1] == "fn":
                self.parts.append(Part("fn", kind[2], "", "", path, *split(item, "")))
            elif kind:
                said = split_fields(item) if kind[1] in ("struct", "enum", "trait") else ("\n".join(item), "")
                self.parts.append(Part(KINDS[kind[1]], kind[2], "", "", path, *said))

    @functools.lru_cache(maxsize=None)
    def path_of(self, part: Part) -> str:
        """The path of a function in the crate, as `source.function_at` has it."""
        module = module_of(part.path)
        if part.trait:
            module = [*module, part.owner + "".join(re.findall(r"\w\w+\b(?!::)", part.trait))]
        elif part.owner:
            module = [*(module_of(it.path) for it in self.by_name[part.owner] if it.kind == "type"), module][0] + [part.owner]
        return "::".join([*module, part.name])

    @functools.lru_cache(maxsize=None)
    def impls_of(self, name: str) -> List[Part]:
        """The impls of traits that a type has a part in: its own, and those of types of other crates that name it."""
        word = re.compile(rf"\b{name}\b")
        impls = [it for it in self.parts if it.kind == "impl" and it.trait]
        return [it for it in impls if it.owner == name or it.owner not in self.by_name and word.search(it.code.split("{")[0])]
