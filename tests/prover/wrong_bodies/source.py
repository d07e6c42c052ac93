"""Functions and types of a crate, as its files of Rattle have them."""

import os
import re

# A function, with its indentation.
FUNCTION = re.compile(r"^( *)(?:pub(?:\(\w+\))? )?fn (\w+)", re.M)


def text_of(path):
    with open(path, encoding="utf-8", errors="replace") as it:
        return it.read()


def module_of(path):
    """The path of the module that a file of src/ is."""
    return [it for it in path[len("src/") : -len(".rt")].split("/") if it not in ("lib", "main")]


def sources_of(place):
    """The text of each file of src/ of the crate in this folder, by its path there."""
    texts = {}
    for folder, _, files in os.walk(f"{place}/src"):
        for file in files:
            with open(f"{folder}/{file}", encoding="utf-8") as it:
                texts[os.path.relpath(f"{folder}/{file}", place)] = it.read()
    return texts


def types_of(texts):
    """The module of each type of a crate."""
    types = {}
    for path, text in texts.items():
        for found in re.findall(r"^(?:pub(?:\(\w+\))? )?(?:struct|enum) (\w+)", text, re.M):
            types[found] = module_of(path)
    return types


def function_at(types, path, text, at):
    """The function of a file of src/ that has the text at this offset, by its path in the crate: a method is in the
    module of its type, and that of a trait at the name of both, in the module of the impl."""
    functions = list(FUNCTION.finditer(text[:at]))
    if not functions or re.search(rf"^{functions[-1][1]}\}}", text[functions[-1].end() : at], re.M):
        return None
    parts = module_of(path)
    if functions[-1][1]:
        impls = re.findall(r"^impl\b(?:<.*?>)?\s+(?:(.*) for )?(\w+)", text[: functions[-1].start()], re.M)
        trait, owner = impls[-1]
        words = re.findall(r"\w\w+\b(?!::)", trait)
        parts = [*(parts if trait else types[owner]), owner + "".join(words)]
    return "::".join([*parts, functions[-1][2]])


def is_own(text, it):
    """Whether a function, as FUNCTION finds it, is no method of a trait."""
    around = re.findall(r"^(?:pub(?:\(\w+\))? )?(impl\b.*|trait\b)", text[: it.start()], re.M) or [""]
    return not it[1] or around[-1].startswith("impl") and " for " not in around[-1]


def functions_in(texts):
    """The functions of a crate whose proof can be a hole: those with a body that are no method of a trait and do not call
    themselves."""
    types, found = types_of(texts), set()
    for path, text in texts.items():
        for it in FUNCTION.finditer(text):
            if not is_own(text, it):
                continue
            function = function_at(types, path, text, it.end())
            owner = rf"\b(?:self\.|(?:Self|{function.split('::')[-2]})::)" if it[1] else r"(?<![\w.:])"
            if not re.search(rf"{owner}{it[2]}\(", text[it.end() : text.find(f"\n{it[1]}}}", it.end())]):
                found.add(function)
    return found
