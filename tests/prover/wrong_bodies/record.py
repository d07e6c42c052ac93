"""The record of refusals, tests/prover/refused: a line an edit, with the checksum of what its refusal rests on, in order.

It is a lock file: `run --record` writes a line once it has seen the refusal, and the gate takes from it what has not changed."""

import hashlib
import os
import re
from typing import Dict, List, Set

from edits import ROOT, Edit
from rests import House, rests_on
from source import text_of
from trial import toolchain

RECORD = os.path.join(ROOT, "tests", "prover", "refused")
# The scripts on which it rests how an edit is tried.
SCRIPTS = ("edits.py", "holes.py", "source.py", "trial.py")
# One block in so many is tried again each time, of at most so many edits, all of one crate: a check of a crate reads its
# libraries for longer than it tries an edit.
PART, BLOCK = 16, 12


def checksums(house: House, crate: str, edits: List[Edit]) -> Dict[str, str]:
    """The checksum of what each edit of a crate rests on, by `CRATE/NAME`."""
    folder = os.path.dirname(os.path.abspath(__file__))
    scripts = "".join(re.sub(r"^ *#.*\n", "", text_of(f"{folder}/{it}"), flags=re.M) for it in SCRIPTS)
    ground = hashlib.sha256(toolchain() + scripts.encode()).hexdigest()
    names = {it.name: f"{crate}/{it.name[: -len('.edit')]}" for it in edits}
    return {names[it.name]: hashlib.sha256(f"{ground} {rests_on(house, crate, it)[0]}".encode()).hexdigest() for it in edits}


def read_record() -> Dict[str, str]:
    """The checksums of the record, by `CRATE/NAME`."""
    lines = text_of(RECORD).split("\n") if os.path.isfile(RECORD) else []
    return dict(it.split() for it in lines if it)


def write_record(refused: Dict[str, str]) -> None:
    with open(f"{RECORD}.new", "w", encoding="utf-8") as file:
        file.writelines(f"{name} {checksum}\n" for name, checksum in sorted(refused.items()))
    os.replace(f"{RECORD}.new", RECORD)


def standard() -> Set[str]:
    """The edits that each gate tries: those that docs/THEOREMS.md names for the mistakes that it lists."""
    found = re.search(r"^## Mistakes\b.*?(?=^## |\Z)", text_of(f"{ROOT}/docs/THEOREMS.md"), re.M | re.S)
    return set(re.findall(r"`(\w+/\w+)`", found[0])) if found else set()


def tree(top: str = ROOT) -> int:
    """A number for all files of the repository, or below a folder of it, without what is made."""
    found = hashlib.sha256()
    for folder, folders, files in os.walk(top):
        folders[:] = sorted(set(folders) - {".git", "bin", "out", "__pycache__"})
        for file in sorted(files):
            with open(f"{folder}/{file}", "rb") as it:
                data = it.read()
            found.update(f"{os.path.relpath(f'{folder}/{file}', ROOT)} {len(data)}\n".encode() + data)
    return int(found.hexdigest(), 16)


def sample(names: List[str], number: int) -> Set[str]:
    """The edits among these, in their order, that are tried though the record has them: one block in sixteen, by the number
    of the tree, so that all come round."""
    blocks: List[List[str]] = []
    for name in names:
        if blocks and len(blocks[-1]) < BLOCK and blocks[-1][0].partition("/")[0] == name.partition("/")[0]:
            blocks[-1].append(name)
        else:
            blocks.append([name])
    return {name for at, block in enumerate(blocks) if (at + number) % PART == 0 for name in block}
