"""How wrong bodies are tried: a check of their functions, or of copies, in a copy of the crate, and what it says of them."""

import os
import re
import shutil
import subprocess
import sys
import tempfile
from typing import Dict, List, Optional, Tuple

from edits import ROOT, Edit, add_copy, added_by, change
from holes import leave_holes, make_library, take_by_contracts
from source import functions_in, sources_of, types_of

RT = shutil.which("rt")
KIT = os.path.dirname(os.path.dirname(os.path.realpath(RT))) if RT else sys.exit("wrong_bodies: there is no rt")
# What the prover says where a proof names what an edit took away.
NAMES = re.compile(r"has no field|is not in scope|has no `|was not admitted")


def toolchain() -> bytes:
    """What the toolchain says that it is."""
    return subprocess.run([RT, "version"], capture_output=True, check=True).stdout


def command(workspace: str, crates: Dict[str, List[str]], name: str) -> List[str]:
    """The check of a crate, in its folder."""
    words = [f"{KIT}/bin/rattle", "check", "--crate-name", name, "src/lib.rt", "--jobs", "1"]
    for it in ["std", *crates[name]]:
        place = f"{workspace}/crates/{it}/out/rlib" if it in crates else f"{KIT}/rlibs"
        words += ["--extern", f"{it}={place}/{it}.rlib"]
    for place in [f"{KIT}/rlibs", *(f"{workspace}/crates/{it}/out/rlib" for it in crates)]:
        words += ["-L", f"dependency={place}"]
    # Not with --incremental: it takes time, and there is rarely a second check that could use what it keeps.
    words += ["--antt-project", f"{KIT}/rattle/logic/antt-project.json", "--logic-built", f"{KIT}/logic_built", "--allow-holes"]
    return words


def check(words: List[str], name: str, edits: List[Edit]) -> Tuple[str, float]:
    """Checks the functions that these edits change, or their copies, in a copy of the crate, the others taken by their
    contracts. Gives what the prover says, and the seconds."""
    whole, copies = [it for it in edits if not it.copy], [it.copy for it in edits if it.copy]
    functions = set().union(*(it.functions for it in whole))
    with tempfile.TemporaryDirectory(prefix="must-fail-") as room:
        for part in ("src", "specs", "proofs"):
            if os.path.isdir(f"{ROOT}/crates/{name}/{part}"):
                shutil.copytree(f"{ROOT}/crates/{name}/{part}", f"{room}/{part}")
        for path, old, new in (it for edit in whole for it in edit.changes):
            change(f"{room}/{path}", old, new)
        for copy in copies:
            add_copy(room, name, copy)
        make_library(room)
        texts = sources_of(f"{ROOT}/crates/{name}")
        take_by_contracts(room, name, types_of(texts), functions_in(texts) - functions - {"main"})
        leave_holes(room, name, set().union(*(added_by(it, texts) for it in edits)))
        only = [word for it in sorted({*functions, *(it.name for it in copies)}) for word in ("--only", it)]
        with open(f"{room}/said", "w+", encoding="utf-8", errors="replace") as said:
            how = {"stdin": subprocess.DEVNULL, "stdout": said, "stderr": subprocess.STDOUT}
            process = subprocess.Popen([*words, *only], cwd=room, **how)
            _, process.returncode, spent = os.wait4(process.pid, 0)
            said.seek(0)
            return said.read(), spent.ru_utime + spent.ru_stime


def refusal(said: str, name: str, function: str) -> Optional[str]:
    """Why the prover refuses a function, if it does so by one of its goals."""
    status = re.search(rf"^fn {name}::{re.escape(function)}: (.*)", said, re.M)
    if not status or status[1].startswith(("no holes", "depends on a hole")):
        return None
    goals = re.search(r"`search` did not prove (`[^;]*)", status[1])
    if goals:
        return f"no proof of {goals[1]}"
    place = re.escape("proofs/" + function.replace("::", "/"))
    # What a record or a module lacks may stand on the next line.
    errors = re.findall(rf"^(?:\./)?({place}/\S+: error: .*(?:\n  .*)?)", said, re.M)
    return next((it.split("\n")[0] for it in errors if not NAMES.search(it)), None)
