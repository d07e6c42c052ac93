"""Functions of a copy of a crate that a check takes by their contracts."""

import os
import re
import shutil

from source import FUNCTION, function_at, is_own, sources_of, text_of

# A proof that rests on a hole, of the module and the name of a function. The hole has any type, since the prover computes
# and prints the type of a hole, and a function's statement is long.
HOLE = """use Rattle.{module}.Statement as stated

any : {{A : Type 2}} → A
any = ?

pub {name}_spec : {{M : Type 1}} → stated.statement M
{name}_spec = any
"""


def leave_holes(room, name, functions):
    """Makes the proof of each of these functions a hole in a copy of a crate."""
    for function in functions:
        parts = function.split("::")
        folder = f"{room}/proofs/{'/'.join(parts)}"
        shutil.rmtree(folder, ignore_errors=True)
        os.makedirs(folder)
        with open(f"{folder}/Proof.antt", "w", encoding="utf-8") as it:
            it.write(HOLE.format(module=".".join([name, "proofs", *parts]), name=parts[-1]))


def take_by_contracts(room, name, types, functions):
    """Has the check of a copy of a crate take these functions by their contracts: the proof of each is a hole, and its body
    a loop, so that nothing is checked of the body, or of what it calls."""
    leave_holes(room, name, functions)
    for path, text in sources_of(room).items():
        stop = len(text)
        for it in reversed(list(FUNCTION.finditer(text))):
            # The body begins on a line with the function's indentation.
            begin = re.compile(rf"^{it[1]}(?:\S.* )?\{{$", re.M).search(text, it.start(), stop)
            stop = it.start()
            if begin and is_own(text, it) and function_at(types, path, text, it.end()) in functions:
                end = text.index(f"\n{it[1]}}}\n", begin.end())
                text = f"{text[: begin.end()]}\n{it[1]}    loop {{}}{text[end:]}"
        with open(f"{room}/{path}", "w", encoding="utf-8") as it:
            it.write(text)


def make_library(room):
    """Makes a library of the copy of a program, by leaving `main` out: so the check links no code of other crates."""
    program = f"{room}/src/main.rt"
    if os.path.isfile(program):
        text = text_of(program)
        at = text.index("\nfn main(")
        with open(f"{room}/src/lib.rt", "w", encoding="utf-8") as it:
            it.write(text[:at] + text[text.index("\n}\n", at) + 3 :])
        os.remove(program)
