"""Wrong bodies, as the files crates/NAME/must-fail/*.edit have them, and the copies of functions that have them."""

import collections
import os
import re
import shutil

from source import FUNCTION, function_at, functions_in, is_own, module_of, sources_of, text_of, types_of

ROOT = os.path.abspath(os.path.join(os.path.dirname(os.path.abspath(__file__)), "..", "..", ".."))
# An edit: its name, its changes (file, old text, new text), the functions that they change, whether all of them lie in
# these functions, and its copy, if it can be one.
Edit = collections.namedtuple("Edit", "name changes functions is_within copy")
# A copy of a function: its file, its text with comment and attributes, what else the edit adds to the file, the names of the
# function and of the copy, and the clause that the copy ensures, or None for all of them.
Copy = collections.namedtuple("Copy", "path changed added function name clause")


def with_clause(text, clause):
    """A function's text, which ensures this clause alone. One that always holds stands beside it, so that its goals keep
    their names, which they do not where a clause is the only one."""
    if not re.search(rf"^ +ensures {clause} ", text, re.M):
        raise ValueError(f"its function has no clause '{clause}'")
    kept, is_kept, lines = [], True, text.split("\n")
    body = next(at for at, it in enumerate(lines) if it.strip() == "{")
    for at, line in enumerate(lines):
        if at < body and re.match(r" +(?:ensures|requires)\b| *//", line):
            is_kept = not re.match(r" +ensures\b", line) or re.match(rf" +ensures {clause} ", line)
        if at == body:
            kept.append(line.replace("{", "    ensures also { Unit {0} }"))
        if at >= body or is_kept:
            kept.append(line)
    return "\n".join(kept)


def answers_of(text, clause):
    """What an answers' file has for this clause: not the answers for others. None where one that stays uses these, or is for
    all clauses at once."""
    blocks = re.split(r"(?<=\n)\n(?=\S)", text)
    # Not those for what a callee requires.
    own = r"returns(?:(?!-requires-)\S)*-clause-"
    kept = [it for it in blocks if not re.match(rf"(?:--.*\n)*pub {own}(?!{clause} )", it)]
    names = re.findall(rf"^pub ({own}\w+) :", text, re.M)
    gone = [it for it in names if not it.endswith(f"-clause-{clause}")]
    used = [it for it in gone if any(re.search(rf"(?<![\w-]){re.escape(it)}(?![\w-])", block) for block in kept)]
    is_whole = re.search(r"^pub returns(?:(?!-clause-|-requires-)\S)* :", text, re.M)
    return None if used or is_whole else "\n".join(kept)


def copy_of(crate, texts, types, known, changes, functions, number, clause):
    """The copy of a function that has an edit's changes, under a name with this number; None if there can be none, as there
    is for no other function than the known ones."""
    path, function = changes[0][0], min(functions)
    text, at = texts[path], texts[path].index(changes[0][1])
    if len(functions) > 1 or function not in known or function_at(types, path, text, at) != function:
        return None
    head = [it for it in FUNCTION.finditer(text) if it.start() < at][-1]
    end = text.index(f"\n{head[1]}}}\n", head.end()) + len(f"\n{head[1]}}}\n")
    # With its attributes, which stand on the lines above it, and its comment.
    above = text[: head.start()].split("\n")[:-1]
    while above and not re.search(r"^$|[;{}]$", above[-1]):
        above.pop()
    name = f"{head[2]}_edit_{number}"
    changed = text[len("\n".join([*above, ""])) : end].replace(f"fn {head[2]}", f"fn {name}", 1)
    added = ""
    for file, old, new in changes:
        # A function that an edit adds stands instead of a comment.
        if file == path and old.startswith("///") and old not in changed:
            added += f"\n{new}\n"
        elif file != path or changed.count(old) != 1:
            return None
        changed = changed.replace(old, new)
    if text.count(text[head.start() : end]) > 1:
        return None
    if clause:
        answers = f"{ROOT}/crates/{crate}/proofs/{'/'.join(function.split('::'))}/Answers.antt"
        if os.path.isfile(answers) and answers_of(text_of(answers), clause) is None:
            clause = None
        else:
            changed = with_clause(changed, clause)
    return Copy(path, changed, added, function, "::".join([*function.split("::")[:-1], name]), clause)


def functions_of(types, texts, path, old):
    """The functions that a change of this text changes: the one around it, or those that name the constant in it."""
    constant = re.match(r"(?:pub(?:\(\w+\))? )?(?:const|static) (\w+)", old)
    places = [(path, texts[path].index(old))]
    if constant:
        word = re.compile(rf"\b{constant[1]}\b")
        places = [(file, it.start()) for file, text in texts.items() for it in word.finditer(text)]
    return {function_at(types, file, texts[file], at) for file, at in places} - {None}


def read_edit(lines, texts, types):
    """The changes of an edit (file, old text, new text), the functions that they change, whether all of them lie in these,
    and the clause that it names."""
    path, old, clause, changes, functions, is_within = None, None, None, [], set(), True
    texts = dict(texts)
    for line in lines:
        if line.startswith("file: "):
            path = line[len("file: ") :].strip()
        elif line.startswith("old: "):
            old = line[len("old: ") :]
            if texts.get(path, "").count(old) != 1:
                raise ValueError(f"'{old}' stands {texts.get(path, '').count(old)} times in {path}, and not once")
            functions |= functions_of(types, texts, path, old)
            is_within &= function_at(types, path, texts[path], texts[path].index(old)) is not None
        elif line.startswith("new: "):
            changes.append((path, old, line[len("new: ") :]))
            texts[path] = texts[path].replace(*changes[-1][1:])
        elif line.startswith("# clause: "):
            clause = line[len("# clause: ") :].strip()
    if not changes or not functions:
        raise ValueError("it changes the body of no function")
    return changes, functions, is_within, clause


def added_by(edit, texts):
    """The functions that an edit adds outside the bodies of methods: one inside a function is in a module `fn` beside it."""
    types, texts, added = types_of(texts), dict(texts), set()
    for path, old, new in edit.changes:
        around = function_at(types, path, texts[path], texts[path].index(old))
        texts[path] = texts[path].replace(old, new)
        *owner, function = (edit.copy.name if edit.copy else around or "").split("::")
        if around and owner and owner[-1][0].isupper():
            continue
        if around:
            owner = [*owner, "fn", function]
        elif not edit.copy or new not in edit.copy.changed:
            owner = module_of(path)
        added.update("::".join([*owner, it]) for it in re.findall(r"\bfn (\w+)", new))
    return added


def edits_of(name, unedited=False):
    """The edits of a crate, or these with nothing changed; and what is wrong with others."""
    edits, bad, texts = [], [], sources_of(f"{ROOT}/crates/{name}")
    types, known = types_of(texts), functions_in(texts)
    folder = f"{ROOT}/crates/{name}/must-fail"
    for file in sorted(os.listdir(folder)):
        try:
            with open(f"{folder}/{file}", encoding="utf-8") as it:
                changes, functions, is_within, clause = read_edit(it.read().split("\n"), texts, types)
            if unedited:
                changes = [(path, old, old) for path, old, _ in changes[:1]]
            edits.append(Edit(file, changes, functions, is_within, copy_of(name, texts, types, known, changes, functions, len(edits), clause)))
        except (OSError, ValueError) as why:
            bad.append(f"{name}/{file}: BAD EDIT: {why}")
    return edits, bad


def rounds_of(edits):
    """The edits in as few lists as their functions allow: no two of a list change the same function, or the same text. A copy
    is of the function as it stands, so it may stand beside one that is changed, unless what lies outside is changed too."""
    rounds = []
    for edit in edits:
        touched = {*edit.functions, *(it[:2] for it in edit.changes)}
        for tried, changed, copied, outside in rounds:
            if touched.isdisjoint(outside if edit.copy else changed if edit.is_within else changed | copied):
                break
        else:
            rounds.append(([], set(), set(), set()))
            tried, changed, copied, outside = rounds[-1]
        tried.append(edit)
        (copied if edit.copy else changed).update(touched)
        if not edit.copy and not edit.is_within:
            outside.update(touched)
    return [it[0] for it in rounds]


def change(file, old, new):
    """Changes a text of a file that stands in it once."""
    with open(file, encoding="utf-8") as it:
        text = it.read()
    assert text.count(old) == 1, f"{file}: the text '{old}' does not stand there once"
    with open(file, "w", encoding="utf-8") as it:
        it.write(text.replace(old, new))


def add_copy(room, name, copy):
    """Adds a function's copy to a copy of the crate, after the function, with a copy of its proof."""
    texts = sources_of(room)
    text, types = texts[copy.path], types_of(texts)
    it = next(it for it in FUNCTION.finditer(text) if is_own(text, it) and function_at(types, copy.path, text, it.end()) == copy.function)
    end = text.index(f"\n{it[1]}}}\n", it.end()) + len(f"\n{it[1]}}}\n")
    with open(f"{room}/{copy.path}", "w", encoding="utf-8") as file:
        file.write(f"{text[:end]}\n{copy.changed}{text[end:]}{copy.added}")
    old, new = copy.function.split("::"), copy.name.split("::")
    folder = f"{room}/proofs/{'/'.join(new)}"
    if not os.path.isdir(f"{ROOT}/crates/{name}/proofs/{'/'.join(old)}"):
        return
    shutil.copytree(f"{ROOT}/crates/{name}/proofs/{'/'.join(old)}", folder)
    for file in os.listdir(folder):
        with open(f"{folder}/{file}", encoding="utf-8") as it:
            text = re.sub(rf"\b(proofs|contracts)\.{re.escape('.'.join(old))}\b", rf"\1.{'.'.join(new)}", it.read())
        if copy.clause and file == "Answers.antt":
            text = answers_of(text, copy.clause)
        with open(f"{folder}/{file}", "w", encoding="utf-8") as it:
            it.write(re.sub(rf"\b{old[-1]}_spec\b", f"{new[-1]}_spec", text))
