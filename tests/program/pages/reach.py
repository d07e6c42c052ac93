"""Looks what of the system the functions of `replica` and `store` reach.

    python3 tests/program/pages/reach.py ROOT

What is proved of files is proved of the files that the toolchain's crate hands out: no clause can say that a function does
nothing else by the path that it is given, as to remove the file or to write another. That rests on this: only the functions
below have a `HostRuntime`, without which no path is reached, and they give it to the calls below alone. A new one belongs
here only once its body was read for that.
"""
import glob
import os
import re
import sys

root = os.path.abspath(sys.argv[1])
# The functions that have a `HostRuntime`, and what each gives it to.
FUNCTIONS = {
    'crates/replica/src/file/changed.rt': {'change_file': ['open_file']},
    'crates/replica/src/file/admitting.rt': {'admit_file': ['open_file']},
    'crates/replica/src/file/cleared.rt': {'clear_file': ['open_file']},
    'crates/replica/src/file.rt': {'open_file': ['RandomState::new', 'open_pair', 'connect_to']},
    'crates/replica/src/file/connection.rt': {
        # It reads how long the file is and the size of its pages.
        'sizes': ['fs::open'],
        'options': ['sizes'],
        'connect_to': ['options'],
    },
    'crates/replica/src/file/pair.rt': {'open_pair': ['open_both']},
    'crates/replica/src/file/not_opened.rt': {'open_both': ['sqlite_std_file::open']},
    'crates/replica/src/file/followed.rt': {'follow_file': ['open_file']},
    'crates/replica/src/file/loaded.rt': {'load_file': ['open_file']},
    'crates/replica/src/file/replaying.rt': {'replay': ['open_file']},
    'crates/replica/src/file/work.rt': {'in_file': ['open_file']},
}
# The functions of the program that give a database in a file to a call of `replica`, and what each gives the runtime to: only before
# the call is made, and where the database could not be opened, is anything done by the path.
CALLS = {
    'crates/mrep/src/commands/admit.rt': {'admit_to': 'admit_file'},
    'crates/mrep/src/commands/clear.rt': {'clear_in': 'clear_file'},
    'crates/mrep/src/commands/follow.rt': {'follow_into': 'follow_file'},
    'crates/mrep/src/commands/load.rt': {'load_into': 'load_file'},
    'crates/mrep/src/commands/replay.rt': {'replay_in': 'replica::replay'},
    'crates/mrep/src/commands/sets.rt': {'adopt_to': 'in_file'},
    'crates/mrep/src/commands/skip.rt': {'record': 'change_file'},
    'crates/mrep/src/database/reading.rt': {'list_from': 'in_file'},
}
# Ways to the system that need no `HostRuntime` in a line of their own.
WAYS = r'\b(?:fs|env|process|net|os|thread|libc)::\w+|\bextern\b|\bunsafe\b|\bsqlite_std_file::open\w*'
# The only use of each.
USES = {'fs::open': 1, 'sqlite_std_file::open': 1}
# The one function that might say of files which it has opened that they were not is this call.
OPENS = ('crates/replica/src/file/not_opened.rt', '''{
    match sqlite_std_file::open(rt, path, start) {
        Ok(files) => Ok(files),
        Err(error) => Err(NotOpened::of(error)),
    }
}
''')
bad, seen, found = [], {}, {}


def calls_of(name, text, named=None):
    """What each function, or each that is named, gives `rt` to, in order, but for `rt.alloc()`."""
    for part in re.split(r'\n(?=(?:pub(?:\(\w+\))? )?fn )', text):
        head = re.match(r'(?:pub(?:\(\w+\))? )?fn (\w+)', part)
        if named is not None and (not head or head.group(1) not in named):
            continue
        body = re.sub(r'\brt\.alloc\(\)|\brt: &HostRuntime\b', '', part)
        calls = re.findall(r'([\w:]+)\(\s*rt\b(?!:)', body)
        if len(re.findall(r'\brt\b', body)) != len(calls):
            bad.append(f'{name}: {head.group(1) if head else "it"} uses `rt` otherwise')
        if head:
            yield head.group(1), calls


for path in sorted(glob.glob(f'{root}/crates/replica/src/**/*.rt', recursive=True) + glob.glob(f'{root}/crates/store/src/**/*.rt', recursive=True)):
    name, function = os.path.relpath(path, root), None
    with open(path, encoding='utf-8') as file:
        text = re.sub(r'//.*|"(?:[^"\\]|\\.)*"', '', file.read())
    for line in text.split('\n'):
        head = re.match(r'\s*(?:pub(?:\(\w+\))? )?(?:const )?fn (\w+)', line)
        function = head.group(1) if head else function
        if re.match(r'\s*(?:ghost use|ensures|requires|never)\b', line):
            continue
        for way in re.findall(WAYS, line):
            USES[way] = USES.get(way, 0) - 1
            if USES[way] < 0:
                bad.append(f'{name}: {function} uses {way}')
        if 'HostRuntime' in line:
            seen.setdefault(name, {})[function] = []
            if not re.search(r'\brt: &HostRuntime\b', line) or function not in FUNCTIONS.get(name, {}):
                bad.append(f'{name}: {function} has a HostRuntime')
    for function, calls in calls_of(name, text):
        if calls:
            found.setdefault(name, {})[function] = calls

for name, functions in CALLS.items():
    with open(f'{root}/{name}', encoding='utf-8') as file:
        made = dict(calls_of(name, re.sub(r'//.*|"(?:[^"\\]|\\.)*"', '', file.read()), functions))
    for function, call in functions.items():
        if made.get(function, [])[:2] != ['opening', call] or len(made[function]) != 3:
            bad.append(f'{name}: the runtime of {function} goes to {made.get(function)}')

with open(f'{root}/{OPENS[0]}', encoding='utf-8') as file:
    if not file.read().endswith(OPENS[1]):
        bad.append(f'{OPENS[0]} ends otherwise')
if {name: set(functions) for name, functions in seen.items()} != {name: set(functions) for name, functions in FUNCTIONS.items()}:
    bad.append(f'a HostRuntime has {seen}')
if found != FUNCTIONS:
    bad.append(f'a HostRuntime goes to {found}')
print('\n'.join(bad), end='\n' if bad else '')
sys.exit(1 if bad else 0)
