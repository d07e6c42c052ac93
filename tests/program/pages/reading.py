"""Looks whether the reading order of docs/THEOREMS.md counts what it lists, and names what that takes from the toolchain's SQLite.

    python3 tests/program/pages/reading.py ROOT"""

import os
import re
import sys
from typing import Dict, List

root = os.path.abspath(sys.argv[1])
bad: List[str] = []


def read(path: str) -> str:
    with open(f'{root}/{path}', encoding='utf-8') as file:
        return file.read()


def say_unless(holds: bool, what: str) -> None:
    if not holds:
        bad.append(f'docs/THEOREMS.md: the reading order does not have {what}')


def count(texts: List[str]) -> str:
    """How many lines these have, in hundreds."""
    return f'some {round(sum(it.count(chr(10)) for it in texts), -2):,} lines'


found = re.search(r'^## Reading order\n(.*?)(?=^## |\Z)', read('docs/THEOREMS.md'), re.M | re.S)
order = found[1] if found else ''
texts: Dict[str, str] = {}
for folder, cell in re.findall(r'^\| `(crates/\w+/specs)` \| (.*) \|$', order, re.M):
    for name in re.findall(r'`(\w+)`', re.sub(r'\([^)]*\)', '', cell)):
        texts[f'{folder}/{name}'] = read(f'{folder}/{name}.antt')
hour = re.search(r'In an hour read (.*?), some', order)
# A name that two folders have is meant as the first of them.
first = [next(text for path, text in texts.items() if path.endswith(f'/{name}')) for name in re.findall(r'`(\w+)`', hour[1] if hour else '')]
say_unless(f'{len(texts)} files, {count([*texts.values()])}' in order, f'"{len(texts)} files, {count([*texts.values()])}"')
say_unless(count(first) in order, f'"{count(first)}" for an hour')

taken: Dict[str, List[str]] = {}
for text in texts.values():
    for crate, names in re.findall(r'^use Rattle\.(sqlite\w*)\.specs\.(?!.*\.TheVariants\b)\S*?\.\{([^}]*)\}', text, re.M):
        taken.setdefault(crate, []).extend(re.findall(r'(\w+)(?: as \w+)?(?:,|$)', names))
for crate, names in sorted(taken.items()):
    row = re.search(rf'^\| [^|]*`{crate}`[^|]* \| (.*) \|$', order, re.M)
    for name in sorted({*names}):
        say_unless(bool(row) and f'`{name}`' in row[1], f'`{name}` of `{crate}`')
print('\n'.join(bad), end='\n' if bad else '')
sys.exit(1 if bad else 0)
