"""Looks whether the pages are short enough to be read.

    python3 tests/program/pages/length.py ROOT

All pages together have at most so many words, the first one so many lines, and no sentence of it more than so many words; a page of
docs/operating so many lines. A word has a letter or a digit: `wc -w` counts the bars of tables too, some 6,000."""
import glob
import os
import re
import sys

root = os.path.abspath(sys.argv[1])
WORDS = 50_000
FIRST_LINES, SENTENCE, LINES = 90, 25, 150
PAGES = ('README.md', 'docs/**/*.md', 'crates/*/*.md', 'bench/*.md', 'proxy/*.md', 'samples/*.md', 'sinks/*.md')
bad = []


def read(path):
    with open(os.path.join(root, path), encoding='utf-8') as file:
        return file.read()


def sentences(text):
    """The sentences of a page, without its blocks of code: a cell of a table and a line of a list are apart."""
    text = re.sub(r'(?ms)^```.*?^```$', '', text)
    text = re.sub(r'\]\([^)]*\)', ']', text)
    for part in re.split(r'\n|\|', text):
        for sentence in re.split(r'(?<=[.:;?])\s', part):
            yield re.findall(r'\S*\w\S*', sentence)


pages = sorted({os.path.relpath(path, root) for pattern in PAGES for path in glob.glob(f'{root}/{pattern}', recursive=True)})
words = {page: len(re.findall(r'\S*\w\S*', read(page))) for page in pages}
if sum(words.values()) > WORDS:
    bad.append(f'the pages have {sum(words.values())} words, and {WORDS} are allowed')
for page in pages:
    lines = read(page).count('\n')
    if page.startswith('docs/operating/') and lines > LINES:
        bad.append(f'{page} has {lines} lines, and {LINES} are allowed')
first = read('README.md')
if first.count('\n') > FIRST_LINES:
    bad.append(f'README.md has {first.count(chr(10))} lines, and {FIRST_LINES} are allowed')
bad += [f'README.md: a sentence of {len(it)} words: {" ".join(it[:8])} ..' for it in sentences(first) if len(it) > SENTENCE]
print('\n'.join(bad), end='\n' if bad else '')
sys.exit(1 if bad else 0)
