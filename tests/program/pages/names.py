"""Looks whether each file, function, clause, law and definition that a page names is there.

    python3 tests/program/pages/names.py ROOT

- A link has to exist, and its heading, and a path in backticks: from the root, the page's folder, or the folder of the crate
  (on a page of no crate, of some crate).
- `CRATE::NAME` and `CRATE::TYPE::NAME` have to be items of that crate; on pages about the code, other names in backticks
  words of some crate.
- A clause has to be one of a function that the same sentence or row names, or a field of the record that its only clause,
  which has no name, says to hold.
- In a crate's page: the first column of a table `Function` or `Law` names functions of the crate, and its second
  column clauses of theirs.

And that a word of `specs/` and a type of `src/` is defined in one file alone, so that it means one thing.
"""
import glob, os, re, sys

root = os.path.abspath(sys.argv[1])
CRATES = ['wire', 'greet', 'gtid', 'binlog', 'gather', 'columns', 'store', 'scripted_source', 'replica', 'formats', 'rows', 'first_copy', 'files', 'feed', 'export', 'messages', 'watch', 'command_line', 'mrep']
TOP = ('crates/', 'docs/', 'tests/', 'bench/', 'samples/', 'proxy/', 'sinks/', 'specs/', 'src/', 'proofs/', 'must-fail/', '.ci/')
# Types that two files still define: of the crates up to `store`, and of `columns`.
SHARED = {'ColumnType', 'Entry', 'Place', 'Refusal', 'Shape', 'State'}
bad = []


def read(path):
    with open(path, encoding='utf-8') as file:
        return file.read()


def records(crate):
    """The records among the definitions of a crate, with their fields."""
    found = {}
    for path in glob.glob(f'{root}/crates/{crate}/specs/*.antt'):
        name = None
        for line in read(path).split('\n'):
            head = re.match(r'\s*pub record (\w+)', line)
            field = re.match(r'\s+pub (\w+) :', line)
            if head: name = head.group(1)
            elif field and name: found.setdefault(name, set()).add(field.group(1))
            elif line and not line.startswith(' '): name = None
    return found


def items(crate):
    """The names of a crate's items, and of each function, also as TYPE::NAME, its clauses."""
    names, clauses, fields = set(), {}, records(crate)
    for path in glob.glob(f'{root}/crates/{crate}/src/**/*.rt', recursive=True):
        owner, function = None, None
        for line in read(path).split('\n'):
            found = re.match(r'(?:impl\b[^{]*?\b(?:for )?|pub trait )(\w+)(?:<[^{]*>)?(?: where.*)? \{', line)
            if found: owner = found.group(1)
            elif line == '}': owner = None
            found = re.match(r'\s*(?:pub(?:\(crate\))? )?(?:const )?(?:unsafe )?fn (\w+)', line)
            if found:
                function = [found.group(1)] + ([f'{owner}::{found.group(1)}'] if owner else [])
                for name in function: clauses.setdefault(name, set())
                continue
            found = re.match(r'\s*(?:pub(?:\(crate\))? )?(?:struct|enum|trait|const|mod|type) (\w+)', line)
            if found: names.add(found.group(1))
            found = re.match(r'\s*ensures (\w+) \{', line)
            if found and function:
                for name in function: clauses[name].add(found.group(1))
            found = re.match(r'\s*ensures \{ (\w+)', line)
            if found and function:
                for name in function: clauses[name].update(fields.get(found.group(1), ()))
            found = re.match(r'    (\w+)(?:\(.*\)| \{.*)?,?$', line)
            if found: names.add(found.group(1))
    return names, clauses


def words(crate):
    """The definitions of a crate."""
    found = set()
    for path in glob.glob(f'{root}/crates/{crate}/specs/*.antt'):
        found.update(re.findall(r'^\s*(?:unfoldable |abbrev )?(?:pub )?(?:record |data )?(\w+)', read(path), re.M))
    return found


def every_word():
    """All words of the crates: their names, sources, definitions and proofs."""
    found = set(os.listdir(f'{root}/crates'))
    for pattern in ('src/**/*.rt', 'specs/*.antt', 'proofs/**/*.antt'):
        for path in glob.glob(f'{root}/crates/*/{pattern}', recursive=True): found.update(re.findall(r'\w+', read(path)))
    return found


INDEX = {crate: items(crate) for crate in CRATES}
WORDS = {crate: words(crate) for crate in CRATES}
ALL = every_word()
NAMES = {name for crate in CRATES for name in INDEX[crate][0]}
OWNERS = {key.split('::')[0] for crate in CRATES for key in INDEX[crate][1] if '::' in key}
OF_CODE = ('docs/THEOREMS.md', 'docs/ARCHITECTURE.md', 'docs/DECISIONS.md')


def there(page, path):
    folder = os.path.relpath(page, root).split('/')
    crate = folder[1] if folder[0] == 'crates' else '*'
    folders = [root, os.path.dirname(page), f'{root}/crates', f'{root}/crates/{crate}', f'{root}/crates/{crate}/src']
    return any(glob.glob(os.path.join(folder, path)) for folder in folders)


def headings(path):
    """The anchors of a page's headings."""
    text = re.sub(r'(?ms)^```.*?^```$', '', read(path))
    return {re.sub(r'[^\w\- ]', '', head.lower()).strip().replace(' ', '-') for head in re.findall(r'^#+ (.*)$', text, re.M)}


def paths(page, text):
    for target, anchor in re.findall(r'\]\(([^)#]*)(?:#([^)]*))?\)', text):
        if target.startswith('http'):
            continue
        path = os.path.join(os.path.dirname(page), target) if target else page
        if not os.path.exists(path):
            yield f'no file {target}'
        elif anchor and path.endswith('.md') and anchor not in headings(path):
            yield f'no heading {target}#{anchor}'
    for token in re.findall(r'`([\w.*/-]+)`', text):
        if (token.startswith(TOP) or re.fullmatch(r'[\w/-]+\.(?:md|rt|antt|py|rs)', token)) and not there(page, token):
            yield f'no file {token}'


def qualified(text):
    for token in re.findall(r'`((?:%s)::[\w:]+)`' % '|'.join(CRATES), text):
        crate, *rest = token.split('::')
        names, clauses = INDEX[crate]
        last = '::'.join(rest[-2:])
        if not (rest[-1] in names or rest[-1] in WORDS[crate] or last in clauses or (len(rest) < 3 and rest[-1] in clauses)):
            yield f'no item {token}'


def unqualified(text):
    """Names of the code without their crate, as `Session::feed` or `take_event`: words of some crate, at least."""
    for token in re.findall(r'`([A-Za-z]\w*(?:::\w+)*)`', text):
        looks = '::' in token or '_' in token or re.match(r'[A-Z][a-z]+[A-Z]', token)
        if looks and not all(part in ALL for part in token.split('::') if part not in CRATES): yield f'no name {token}'
        owner, _, name = token.rpartition('::')
        if owner in OWNERS and name not in NAMES and not any(token in INDEX[crate][1] for crate in CRATES): yield f'no item {token}'


def of_sentence(crate, sentence):
    """The functions that a sentence names, with their crate."""
    for token in re.findall(r'`([\w:]+)`', sentence):
        parts = token.split('::')
        if parts[0] in CRATES and len(parts) > 1: yield parts[0], '::'.join(parts[1:])
        elif crate: yield crate, token


def is_function(crate, name):
    return name in INDEX[crate][1] or '::'.join(name.split('::')[-2:]) in INDEX[crate][1]


def has_clause(functions, clause):
    for crate, name in functions:
        clauses = INDEX[crate][1]
        for key in (name, '::'.join(name.split('::')[-2:]), name.split('::')[-1]):
            if clause in clauses.get(key, ()): return True
    return False


def claims(crate, text):
    for sentence in re.split(r'(?<=[.;])\s|\n', text):
        for group in re.findall(r'\bclauses? ((?:`\w+`(?:, | and )?)+)', sentence):
            functions = [it for it in of_sentence(crate, sentence) if is_function(*it)]
            for clause in re.findall(r'`(\w+)`', group):
                if functions and not has_clause(functions, clause): yield f'no clause {clause}: {sentence[:90]}'


def tables(page, crate, text):
    kind, functions = None, []
    for line in text.split('\n'):
        cells = [cell.strip() for cell in line.strip('|').split(' | ')] if line.startswith('|') else []
        if not cells: kind = None; continue
        if cells[0] in ('Function', 'Law', 'Promise'): kind = cells[0]; continue
        if kind in ('Function', 'Law') and crate and not re.fullmatch(r'[|\- ]+', cells[0]):
            named = re.findall(r'`([\w:]+)`', cells[0])
            if named: functions = named
            for name in named:
                known = INDEX[crate][1]
                if not (name in known or '::'.join(name.split('::')[-2:]) in known): yield f'no function {name}'
            for clause in re.findall(r'`(\w+)`', cells[1]) if len(cells) > 2 else []:
                if not has_clause([(crate, name) for name in functions], clause): yield f'no clause {clause} of {functions}'


def twice():
    """Words that two files of `specs/` define."""
    files = {}
    for path in glob.glob(f'{root}/crates/*/specs/*.antt'):
        for line in read(path).split('\n'):
            found = re.match(r' *(?:abbrev pub|unfoldable pub|pub (?:record|data)|pub) (?!record|data|mod)(\w+)', line)
            is_field = re.match(r' +pub \w+ :', line)
            if found and not is_field: files.setdefault(found.group(1), set()).add(os.path.relpath(path, root))
    for word, places in sorted(files.items()):
        if len(places) > 1: yield f'{word} is defined in ' + ' and in '.join(sorted(places))


def types_twice():
    """Types that two files of `src/` define, so that one name means two things."""
    files = {}
    for path in glob.glob(f'{root}/crates/*/src/**/*.rt', recursive=True):
        for name in re.findall(r'^(?:pub(?:\(crate\))? )?(?:struct|enum|trait) (\w+)', read(path), re.M):
            files.setdefault(name, set()).add(os.path.relpath(path, root))
    for name, places in sorted(files.items()):
        if len(places) > 1 and name not in SHARED: yield f'the type {name} is defined in ' + ' and in '.join(sorted(places))


bad += twice()
bad += types_twice()
pages = [path for pattern in ('*.md', 'docs/*.md', 'docs/operating/*.md', 'crates/*/*.md', 'samples/*.md', 'bench/*.md', 'proxy/*.md', 'sinks/*.md')
         for path in sorted(glob.glob(f'{root}/{pattern}'))]
for page in pages:
    text = read(page)
    folder = os.path.relpath(page, root).split('/')
    crate = folder[1] if folder[0] == 'crates' and folder[1] in CRATES else None
    name = os.path.relpath(page, root)
    findings = [*paths(page, text), *qualified(text), *claims(crate, text), *tables(page, crate, text)]
    if crate or name in OF_CODE: findings += unqualified(text)
    bad += [f'{name}: {finding}' for finding in findings]
print('\n'.join(bad), end='\n' if bad else '')
sys.exit(1 if bad else 0)
