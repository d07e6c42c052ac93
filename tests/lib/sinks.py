"""What the scripts of tests/sinks share: the sink as a program, lines of a feed that are written here, and what SQLite holds."""

import glob
import json
import os
import signal
import subprocess
import sys
import tempfile
import traceback

from mrep import A, ROOT, fail, same, sqlite3

sys.path.append(f'{ROOT}/sinks')

SINK = f'{ROOT}/sinks/mrep-sink'
# How many seconds a run may take.
LONGEST = 120
LEAST_SQLITE = (3, 37, 0)
# A description, and the types of its tables in SQLite.
ITEMS = [('shop', 'items', 'id', 'int', 'NULL', 'PRI'), ('shop', 'items', 'name', 'varchar(20)', 'utf8mb4', ''),
         ('shop', 'items', 'photo', 'blob', 'NULL', '')]
NOTES = [('shop', 'notes', 'a', 'int', 'NULL', ''), ('shop', 'notes', 'b', 'double', 'NULL', '')]


def python_with(module):
    """A python3 that has a module: this one, or another that is installed; nothing if none has it."""
    for python in dict.fromkeys([sys.executable, '/usr/bin/python3', *sorted(glob.glob('/usr/bin/python3.[0-9]*'))]):
        if os.access(python, os.X_OK) and not subprocess.run([python, '-c', f'import {module}'], capture_output=True,
                                                             check=False).returncode:
            return python
    return None


def started(*words, python=sys.executable, **how):
    return subprocess.Popen([python, SINK, *words], stdout=subprocess.PIPE, stderr=subprocess.PIPE,
                            **{'stdin': subprocess.DEVNULL, **how})


def ran_beside(words):
    """The status of a run, and what it says on standard error: a process that begins as a copy of this one, which has the modules
    of the sink already. To start Python and read them took most of the time of a short run."""
    from mrep_sink.main import main
    with tempfile.TemporaryFile() as said:
        child = os.fork()
        if child == 0:
            ended = 1
            try:
                signal.alarm(LONGEST)
                os.dup2(said.fileno(), 2)
                sys.stderr = open(2, 'w', encoding='utf-8', errors='backslashreplace', closefd=False)
                ended = main([*words])
            except BaseException:
                traceback.print_exc()
            finally:
                sys.stderr.flush()
                os._exit(ended)
        ended = os.waitstatus_to_exitcode(os.waitpid(child, 0)[1])
        said.seek(0)
        return ended, said.read().decode(errors='replace')


def sink(*words, status=0, says='', python=None, data=None):
    """A run of the sink that ends with this status, and says this on standard error; with a `python` or with data for its standard
    input it is the program itself."""
    if python or data is not None:
        how = {'input': data} if data is not None else {'stdin': subprocess.DEVNULL}
        ran = subprocess.run([python or sys.executable, SINK, *words], stdout=subprocess.PIPE, stderr=subprocess.PIPE, check=False,
                             timeout=LONGEST, **how)
        ended, err = ran.returncode, ran.stderr.decode(errors='replace')
    else:
        ended, err = ran_beside(words)
    if ended != status or says not in err or 'Traceback' in err:
        fail(f'mrep-sink {" ".join(words)} ends with {ended} and not {status}, and says:\n{err}and not: {says}')
    return err


def described(*columns):
    return ''.join('\t'.join(column) + '\n' for column in columns).encode()


def compact(item):
    return json.dumps(item, ensure_ascii=False, separators=(',', ':')).encode() + b'\n'


def opened(executed='', form='base64'):
    return compact({'type': 'open', 'executed': executed, **({'bytes': form} if form else {})})


def change(before, after, table='items', keys=('id',), **more):
    """A change of a table of `shop`."""
    kind = 'update' if before and after else 'delete' if before else 'insert'
    row = before or after
    key = {'key': {name: row[name] for name in keys}} if keys else {}
    return {'type': kind, 'schema': 'shop', 'table': table, **key, **({'before': before} if before else {}),
            **({'after': after} if after else {}), **more}


def emptied(table='items'):
    """That all rows of a table go."""
    return {'type': 'truncate', 'schema': 'shop', 'table': table}


def item(number, name='x', photo=None):
    return {'id': number, 'name': name, 'photo': photo}


def note(a, b):
    return change(None, {'a': a, 'b': b}, 'notes', ())


def transaction(number, *changes, ends=True, source=A, at=1795811726):
    """The lines of a transaction."""
    gtid = f'{source}:{number}'
    head = lambda n, it: {'type': it['type'], 'gtid': gtid, 'n': n, 'ts': at + number,
                          **{name: value for name, value in it.items() if name != 'type'}}
    lines = [compact(head(n, it)) for n, it in enumerate(changes)]
    return b''.join(lines) + (compact({'type': 'commit', 'gtid': gtid, 'changes': len(changes),
                                       'committed_us': (at + number) * 1000000, 'server': 1, 'xid': number}) if ends else b'')


class Held:
    """What a file of SQLite has, but for the tables of the sink: definitions and rows."""

    def __init__(self, path):
        base = sqlite3.connect(f'file:{path}?mode=ro', uri=True)
        self.definitions = dict(base.execute("SELECT name, sql FROM sqlite_schema WHERE type = 'table' AND name NOT LIKE "
                                             "'mrep\\_%' ESCAPE '\\'"))
        self.rows = {name: sorted((tuple(row) for row in base.execute(f'SELECT * FROM "{name.replace(chr(34), chr(34) * 2)}"')),
                                  key=repr) for name in self.definitions}
        has_place = base.execute("SELECT 1 FROM sqlite_schema WHERE name = 'mrep_place'").fetchone()
        place = base.execute('SELECT executed FROM mrep_place').fetchall() if has_place else [(None,)]
        same(f'{path}: places', len(place), 1)
        self.executed = place[0][0]
        same(f'{path} by sqlite3', base.execute('PRAGMA integrity_check').fetchall(), [('ok',)])
        base.close()


def query(path, statement, *values):
    base = sqlite3.connect(path)
    found = base.execute(statement, values).fetchall()
    base.commit()
    base.close()
    return found


def equal(what, one, other):
    """Two files hold the same tables."""
    mine, theirs = Held(one), Held(other)
    same(f'{what}: definitions', mine.definitions, theirs.definitions)
    for name in mine.rows:
        # By their texts, which tell -0.0 from 0.0 and 1 from '1'.
        same(f'{what}: {name}', list(map(repr, mine.rows[name])), list(map(repr, theirs.rows[name])))


def skip_without_strict(name):
    if sqlite3 is None or sqlite3.sqlite_version_info < LEAST_SQLITE:
        print(f'{name}: skipped, since this python3 has no SQLite 3.37', flush=True)
        sys.exit(0)
