"""The reference of `ours store`: the same statements run by the C library of SQLite, through Python's sqlite3.

    store.py add TRANSACTIONS CHANGES FILE
    store.py again ROWS FILE
    store.py open FILE

A file has a write-ahead log and each commit is synced, as for `ours store`, and no other process may use it. `open`
checks the file and reads every row of each table, as opening the store does; it does not check the images.
"""

import sqlite3
import sys

SOURCE = bytes.fromhex("3e11fa4771ca11e19e33c80aa9429562")
NAME = "3e11fa47-71ca-11e1-9e33-c80aa9429562"
SCHEMA = b"shop"
TABLE = b"items"
TEXT = b"sixteen bytes..."
MANY = 1000

TABLES = (
    "CREATE TABLE meta (k TEXT PRIMARY KEY, v INTEGER NOT NULL)",
    "CREATE TABLE held (schema_name BLOB NOT NULL, table_name BLOB NOT NULL, image BLOB NOT NULL,"
    " n INTEGER NOT NULL CHECK (n > 0), PRIMARY KEY (schema_name, table_name, image))",
    "CREATE TABLE spans (source BLOB NOT NULL, lo INTEGER NOT NULL, hi INTEGER NOT NULL, PRIMARY KEY (source, lo))",
    "CREATE TABLE follow (schema_name BLOB NOT NULL, table_name BLOB NOT NULL, PRIMARY KEY (schema_name, table_name))",
    "INSERT INTO meta VALUES ('layout', 2)",
)

FIND = "SELECT n FROM held WHERE schema_name = ?1 AND table_name = ?2 AND image = ?3"
INSERT = "INSERT INTO held VALUES (?1, ?2, ?3, 1)"
UPDATE = "UPDATE held SET n = ?4 WHERE schema_name = ?1 AND table_name = ?2 AND image = ?3"
DELETE = "DELETE FROM held WHERE schema_name = ?1 AND table_name = ?2 AND image = ?3"
ADD_SPAN = "INSERT INTO spans VALUES (?1, ?2, ?3)"
DROP_SPAN = "DELETE FROM spans WHERE source = ?1 AND lo = ?2"

ALL = (
    "SELECT rowid, k, v FROM meta ORDER BY rowid",
    "SELECT rowid, schema_name, table_name FROM follow ORDER BY rowid",
    "SELECT rowid, source, lo, hi FROM spans ORDER BY rowid",
    "SELECT rowid, schema_name, table_name, image, n FROM held ORDER BY rowid",
)
OTHERS = (
    "SELECT count(*) FROM follow WHERE typeof(schema_name) <> 'blob' OR typeof(table_name) <> 'blob'",
    "SELECT count(*) FROM spans WHERE typeof(source) <> 'blob' OR length(source) <> 16 OR hi <= lo",
    "SELECT count(*) FROM held WHERE typeof(schema_name) <> 'blob' OR typeof(table_name) <> 'blob'"
    " OR typeof(image) <> 'blob' OR typeof(n) <> 'integer'",
)


def row(value):
    """The stored image of a number in eight bytes, and sixteen bytes."""
    return b"\x02\x00\x01\x08" + value.to_bytes(8, "little") + b"\x02\x10\x00\x00\x00" + TEXT


class Store:
    """A database, and the spans of its numbers by where they begin and by where they end."""

    def __init__(self, file):
        self.conn = sqlite3.connect(file, isolation_level=None)
        self.execute = self.conn.execute
        self.execute("PRAGMA locking_mode = EXCLUSIVE")
        self.execute("PRAGMA journal_mode = WAL")
        self.execute("PRAGMA synchronous = FULL")
        self.execute("PRAGMA cache_size = 2000")
        self.starts = {}
        self.ends = {}
        if self.execute("SELECT count(*) FROM sqlite_schema").fetchone()[0] == 0:
            self.execute("BEGIN")
            for text in TABLES:
                self.execute(text)
            self.execute("COMMIT")
        else:
            self.load()

    def load(self):
        """Checks the file and reads all rows."""
        if self.execute("PRAGMA integrity_check").fetchall() != [("ok",)]:
            raise ValueError("damaged")
        for text in OTHERS:
            if self.execute(text).fetchone()[0] != 0:
                raise ValueError("damaged")
        _meta, _follow, spans, _held = (self.execute(text).fetchall() for text in ALL)
        for _, _, lo, hi in spans:
            self.keep(lo, hi)

    def keep(self, lo, hi):
        self.starts[lo] = hi
        self.ends[hi] = lo

    def add(self, image):
        key = (SCHEMA, TABLE, image)
        found = self.execute(FIND, key).fetchall()
        if found:
            self.execute(UPDATE, (*key, found[0][0] + 1))
        else:
            self.execute(INSERT, key)

    def take(self, image):
        key = (SCHEMA, TABLE, image)
        found = self.execute(FIND, key).fetchall()
        if found[0][0] == 1:
            self.execute(DELETE, key)
        else:
            self.execute(UPDATE, (*key, found[0][0] - 1))

    def record(self, number):
        lo, hi = number, number + 1
        if number in self.ends:
            lo = self.ends.pop(number)
            del self.starts[lo]
            self.execute(DROP_SPAN, (SOURCE, lo))
        if number + 1 in self.starts:
            hi = self.starts.pop(number + 1)
            del self.ends[hi]
            self.execute(DROP_SPAN, (SOURCE, number + 1))
        self.execute(ADD_SPAN, (SOURCE, lo, hi))
        self.keep(lo, hi)

    def give(self, number, change, images):
        """One transaction, with the same change for each of the images, all of which are made before it begins."""
        self.execute("BEGIN")
        for image in images:
            change(image)
        self.record(number)
        self.execute("COMMIT")

    def text(self):
        spans = sorted(self.starts.items())
        return ":".join([NAME] + [f"{lo}-{hi - 1}" if lo + 1 < hi else f"{lo}" for lo, hi in spans])


def add(store, transactions, changes):
    first = 0
    for n in range(transactions):
        store.give(n + 1, store.add, [row(first + at) for at in range(changes)])
        first += changes


def again(store, rows):
    add(store, rows // MANY, MANY)
    images = [row(at) for at in range(rows // MANY * MANY)]
    store.give(rows // MANY + 1, store.take, images)
    store.give(rows // MANY + 2, store.add, images)


def main(words):
    store = Store(words[-1])
    if words[0] == "add":
        add(store, int(words[1]), int(words[2]))
    elif words[0] == "again":
        again(store, int(words[1]))
    print(store.text())
    store.conn.close()


main(sys.argv[1:])
