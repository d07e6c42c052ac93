#!/usr/bin/env python3
"""Puts the rows of a change feed of mrep into an SQLite database, each transaction exactly once: a model for readers.

    consume.py [--follow] [--adopt] DATABASE FEED..

FEED.. are the files of one feed, the oldest first, as changes.json.1 changes.json. With --follow the last one is read as it
grows, and after it the new one of its name once it is renamed. It may be killed at any moment and started again, also
once files are renamed: the rows and the place where it goes on are in the same commit.

Where an `open` has transactions that were in none of the files, it ends with status 1: a file is missing, the database is
older than its feed, or they were skipped or adopted. --adopt, once, takes them for used.

    SELECT row, n FROM rows WHERE "schema" = 'shop' AND name = 'items'  -- rows as JSON, and how often each is there
    SELECT row FROM rows WHERE "schema" = 'shop' AND name = 'items' AND key = '{"id":7}'   -- by the key, where the feed has keys
"""
import sqlite3
import sys

import read_feed

TABLES = '''
CREATE TABLE IF NOT EXISTS rows ("schema", name, row, key, n INTEGER, PRIMARY KEY ("schema", name, row)) WITHOUT ROWID;
CREATE INDEX IF NOT EXISTS rows_by_key ON rows ("schema", name, key);
CREATE INDEX IF NOT EXISTS rows_below_none ON rows (n) WHERE n < 0;
CREATE TABLE IF NOT EXISTS place (one INTEGER PRIMARY KEY, place);
INSERT OR IGNORE INTO place VALUES (1, '');
'''
ADD = 'INSERT INTO rows VALUES (?, ?, ?, ?, ?) ON CONFLICT DO UPDATE SET n = n + excluded.n'
REMOVE = 'DELETE FROM rows WHERE "schema" = ? AND name = ? AND row = ? AND n = 0'


def main():
    options = read_feed.options('DATABASE')
    base = sqlite3.connect(options.to, isolation_level=None, timeout=60)
    # A power failure may take the last commits, with their places: these come again.
    base.executescript('PRAGMA journal_mode = WAL; PRAGMA synchronous = NORMAL;' + TABLES)
    place = base.execute('SELECT place FROM place').fetchone()[0]
    reader = read_feed.Reader(place, options.adopt)
    for changes in reader.transactions(options.feed, options.follow):
        base.execute('BEGIN IMMEDIATE')
        for change in changes:
            if change['type'] == 'truncate':
                base.execute('DELETE FROM rows WHERE "schema" = ? AND name = ?', (change['schema'], change['table']))
            for row, key, count in read_feed.rows(change):
                base.execute(ADD, (change['schema'], change['table'], row, key, count))
                base.execute(REMOVE, (change['schema'], change['table'], row))
        if base.execute('SELECT 1 FROM rows WHERE n < 0').fetchone():
            sys.exit('a row is removed that is not there: the form of rows has changed, or a file is missing')
        last, place = place, reader.place()
        if base.execute('UPDATE place SET place = ? WHERE place = ?', (place, last)).rowcount != 1:
            sys.exit('another process has used the feed meanwhile')
        base.execute('COMMIT')


main()
