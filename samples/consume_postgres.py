#!/usr/bin/env python3
"""consume.py for PostgreSQL, by its client psql: rows, executed set and place are in the same commit there too.

    consume_postgres.py [--follow] [--adopt] DATABASE FEED..

DATABASE is a name or a connection string, as "host=db2 dbname=shop". The other arguments are those of consume.py.

    SELECT row::json ->> 'name' FROM feed_rows WHERE name = 'items' AND key = '{"id":7}'
"""
import hashlib
import os
import subprocess
import sys

import read_feed

# The lock waits for the session of a consumer that was killed: psql may still have a transaction of it. A power failure
# may take the last commits, with their places.
BEGIN = '''
SET client_min_messages = warning;
SET synchronous_commit = off;
DO $$ BEGIN PERFORM pg_advisory_lock(hashtext('feed_place')); END $$;
CREATE TABLE IF NOT EXISTS feed_rows (schema text, name text, hash text, row text, key text, n bigint, PRIMARY KEY (schema, name, hash));
CREATE INDEX IF NOT EXISTS feed_keys ON feed_rows USING hash (key);
CREATE TABLE IF NOT EXISTS feed_place (one int PRIMARY KEY, place text);
INSERT INTO feed_place VALUES (1, '') ON CONFLICT DO NOTHING;
SELECT place FROM feed_place;
'''


def literal(value):
    return 'NULL' if value is None else "'" + value.replace("'", "''") + "'"


def statements(change):
    if change['type'] == 'truncate':
        yield f'DELETE FROM feed_rows WHERE schema = {literal(change["schema"])} AND name = {literal(change["table"])};\n'
    for row, key, count in read_feed.rows(change):
        place = [literal(value) for value in (change['schema'], change['table'], hashlib.sha256(row.encode()).hexdigest())]
        yield (f'INSERT INTO feed_rows VALUES ({", ".join(place)}, {literal(row)}, {literal(key)}, {count}) '
               'ON CONFLICT (schema, name, hash) DO UPDATE SET n = feed_rows.n + excluded.n;\n')
        yield 'DELETE FROM feed_rows WHERE schema = {} AND name = {} AND hash = {} AND n = 0;\n'.format(*place)


def main():
    options = read_feed.options('DATABASE')
    psql = subprocess.Popen(['psql', '-XqAt', '-v', 'ON_ERROR_STOP=1', options.to], stdin=subprocess.PIPE, stdout=subprocess.PIPE,
                            encoding='utf-8', env={**os.environ, 'PGCLIENTENCODING': 'UTF8'})

    def answer(text):
        """Runs statements; the answer of the last one, a line."""
        psql.stdin.write(text)
        psql.stdin.flush()
        line = psql.stdout.readline()
        if not line:
            sys.exit('psql has ended')
        return line[:-1]

    reader = read_feed.Reader(answer(BEGIN), options.adopt)
    for changes in reader.transactions(options.feed, options.follow):
        lines = [statement for change in changes for statement in statements(change)]
        answer(f'BEGIN;\n{"".join(lines)}UPDATE feed_place SET place = {literal(reader.place())};\nCOMMIT;\nSELECT 1;\n')


main()
