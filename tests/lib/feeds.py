"""The rows that a reader of a change feed has, by samples/read_feed.py, and those of a database."""

import collections
import json
import os
import sys

from mrep import ROOT, printed

sys.path.insert(0, os.path.join(ROOT, 'samples'))
from read_feed import Reader, rows as rows_of, text as text_of


def folded(*feeds):
    """The rows that a reader of a feed has, who takes for used what was there before it."""
    found, reader = collections.Counter(), Reader('', adopt=True)
    for changes in reader.transactions([*feeds]):
        for change in changes:
            if change['type'] == 'truncate':
                for place in [it for it in found if it[:2] == (change['schema'], change['table'])]:
                    del found[place]
            for row, _, count in rows_of(change):
                found[change['schema'], change['table'], row] += count
    return +found


def held(db, *words):
    """The rows that a database has, as `show --format json` prints them with these words."""
    items = map(json.loads, printed('show', '--db', db, '--format', 'json', *words).splitlines())
    rows = ((item, item['row'] if 'row' in item else {name: item[name] for name in ('cells', 'widths')}) for item in items)
    return collections.Counter({(item['schema'], item['table'], text_of(row)): item['count'] for item, row in rows})
