"""What consume.py and the programs beside it share: their arguments, the rows of a change, and `Reader`, the rules of a reader of
the feed, which they take from mrep-sink (sinks/mrep_sink/feed.py, or lib/mrep-sink of the prefix that it is installed below)."""
import argparse
import json
import os
import sys

HERE = os.path.dirname(os.path.realpath(__file__))
sys.path[1:1] = [f'{HERE}/../sinks', f'{HERE}/../../../../lib/mrep-sink']

from mrep_sink.feed import Reader, has, read_set


def options(what):
    """The arguments of a consumer: where it puts the changes, and the files of the feed."""
    parser = argparse.ArgumentParser()
    parser.add_argument('--follow', action='store_true', help='read the last file on as it grows, and the next of its name')
    parser.add_argument('--adopt', action='store_true', help='take the set of the next open that has more for used')
    parser.add_argument('to', metavar=what)
    parser.add_argument('feed', nargs='+', help='the files of the feed, the oldest first')
    return parser.parse_args()


def rows(change):
    """The rows of a change as texts of JSON, each with its key, and how many of it come and go."""
    for side, count in (('before', -1), ('after', 1)):
        if side in change:
            row = change[side]
            yield text(row), text({name: row[name] for name in change['key']}) if 'key' in change else None, count


def text(value):
    return json.dumps(value, ensure_ascii=False, separators=(',', ':'))
