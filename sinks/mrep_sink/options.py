"""The command line."""

import argparse
from typing import List, NoReturn

from .faults import USAGE, Fault

ABOUT = """Keeps the rows of a change feed of mrep as tables of SQLite or PostgreSQL, with their history if it is wanted, or
sends its changes to Kafka: each transaction exactly once. It may be killed at any moment and started again."""
EXAMPLES = """Examples:
  mrep-sink sqlite shop.db --columns shop.columns changes.json
  mrep-sink sqlite shop.db --columns shop.columns --follow --history changes.json.1 changes.json
  mrep-sink postgres "host=db2 dbname=shop" --columns shop.columns --follow changes.json
  mrep-sink kafka db3:9092 --columns shop.columns --name shop --topics shop --follow changes.json

Exit status:
  0  all of the feed was used
  1  something stays as it is until somebody acts: a part of the feed is missing, a row does not fit, another sink
  2  a mistake in the words, or a description that is none
  3  a file, a server or a disk failed: it may be tried again"""
KINDS = {'sqlite': ('FILE', 'an SQLite file: a new one, that of a sink, or one that mrep export --place has made'),
         'postgres': ('DSN', 'a connection string of PostgreSQL'),
         'kafka': ('BROKERS', 'the addresses of Kafka, with commas between')}


# Options that one kind has alone.
OF_ONE_KIND = {'fast': 'sqlite', 'as_text': 'postgres', 'topics': 'kafka', 'new': 'kafka', 'unchecked': 'kafka',
               'setting': 'kafka'}


class Options(argparse.Namespace):
    """What the words say."""

    kind: str
    to: str
    feed: List[str]
    columns: str
    only: List[str]
    follow: bool
    adopt: bool
    batch: int
    name: str
    progress: bool
    status: str
    history: bool
    rebuild: str
    fast: bool
    as_text: List[str]
    connect_retry: float
    topics: str
    envelope: str
    partitions: int
    new: bool
    unchecked: bool
    setting: List[str]


class Help(argparse.RawDescriptionHelpFormatter):
    """A help whose options stand on a line of their own."""

    def __init__(self, prog: str) -> None:
        super().__init__(prog, max_help_position=34)


class Parser(argparse.ArgumentParser):
    """Mistakes in one line, with status 2."""

    def error(self, message: str) -> NoReturn:
        raise Fault(f'{message}; --help says what there is', USAGE)


def parser() -> Parser:
    made = Parser('mrep-sink', 'mrep-sink KIND TO --columns FILE [OPTION].. FEED..', ABOUT, EXAMPLES, formatter_class=Help,
                  allow_abbrev=False)
    add = made.add_argument
    add('kind', metavar='KIND', choices=KINDS, help='sqlite, postgres or kafka')
    add('to', metavar='TO', help='; '.join(f'{kind}: {about}' for kind, (_, about) in KINDS.items()))
    add('feed', metavar='FEED', nargs='+', help='the files of the feed, the oldest first; - for standard input')
    add('--columns', metavar='FILE', required=True, help='the description of the columns that the feed was written with')
    add('--only', metavar='SCHEMA.TABLE', action='append', default=[],
        help='the tables that are wanted, instead of all that are described; may be given several times')
    add('--follow', action='store_true', help='reads on as the last file grows, and goes on to the new one of its name')
    add('--batch', metavar='N', type=int, default=1000, help='how many transactions a commit has at most (1000)')
    add('--adopt', action='store_true', help='takes the transactions of the next open for used that were in no file, once')
    add('--name', metavar='NAME', help='the name of the feed, which the sink keeps (mrep); with kafka it is needed, and is the '
                                       'transactional.id')
    add('--history', action='store_true', help='keeps each change of each row in tables of their own (sqlite, postgres)')
    add('--rebuild', metavar='FILE', help='makes the tables that this file of mrep export --place has anew, with its rows, which '
                                          'are those after the transactions of the sink; a new sink begins with them (sqlite, '
                                          'postgres)')
    add('--fast', action='store_true', help='without a sync at each commit: a power failure may take the last ones, which come '
                                            'again (sqlite)')
    add('--as-text', metavar='SCHEMA.TABLE.COLUMN', action='append', default=[],
        help='a column whose values the type does not take, as a text (postgres)')
    add('--connect-retry', metavar='SECONDS', type=float, default=60.0,
        help='for how long a server that is gone is tried again (60; postgres)')
    add('--topics', metavar='PREFIX', help='what the names of the topics begin with (kafka)')
    add('--envelope', metavar='FORM', choices=('feed', 'debezium'), default='feed',
        help='what a message has: the line of the feed (feed), or its parts in the shape of Debezium (debezium)')
    add('--partitions', metavar='N', type=int, default=1, help='how many partitions the topic of a table has that has a key (1; '
                                                               'kafka)')
    add('--new', action='store_true', help='begins where there are topics with messages and no place (kafka)')
    add('--unchecked', action='store_true', help='neither makes topics nor looks at their settings (kafka)')
    add('--setting', metavar='NAME=VALUE', action='append', default=[],
        help='a setting of librdkafka, as security.protocol=ssl; may be given several times (kafka)')
    add('--progress', action='store_true', help='reports each second what was used')
    add('--status', metavar='FILE', help='writes counts for Prometheus to a file')
    return made


def parse(words: List[str]) -> Options:
    """What the words of a command say."""
    made = parser()
    options = Options()
    made.parse_args(words, options)
    if not 1 <= options.batch <= 1_000_000:
        made.error('--batch is not from 1 to 1000000')
    if '-' in options.feed and len(options.feed) > 1:
        made.error('- is the only file of a feed where it is one')
    if options.follow and options.feed == ['-']:
        made.error('a pipe is read to its end: --follow is for files')
    for name, kind in OF_ONE_KIND.items():
        if getattr(options, name) and options.kind != kind:
            made.error(f'--{name.replace("_", "-")} is for {kind}')
    if options.kind == 'kafka' and options.history:
        made.error('--history is for sqlite and postgres: a topic is one')
    if options.kind == 'kafka' and options.rebuild:
        made.error('--rebuild is for sqlite and postgres')
    if options.kind == 'kafka' and not options.name:
        made.error('--name NAME is needed, a transactional.id that no other program has')
    options.name = options.name or 'mrep'
    if not options.name.isprintable() or len(options.name) > 200:
        made.error('--name is no name: 1 to 200 characters that can be printed')
    return options
