"""The rows of a file that `mrep export --place` has made, for a sink that begins with them or takes tables anew (`--rebuild`)."""

import os
import sqlite3
from typing import Any, Dict, Iterator, Tuple

from .description import Table
from .faults import RETRY, Fault
from .feed import print_set, read_set
from .sqlite import PLACE, SqliteTable, quoted, tables_of


class Exported:
    """A file of an export: the tables of a sink that it has, as they are described, and the set of its rows."""

    def __init__(self, path: str, wanted: Dict[Tuple[str, str], Table]) -> None:
        self.path = path
        self.names: Dict[Tuple[str, str], str] = {}
        if not os.path.exists(path):
            raise Fault(f'{path}: there is no such file', RETRY)
        try:
            self.base = sqlite3.connect(path)
            tables = tables_of(self.base)
            if tables.pop('mrep_place', '') != PLACE or 'mrep_sink' in tables:
                raise Fault(f'{path}: it is no file that `mrep export --place` has made')
            self.executed = print_set(read_set(self.base.execute('SELECT executed FROM mrep_place').fetchone()[0]))
        except sqlite3.Error as error:
            raise Fault(f'{path}: {error}', RETRY) from error
        mine = {f'{schema}.{name}': (schema, name) for schema, name in wanted}
        for name, creation in tables.items():
            if name not in mine:
                raise Fault(f'{path}: it has the table {name}, which is not wanted: export the tables that are wanted, without '
                            f'--schema')
            if creation != SqliteTable(wanted[mine[name]]).creation:
                raise Fault(wanted[mine[name]].unfit(f'{path} has it with other columns'))
            self.names[mine[name]] = name

    def rows(self, place: Tuple[str, str]) -> Iterator[Tuple[Any, ...]]:
        """The rows of a table, as SQLite has them."""
        return self.base.execute(f'SELECT * FROM {quoted(self.names[place])}')

    def check(self, executed: str) -> None:
        """The rows have to be those after the transactions that the sink has."""
        if self.executed != print_set(read_set(executed)):
            raise Fault(f'{self.path}: it has the transactions {self.executed}, and the sink {executed}: export the tables while '
                        f'`mrep` stands and the sink has read the feed to its end')
