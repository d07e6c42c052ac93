"""What the proxy says: lines on standard error, and counts in a status file for Prometheus."""

import os
import shlex
import sys
import time
from typing import Optional
from uuid import UUID

from .faults import RETRY, USAGE, Fault, printable_statement

FIRST = '# HELP mrep_proxy_connected '


def printed_gtid(gtid: bytes) -> str:
    return f'{UUID(bytes=gtid[:16])}:{int.from_bytes(gtid[16:24], "little")}'


class Report:
    """Counts of this run, and where they are written."""

    def __init__(self, name: str, path: Optional[str] = None) -> None:
        # What lines begin with, as the host; the status file.
        self.name, self.path = name, path
        self.connected = False
        self.transactions = self.skipped = self.savepoints = self.unpacked = self.restarts = 0
        self.source = self.end = ''
        self.written = 0.0
        if path:
            self._test(path)

    @staticmethod
    def _test(path: str) -> None:
        """Nothing but a status, or an empty file, is replaced."""
        if os.path.lexists(path):
            if not os.path.isfile(path):
                raise Fault(f'{path}: it is no regular file', USAGE)
            with open(path, encoding='latin1') as file:
                if file.read(len(FIRST)) not in ('', FIRST):
                    raise Fault(f'{path}: it is no status of mrep-proxy', USAGE)

    def say(self, text: str) -> None:
        print(f'mrep-proxy: {self.name}: {text}' if self.name else f'mrep-proxy: {text}', file=sys.stderr, flush=True)

    def skip(self, gtid: bytes, statement: bytes) -> None:
        """Reports a statement that is skipped."""
        self.skipped += 1
        self.say(f'skipped {printed_gtid(gtid)}: {printable_statement(statement)}')

    def ways(self, gtid: bytes, path: str, executed: str) -> None:
        """Reports what can be done about a statement at which `mrep` has ended, and which may be of a followed table."""
        db, number = shlex.quote(path), printed_gtid(gtid)
        self.say(f'to leave it out, if it changes no followed table: mrep skip --db {db} {number}')
        self.say(f"if it alters or empties a followed table: mrep clear --db {db} --gtid {number} --at '{executed}' SCHEMA.TABLE, "
                 'and then mrep load where the table has rows')

    def ended(self, reason: str) -> None:
        """A connection has ended."""
        self.connected, self.end = False, reason
        self.write()

    def tick(self) -> None:
        """Writes the status, at most once a second."""
        if self.path and time.monotonic() - self.written >= 1:
            self.write()

    def write(self) -> None:
        """Replaces the status file, beside which the new one is made."""
        if not self.path:
            return
        self.written = time.monotonic()
        label = self.end.translate({ord('\\'): '\\\\', ord('"'): '\\"', ord('\n'): '\\n'})
        rows = [
            ('connected', 'gauge', 'Whether the source is connected', '', int(self.connected)),
            ('transactions_total', 'counter', 'Transactions passed on', '', self.transactions),
            ('skipped_total', 'counter', 'Statements skipped', '', self.skipped),
            ('savepoints_total', 'counter', 'Savepoints left out', '', self.savepoints),
            ('unpacked_total', 'counter', 'Compressed transactions unpacked', '', self.unpacked),
            ('restarts_total', 'counter', 'Starts after the first one', '', self.restarts),
            ('info', 'gauge', 'The server of the source, and why the last connection ended',
             f'{{source="{self.source}",end="{label}"}}', 1),
        ]
        text = ''.join(f'# HELP mrep_proxy_{name} {help_text}\n# TYPE mrep_proxy_{name} {kind}\nmrep_proxy_{name}{labels} {value}\n'
                       for name, kind, help_text, labels, value in rows)
        try:
            with open(self.path + '.new', 'w', encoding='utf-8') as file:
                file.write(text)
            os.replace(self.path + '.new', self.path)
        except OSError as error:
            self.say(f'{self.path}: {error.strerror}: the status is not written')
            self.path = None


def cannot(path: str, error: OSError) -> Fault:
    """A file that cannot be read or written."""
    return Fault(f'{path}: {error.strerror}', RETRY)
