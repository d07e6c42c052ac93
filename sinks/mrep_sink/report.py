"""What the program says: lines on standard error, and counts in a status file for Prometheus."""

import os
import sys
import time
from typing import Optional

from .faults import USAGE, Fault

FIRST = '# HELP mrep_sink_transactions_total '


class Report:
    """Counts of this run, and where they are written."""

    def __init__(self, name: str, path: Optional[str] = None, progress: bool = False) -> None:
        self.name, self.path, self.progress = name, path, progress
        self.transactions = self.changes = self.commits = 0
        self.ts: Optional[int] = None
        self.executed = self.end = ''
        self.written = self.reported = time.monotonic()
        if path and os.path.lexists(path):
            if not os.path.isfile(path):
                raise Fault(f'{path}: it is no regular file', USAGE)
            with open(path, encoding='latin1') as file:
                if file.read(len(FIRST)) not in ('', FIRST):
                    raise Fault(f'{path}: it is no status of mrep-sink', USAGE)

    def say(self, text: str) -> None:
        print(f'mrep-sink: {text}', file=sys.stderr, flush=True)

    def committed(self, transactions: int, changes: int, ts: Optional[int], executed: str) -> None:
        """A commit of the sink has these."""
        self.commits += 1
        self.transactions += transactions
        self.changes += changes
        self.ts, self.executed = ts if ts is not None else self.ts, executed

    def tick(self, is_end: bool = False) -> None:
        """Writes the status and the progress, at most once a second and at the end."""
        now = time.monotonic()
        if self.progress and (now - self.reported >= 1 or is_end):
            self.reported = now
            self.say(f'{self.transactions} transactions, {self.changes} changes, {self.commits} commits')
        if self.path and (now - self.written >= 1 or is_end):
            self.written = now
            self.write()

    def write(self) -> None:
        """Replaces the status file, beside which the new one is made."""
        label = self.end.translate({ord('\\'): '\\\\', ord('"'): '\\"', ord('\n'): '\\n'})
        rows = [
            ('transactions_total', 'counter', 'Transactions used', '', self.transactions),
            ('changes_total', 'counter', 'Changes of rows', '', self.changes),
            ('commits_total', 'counter', 'Commits of the sink', '', self.commits),
            ('info', 'gauge', 'The name of the feed, and why the run ended', f'{{name="{self.name}",end="{label}"}}', 1),
        ]
        if self.ts is not None:
            rows.append(('last_change_seconds', 'gauge', 'When the statement of the last change began, since 1970', '', self.ts))
            rows.append(('lag_seconds', 'gauge', 'How long that was before this file was written', '',
                         max(0, int(time.time()) - self.ts)))
        text = ''.join(f'# HELP mrep_sink_{name} {about}\n# TYPE mrep_sink_{name} {kind}\nmrep_sink_{name}{labels} {value}\n'
                       for name, kind, about, labels, value in rows)
        try:
            with open(f'{self.path}.new', 'w', encoding='utf-8') as file:
                file.write(f'{text}# executed {self.executed}\n')
            os.replace(f'{self.path}.new', str(self.path))
        except OSError as error:
            self.say(f'{self.path}: {error.strerror}: the status is not written')
            self.path = None
