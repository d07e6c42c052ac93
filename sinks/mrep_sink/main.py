"""The command, and how it ends."""

import gc
import signal
from typing import Dict, List, Tuple

from .description import Table, chosen
from .faults import Fault
from .options import Options, parse
from .report import Report
from .sink import Committer, Sink

Tables = Dict[Tuple[str, str], Table]


def sink_of(options: Options, described: Tables, wanted: Tables, report: Report) -> Sink:
    """The sink that the words name."""
    if options.kind == 'postgres':
        from .postgres import PostgresSink
        return PostgresSink(described, wanted, options, report)
    if options.kind == 'kafka':
        from .kafka import KafkaSink
        return KafkaSink(described, wanted, options, report)
    from .sqlite import SqliteSink
    return SqliteSink(described, wanted, options)


def main(words: List[str]) -> int:
    signal.signal(signal.SIGINT, signal.SIG_DFL)
    # What is made of lines has no cycles, and looking for them took a fifth of the time.
    gc.set_threshold(100_000)
    report = Report('')
    try:
        options = parse(words)
        report = Report(options.name, options.status, options.progress)
        described, wanted = chosen(options.columns, options.only)
        Committer(sink_of(options, described, wanted, report), options, report).run()
        report.end = 'end of the feed'
        return 0
    except Fault as fault:
        report.end = str(fault)
        report.say(report.end)
        return fault.status
    finally:
        report.tick(is_end=True)
