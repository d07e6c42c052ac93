"""The three forms of the command, and how each ends."""

import os
import select
import signal
import socket
import subprocess
import sys
import time
from typing import Callable, List, Optional, Tuple

from .database import check_source, named, read
from .events import Middle
from .faults import ACT, RETRY, USAGE, Fault, Gone, Lost, SourceError
from .listen import OK, UNKNOWN, Client, greeting, refusal
from .logfiles import LogFiles
from .options import Options, option_of, options_of, parse
from .report import Report
from .sets import GtidSet, printed
from .sets import parse as parse_set
from .source import Connection, Wait
from .statements import Rules, Tables
from .wire import Output, packet

# What `mrep replay` takes before the first event: greeting, and the OK of the login and of the query.
SCRAMBLE = b'mrep-proxy-mrep-prox'
LOGGED_IN = packet(0, greeting(SCRAMBLE)) + packet(2, OK) + packet(1, OK)
LONGEST_WAIT = 60
# The size of the pipe to `mrep`, and the command of Linux that sets it.
PIPE_SIZE, F_SETPIPE_SZ = 1 << 20, 1031


class Child:
    """A run of `mrep replay`, which reads a pipe. Signals are handed on to it, and its end by one is that of this program."""

    present: Optional['subprocess.Popen[bytes]'] = None

    def __init__(self, options: Options) -> None:
        here = os.path.dirname(os.path.realpath(sys.argv[0]))
        beside = [it for it in (f'{here}/mrep', f'{here}/../bin/mrep') if os.access(it, os.X_OK)]
        program = options.mrep or (beside + ['mrep'])[0]
        try:
            self.process = subprocess.Popen([program, *options.words], stdin=subprocess.PIPE)
        except OSError as error:
            raise Fault(f'{program}: {error.strerror}; --mrep names the program', USAGE) from error
        assert self.process.stdin
        self.descriptor = self.process.stdin.fileno()
        Child.present = self.process

    def end(self) -> int:
        """Ends the stream, and waits for the status of `mrep`. If a signal has ended it, it ends this program too."""
        if self.process.stdin:
            self.process.stdin.close()
        status = self.process.wait()
        Child.present = None
        if status < 0:
            die_by(-status)
        return status


def send_to(descriptor: int, data: bytearray) -> None:
    """Writes all to a pipe."""
    with memoryview(data) as view:
        at = 0
        try:
            while at < len(view):
                at += os.write(descriptor, view[at:])
        except BrokenPipeError as error:
            raise Gone from error
        except OSError as error:
            raise Fault(f'cannot write: {error.strerror}', RETRY) from error


def die_by(number: int) -> None:
    """Ends this program by a signal."""
    if number != signal.SIGKILL:
        signal.signal(number, signal.SIG_DFL)
    os.kill(os.getpid(), number)


def on_signal(number: int, _frame: object) -> None:
    """Hands a signal on to `mrep`, whose end ends this program; without one it ends at once."""
    if Child.present and Child.present.poll() is None:
        Child.present.send_signal(number)
    else:
        die_by(number)


def is_unread(descriptor: int) -> bool:
    """Whether nobody reads this pipe any more."""
    poll = select.poll()
    poll.register(descriptor, 0)
    return bool(poll.poll(0))


def gone() -> None:
    raise Gone


def run_to_end(run: Callable[[], None], output: Output) -> Optional[Fault]:
    """Runs, and sends what was collected. A fault that stays is reported to `mrep` as an ERR, where no event has begun."""
    try:
        run()
        output.flush()
        return None
    except Fault as fault:
        if isinstance(fault, SourceError):
            output.payload(fault.payload)
        elif fault.status == ACT and output.is_between():
            output.payload(refusal(UNKNOWN, f'mrep-proxy: {fault}'))
        output.flush()
        return fault


def rules_of(options: Options, tables: Tables, path: Optional[str]) -> Optional[Rules]:
    if not options.skip_ddl:
        return None
    if not tables:
        raise Fault(f'{path}: --skip-ddl needs a database that was made for some tables, by --only', USAGE)
    return Rules(tables)


def connected(options: Options, path: Optional[str], held: GtidSet, report: Report) -> Connection:
    """The source, asked for what the dump needs."""
    connection = Connection(options)
    try:
        check_source(connection, path or '', held, options.new_source, report)
        connection.prepare(options.idle_timeout)
        report.connected = True
        return connection
    except BaseException:
        connection.socket.close()
        raise


def dump(connection: Connection, middle: Middle, wait: Wait, server_id: int, held: GtidSet, once: bool) -> Optional[Fault]:
    """Asks for a dump, and passes it on to its end."""
    connection.dump(server_id, held, once)
    connection.packets.source.receive, connection.packets.sequence = wait.receive, 1
    middle.output.sequence = 1
    return run_to_end(lambda: middle.packets(connection.packets), middle.output)


def reported(send: Callable[[bytearray], None], report: Report) -> Callable[[bytearray], None]:
    """Sends, and keeps the status up to date."""
    def act(data: bytearray) -> None:
        send(data)
        report.tick()
    return act


def flushed(output: Output, report: Report) -> Callable[[], None]:
    """Sends what was collected, and keeps the status up to date."""
    def act() -> None:
        output.flush()
        report.tick()
    return act


# The first form

def follow(options: Options, report: Report) -> Tuple[int, bool]:
    """Follows the source to the end of one connection: the exit status, and whether to begin anew may help."""
    path = option_of(options.words, '--db') or ''
    held, tables, is_there = read(path)
    rules = rules_of(options, tables if is_there else named(options_of(options.words, '--only')), path)
    try:
        connection = connected(options, path, held, report)
    except SourceError as error:
        report.say(str(error))
        child = Child(options)
        try:
            send_to(child.descriptor, bytearray(packet(0, greeting(SCRAMBLE)) + packet(2, error.payload)))
        except Gone:
            pass
        return child.end() or ACT, False
    child = Child(options)
    enlarge(child.descriptor)
    output = Output(reported(lambda data: send_to(child.descriptor, data), report))
    output.buffer += LOGGED_IN
    middle = Middle(output, report, rules, options.max_window)
    wait = Wait(connection.socket, options.idle_timeout, flushed(output, report))
    wait.watch(child.descriptor, 0, gone)
    try:
        fault = dump(connection, middle, wait, options.server_id or 0, held, options.once)
    except Gone:
        fault, is_gone = None, True
    else:
        is_gone = False
    connection.socket.close()
    if fault:
        report.say(str(fault))
    report.ended(str(fault or ('mrep has ended' if is_gone else 'end of the log')))
    ended = child.end()
    if ended == ACT and middle.passed and path:
        report_ways(middle.passed, path, report)
    status = ended or (fault.status if fault else 0)
    is_done = status == 0 and (is_gone or options.once)
    return status, status not in (ACT, USAGE) and not is_done


def report_ways(gtid: bytes, path: str, report: Report) -> None:
    """Reports what can be done about a statement at which `mrep` has ended, where the database can be read."""
    try:
        report.ways(gtid, path, printed(read(path)[0]))
    except Fault:
        pass


def enlarge(descriptor: int) -> None:
    """A larger pipe, where the system gives one."""
    try:
        import fcntl
        fcntl.fcntl(descriptor, F_SETPIPE_SZ, PIPE_SIZE)
    except OSError:
        pass


def follow_again(options: Options, report: Report) -> int:
    """Follows the source, with --restart again and again."""
    seconds = 1
    while True:
        before = report.transactions
        try:
            status, again = follow(options, report)
        except Fault as fault:
            report.say(str(fault))
            report.ended(str(fault))
            status, again = fault.status, fault.status == RETRY
        if not options.restart or not again:
            return status
        seconds = 1 if report.transactions > before else seconds
        report.say(f'starts again in {seconds} s')
        time.sleep(seconds)
        seconds, report.restarts = min(2 * seconds, LONGEST_WAIT), report.restarts + 1


# The form with --listen

def serve(options: Options, report: Report) -> int:
    """Serves one `mrep follow` after the other."""
    assert options.listen
    rules = rules_of(options, read(options.db)[1] if options.db else [], options.db)
    try:
        family = socket.AF_INET6 if ':' in options.listen[0] else socket.AF_INET
        listener = socket.create_server(options.listen, family=family)
    except OSError as error:
        raise Fault(f'cannot listen: {error.strerror}', RETRY) from error
    report.say(f'listens on {options.listen[0]} port {listener.getsockname()[1]}')
    report.write()
    while True:
        accepted, _ = listener.accept()
        with accepted:
            try:
                fault = session(Client(accepted, options), listener, options, report, rules)
                end = str(fault or 'end of the log')
            except (Gone, Fault, OSError) as why:
                end = str(why) or 'mrep has ended'
            report.say(end)
            report.ended(end)


def session(client: Client, listener: socket.socket, options: Options, report: Report, rules: Optional[Rules]) -> Optional[Fault]:
    """Serves one client to its end, or to that of the source."""
    client.log_in()
    server_id, once, held = client.command()
    output = Output(reported(client.send, report))
    output.sequence = 1
    connections: List[Connection] = []
    fault = run_to_end(lambda: connections.append(connected(options, options.db, held, report)), output)
    if fault:
        return fault
    connection = connections[0]
    with connection.socket:
        wait = Wait(connection.socket, options.idle_timeout, flushed(output, report))
        wait.watch(client.socket.fileno(), select.POLLIN | select.POLLRDHUP, gone)
        wait.watch(listener.fileno(), select.POLLIN, lambda: turn_away(listener))
        return dump(connection, Middle(output, report, rules, options.max_window), wait, options.server_id or server_id, held, once)


def turn_away(listener: socket.socket) -> None:
    """Closes a second connection, before a greeting."""
    try:
        listener.accept()[0].close()
    except OSError:
        pass


# The form `files`

def read_files(options: Options, report: Report) -> int:
    """Reads log files into `mrep replay`, or to standard output."""
    path = option_of(options.words, '--db') or options.db
    held, tables, is_there = read(path) if path else ({}, [], False)
    tables = tables if is_there else named(options_of(options.words, '--only'))
    rules = rules_of(options, tables, path)
    held = parse_set(options.have) if options.have is not None else held
    if not options.words and os.isatty(1):
        raise Fault('standard output is a terminal: a pipe to mrep replay is meant, or -- replay ..', USAGE)
    child = Child(options) if options.words else None
    descriptor = child.descriptor if child else 1
    output = Output(reported(lambda data: send_to(descriptor, data), report))
    output.buffer += LOGGED_IN
    output.sequence = 1
    flush = flushed(output, report)

    def rest() -> None:
        flush()
        if is_unread(descriptor):
            raise Gone

    logs = LogFiles(options.files, options.follow, held, rest)
    middle = Middle(output, report, rules, options.max_window, logs.on_set)
    fault = None
    try:
        fault = run_to_end(lambda: logs.run(middle), output)
    except Gone:
        report.ended('mrep has ended')
        return child.end() if child else RETRY
    if fault:
        report.say(str(fault))
    report.ended(str(fault or 'end of the files'))
    status = child.end() if child else 0
    return status or (fault.status if fault else 0)


def main(words: List[str]) -> int:
    for number in (signal.SIGINT, signal.SIGTERM, signal.SIGHUP):
        signal.signal(number, on_signal)
    try:
        options = parse(words)
        report = Report(options.host or options.socket or '', options.status)
        if options.files:
            return read_files(options, report)
        return serve(options, report) if options.listen else follow_again(options, report)
    except Fault as fault:
        print(f'mrep-proxy: {fault}', file=sys.stderr)
        return fault.status
