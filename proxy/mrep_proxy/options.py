"""The command line, option files and password files."""

import argparse
import ipaddress
import os
import sys
from typing import Dict, List, NoReturn, Optional, Tuple

from .faults import RETRY, USAGE, Fault
from .report import cannot

MODES = ('DISABLED', 'REQUIRED', 'VERIFY_CA', 'VERIFY_IDENTITY')
SECTIONS = ('client', 'mrep')
# Of an option file, those of the `mysql` client that are taken over.
FROM_FILE = ('host', 'port', 'user', 'password', 'socket', 'ssl-mode', 'ssl-ca', 'ssl-cert', 'ssl-key', 'connect-timeout')
LONGEST_PASSWORD = 65_536

USAGE_TEXT = """mrep-proxy [OPTION].. -- replay --db F [ARGUMENT OF MREP].. -
       mrep-proxy [OPTION].. --listen ADDRESS:PORT --local-user U --local-password-file W
       mrep-proxy files [OPTION].. FILE.. [-- replay --db F [ARGUMENT OF MREP].. -]"""
ABOUT = """Makes any MySQL server a source that `mrep` can follow: TLS and caching_sha2_password, checksums, compressed
transactions, savepoints, and statements of other tables."""
EXAMPLES = """Examples:
  mrep-proxy --host db1 --user repl --password-file repl.pw --ssl-ca ca.pem --server-id 7 -- replay --db rows.db --only shop.items -
  mrep-proxy --host db1 --user repl --password-file repl.pw --ssl-ca ca.pem --listen 127.0.0.1:3310 --local-user repl --local-password-file local.pw
  mrep-proxy files binlog.000017 binlog.000018 -- replay --db rows.db -

Exit status:
  0  all was done
  1  something stays as it is until somebody acts: a refused login, a wrong checksum, another server, what mrep does not take
  2  a mistake in the words
  3  the network or a file failed: it may be tried again"""


class Options(argparse.Namespace):
    """What the words say; bytes for what the source gets."""

    host: str
    port: int
    user: bytes
    password: bytes
    socket: Optional[str]
    ssl_mode: str
    ssl_ca: Optional[str]
    ssl_cert: Optional[str]
    ssl_key: Optional[str]
    connect_timeout: float
    insecure: bool
    server_id: Optional[int]
    idle_timeout: float
    max_window: int
    once: bool
    restart: bool
    skip_ddl: bool
    new_source: bool
    status: Optional[str]
    mrep: Optional[str]
    listen: Optional[Tuple[str, int]]
    local_user: bytes
    local_password: bytes
    local_password_file: Optional[str]
    password_file: Optional[str]
    defaults_file: Optional[str]
    db: Optional[str]
    have: Optional[str]
    follow: bool
    files: List[str]
    words: List[str]


class Help(argparse.RawDescriptionHelpFormatter):
    """A help whose options stand on a line of their own."""

    def __init__(self, prog: str) -> None:
        super().__init__(prog, max_help_position=34)


class Parser(argparse.ArgumentParser):
    """Mistakes in one line, with status 2."""

    def error(self, message: str) -> NoReturn:
        raise Fault(f'{message}; --help says what there is', USAGE)


def parser() -> Parser:
    """All options. Those of one form alone say so."""
    made = Parser('mrep-proxy', USAGE_TEXT, ABOUT, EXAMPLES, formatter_class=Help, allow_abbrev=False)
    add = made.add_argument
    add('--host', metavar='H', help='the source: a name or an address')
    add('--port', metavar='P', type=int, help='its port (3306)')
    add('--user', metavar='U', help='the account, which has REPLICATION SLAVE')
    add('--password-file', metavar='W', help='the file with the password; one line feed at its end is ignored')
    add('--socket', metavar='S', help='a Unix socket instead of host and port')
    add('--ssl-mode', metavar='MODE', choices=MODES, help='TLS: VERIFY_IDENTITY (without the option), VERIFY_CA, which takes any name, REQUIRED, which takes any certificate, DISABLED')
    add('--ssl-ca', metavar='FILE', help='certificates of authorities, instead of those of the system')
    add('--ssl-cert', metavar='FILE', help='a certificate of the account')
    add('--ssl-key', metavar='FILE', help='its key')
    add('--connect-timeout', metavar='SECONDS', type=float, help='for connecting and the login (10)')
    add('--defaults-file', metavar='FILE', help='an option file of the mysql client: its sections [client] and [mrep]')
    add('--insecure', action='store_true', help='allows a password inside TLS without verified certificate, and its hash without TLS')
    add('--server-id', metavar='I', type=int, help='the server id of the replica, from 1 to 4294967295; with --listen that of mrep, if it is left out')
    add('--once', action='store_true', help='ends at the end of the log (first form)')
    add('--restart', action='store_true', help='starts again after a lost connection, after 1, 2, 4 .. 60 s (first form)')
    add('--skip-ddl', action='store_true', help='skips statements that change no row of the tables for which the database was made')
    add('--new-source', action='store_true', help='takes another server than last time')
    add('--idle-timeout', metavar='SECONDS', type=float, default=60.0, help='ends a connection on which nothing comes for so long (60); 0 for never')
    add('--max-window', metavar='BYTES', type=int, default=1 << 27, help='the memory for one compressed transaction (134217728)')
    add('--status', metavar='FILE', help='writes counts for Prometheus to a file')
    add('--mrep', metavar='PROGRAM', help='the program mrep, instead of the one beside this, or on the path')
    add('--listen', metavar='ADDRESS:PORT', help='waits for mrep follow on a loopback address')
    add('--local-user', metavar='U', help='the user that mrep has to name (with --listen)')
    add('--local-password-file', metavar='W', help='the file with its password (with --listen)')
    add('--db', metavar='F', help='the database of mrep, for its tables and its set (files, --listen)')
    add('--have', metavar='SET', help='the executed set, instead of that of --db (files)')
    add('--follow', action='store_true', help='reads on as the last file grows, and goes on to the next (files)')
    return made


def parse(words: List[str]) -> Options:
    """What the words of a command say."""
    mine, given = (words[:words.index('--')], words[words.index('--') + 1:]) if '--' in words else (words, [])
    made, of_files = parser(), mine[:1] == ['files']
    if of_files:
        made.add_argument('files', metavar='FILE', nargs='+')
        mine = mine[1:]
    options = made.parse_args(mine, Options(files=[], words=given))
    fill(options)
    if given and (given[0] != 'replay' or given[-1] != '-' or not option_of(given, '--db')):
        made.error('after -- stand the words of mrep: replay --db F .. -')
    if not of_files:
        if bool(given) == bool(options.listen):
            made.error('either --listen or -- replay .. is needed')
        if not options.host and not options.socket or not options.user:
            made.error('--host or --socket, and --user, are needed')
        if options.server_id is None and given:
            made.error('--server-id is needed')
    elif options.listen or options.host or options.socket or options.skip_ddl and not options.db and not given:
        made.error('files takes no source, and --skip-ddl needs --db')
    if options.server_id is not None and not 1 <= options.server_id <= 0xFFFFFFFF:
        made.error('--server-id is not from 1 to 4294967295')
    if not 1 << 10 <= options.max_window < 1 << 32:
        made.error('--max-window is not from 1024 to 4294967295')
    if options.listen:
        if not options.local_user or not options.local_password_file or options.skip_ddl and not options.db:
            made.error('--listen needs --local-user and --local-password-file, and for --skip-ddl also --db')
        options.listen = loopback(str(options.listen))
    return options


def fill(options: Options) -> None:
    """Puts what an option file has, and what is usual, where nothing was given; reads passwords."""
    file = option_file(options.defaults_file) if options.defaults_file else {}
    for name in FROM_FILE:
        field = name.replace('-', '_')
        if name in file and getattr(options, field, None) is None:
            setattr(options, field, file[name])
    if options.ssl_mode is not None and options.ssl_mode.upper() not in MODES:
        raise Fault(f'--ssl-mode {options.ssl_mode} is none of {", ".join(MODES)}', USAGE)
    options.ssl_mode = (options.ssl_mode or MODES[-1]).upper()
    try:
        options.port, options.connect_timeout = int(options.port or 3306), float(options.connect_timeout or 10)
    except ValueError as error:
        raise Fault(f'{options.defaults_file}: port or connect-timeout is no number', USAGE) from error
    options.user, options.local_user = os.fsencode(options.user or ''), os.fsencode(options.local_user or '')
    given = os.fsencode(getattr(options, 'password', None) or '')
    options.password = password_of(options.password_file) if options.password_file else given
    options.local_password = password_of(options.local_password_file) if options.local_password_file else b''


def option_file(path: str) -> Dict[str, str]:
    """The settings of the sections, of which the later one counts."""
    found: Dict[str, str] = {}
    section = ''
    try:
        with open(path, encoding='utf-8', errors='surrogateescape') as file:
            lines = [line.strip() for line in file]
    except OSError as error:
        raise cannot(path, error) from error
    for line in lines:
        if line.startswith('['):
            section = line.strip('[]').strip()
        elif line and line[0] not in '#;!' and section in SECTIONS:
            name, _, value = (part.strip() for part in line.partition('='))
            if len(value) > 1 and value[0] == value[-1] and value[0] in '\'"':
                value = value[1:-1]
            found[name.replace('_', '-')] = value
    return found


def password_of(path: str) -> bytes:
    """The bytes of a password file without one final line feed."""
    try:
        if os.stat(path).st_mode & 0o077:
            print(f'mrep-proxy: {path}: others may read the password', file=sys.stderr)
        with open(path, 'rb') as file:
            password = file.read(LONGEST_PASSWORD + 1)
    except OSError as error:
        raise cannot(path, error) from error
    if len(password) > LONGEST_PASSWORD or b'\0' in password:
        raise Fault(f'{path}: it is no password: it has a NUL, or more than {LONGEST_PASSWORD} bytes', RETRY)
    return password[:-1] if password.endswith(b'\n') else password


def loopback(word: str) -> Tuple[str, int]:
    """An address of this machine alone, and a port."""
    address, _, port = word.rpartition(':')
    address = address.strip('[]')
    try:
        if ipaddress.ip_address(address).is_loopback and 0 <= int(port) < 65_536:
            return address, int(port)
    except ValueError:
        pass
    raise Fault(f'--listen {word}: it is no loopback address with a port, as 127.0.0.1:3310', USAGE)


def option_of(words: List[str], name: str) -> Optional[str]:
    """The value of an option among the words of `mrep`."""
    values = options_of(words, name)
    return values[-1] if values else None


def options_of(words: List[str], name: str) -> List[str]:
    """All values of an option among the words of `mrep`."""
    found = [after for word, after in zip(words, words[1:]) if word == name]
    return found + [word[len(name) + 1:] for word in words if word.startswith(name + '=')]
