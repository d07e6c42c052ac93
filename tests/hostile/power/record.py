"""Records what commands do to the files of one folder: the log of strace, read as operations on inodes and names. The names are
relative to the folder, which has no folders but those that were there first."""

import os
import re
import shutil
import subprocess
from typing import Dict, List, NamedTuple, Optional, Tuple, Union

from mrep import Wrong, content, write

# The calls that are read, besides those that change nothing; what another one did to a file is found at the end.
CALLS = ('open', 'openat', 'close', 'dup', 'dup2', 'dup3', 'fcntl', 'lseek', 'read', 'readv', 'write', 'writev', 'pwrite64',
         'ftruncate', 'fsync', 'fdatasync', 'rename', 'renameat', 'renameat2', 'link', 'linkat', 'unlink', 'unlinkat', 'socket')
LINE = re.compile(rb'\d+ +(\w+)\((.*)\) += (-?\d+|\?)[^=]*', re.S)
TEXT = re.compile(rb'"((?:\\x[0-9a-f]{2})*)"')
PRINTED = 1


class Write(NamedTuple):
    """Bytes are written to a file from a place on."""
    ino: int
    at: int
    data: bytes


class Cut(NamedTuple):
    """A file gets this length."""
    ino: int
    size: int


class Named(NamedTuple):
    """A name comes to be: of a new file, or a second one of a file."""
    name: str
    ino: int


class Removed(NamedTuple):
    name: str


class Renamed(NamedTuple):
    name: str
    to: str


class Synced(NamedTuple):
    """A file is synced: with its length, and by `fsync` with its names on a file system that has one journal."""
    ino: int
    by: str


class SyncedFolder(NamedTuple):
    name: str


class Said(NamedTuple):
    """What is written to standard output."""
    data: bytes


class Ended(NamedTuple):
    """A command has ended."""
    status: int


Data = Union[Write, Cut]
Naming = Union[Named, Removed, Renamed]
NAMING = (Named, Removed, Renamed)
Op = Union[Data, Naming, Synced, SyncedFolder, Said, Ended]


def missing(folder: str) -> Optional[str]:
    """Why nothing can be recorded, or None."""
    if not shutil.which('strace'):
        return 'there is no strace'
    words = ['strace', '-o', os.path.join(folder, 'tried'), 'true']
    tried = subprocess.run(words, stdout=subprocess.PIPE, stderr=subprocess.PIPE, check=False)
    return 'strace may not look at a process here' if tried.returncode else None


def put(data: bytearray, at: int, piece: bytes) -> None:
    if len(data) < at:
        data.extend(bytes(at - len(data)))
    data[at:at + len(piece)] = piece


def cut(data: bytearray, size: int) -> None:
    del data[size:]
    data.extend(bytes(size - len(data)))


def change(names: Dict[str, int], op: Op) -> None:
    """Makes a change of names; what cannot be, since one before it is lost, is none."""
    if isinstance(op, Named):
        names[op.name] = op.ino
    elif isinstance(op, Removed):
        names.pop(op.name, None)
    elif isinstance(op, Renamed) and op.name in names:
        names[op.to] = names.pop(op.name)


class Open:
    """An open file."""

    def __init__(self, ino: int, appends: bool) -> None:
        self.ino, self.appends, self.at = ino, appends, 0


# What a descriptor is: a file or a folder of those that are looked at, standard output, or something else.
Handle = Union[Open, SyncedFolder, str, None]


class Recording:
    """What was there in a folder, and what commands, one after another, have done to it."""

    def __init__(self, folder: str) -> None:
        self.folder, self.ops = os.path.realpath(folder), []  # type: str, List[Op]
        # Of each operation the call that made it, and which of its name it was in its command.
        self.calls: List[Tuple[str, int]] = []
        self.folders = {'.', *(os.path.relpath(it.path, folder) for it in os.scandir(folder) if it.is_dir())}
        self.names: Dict[str, int] = {}
        self.data: Dict[int, bytearray] = {}
        for name, data in self.found().items():
            self.names[name] = len(self.names)
            self.data[self.names[name]] = bytearray(data)
        self.first = {name: (ino, bytes(self.data[ino])) for name, ino in self.names.items()}
        self.handles: Dict[int, Handle] = {}
        self.counts: Dict[str, int] = {}

    def found(self) -> Dict[str, bytes]:
        """The files of the folder, as they are."""
        paths = [it.path for name in self.folders for it in os.scandir(os.path.join(self.folder, name)) if it.is_file()]
        return {os.path.relpath(path, self.folder): content(path) for path in sorted(paths)}

    def run(self, words: List[str], data: bytes = b'', killed_at: Optional[Tuple[str, int]] = None) -> int:
        """Runs a command that reads this data, killed at a call or not. Answers its status."""
        log, given = f'{self.folder}.log', f'{self.folder}.input'
        options = ['-e', 'signal=none', '-e', f'trace={",".join(CALLS)}']
        if killed_at:
            options += ['-e', f'inject={killed_at[0]}:signal=KILL:when={killed_at[1]}']
        with open(write(given, data), 'rb') as reads:
            tracer, pipe = ['strace', '-f', '-xx', '-s', '100000000', '-o', log, *options], subprocess.PIPE
            ran = subprocess.run([*tracer, *words], cwd=self.folder, stdin=reads, stdout=pipe, stderr=pipe, check=False)
        self.handles, self.counts = {0: None, 1: 'printed', 2: None}, {}
        for line in content(log).split(b'\n'):
            self.line(line)
        self.add(('', 0), Ended(ran.returncode))
        if {name: bytes(self.data[ino]) for name, ino in self.names.items()} != self.found():
            raise Wrong(f'{words}: other files than its calls make: {ran.stderr.decode()}')
        if not killed_at and ran.returncode:
            raise Wrong(f'{words} ends with {ran.returncode}: {ran.stderr.decode()}')
        return ran.returncode

    def line(self, line: bytes) -> None:
        match = LINE.fullmatch(line)
        if match:
            name = match[1].decode()
            self.counts[name] = self.counts.get(name, 0) + 1
            if not match[3].startswith((b'-', b'?')):
                texts = [bytes.fromhex(text.replace(b'\\x', b'').decode()) for text in TEXT.findall(match[2])]
                self.call(name, TEXT.sub(b'"', match[2]).split(b', '), texts, int(match[3]))
        elif line and not re.match(rb'\d+ +(---|\+\+\+|exit)', line):
            raise Wrong(f'a line of strace: {line[:200].decode()}')

    def add(self, call: Tuple[str, int], op: Op) -> None:
        self.ops.append(op)
        self.calls.append(call)
        change(self.names, op)
        if isinstance(op, Named) and op.ino not in self.data:
            self.data[op.ino] = bytearray()
        elif isinstance(op, Write):
            put(self.data[op.ino], op.at, op.data)
        elif isinstance(op, Cut):
            cut(self.data[op.ino], op.size)

    def short(self, path: bytes) -> Optional[str]:
        """A path as a name in the folder, if it is one."""
        name = os.path.relpath(os.path.join(self.folder, path.decode()), self.folder)
        return None if name.startswith('..') else name

    def call(self, name: str, words: List[bytes], texts: List[bytes], answer: int) -> None:
        which, handles = (name, self.counts[name]), self.handles
        file = handles.get(int(words[0])) if words[0].isdigit() else None
        if name in ('open', 'openat'):
            self.opened(which, self.short(texts[0]), words[-1 if b'O_' in words[-1] else -2], answer)
        elif name == 'close':
            handles.pop(int(words[0]), None)
        elif name in ('dup', 'dup2', 'dup3') or name == 'fcntl' and b'F_DUPFD' in words[1]:
            handles[answer] = file
        elif name == 'socket':
            handles[answer] = None
        elif name == 'lseek' and isinstance(file, Open):
            file.at = answer
        elif name in ('read', 'readv') and isinstance(file, Open):
            file.at += answer
        elif name in ('write', 'writev', 'pwrite64'):
            self.wrote(which, file, b''.join(texts)[:answer], int(words[-1]) if name == 'pwrite64' else None)
        elif name == 'ftruncate' and isinstance(file, Open):
            self.add(which, Cut(file.ino, int(words[1])))
        elif name in ('fsync', 'fdatasync'):
            if isinstance(file, Open):
                self.add(which, Synced(file.ino, name))
            elif isinstance(file, SyncedFolder):
                self.add(which, file)
        elif name.startswith(('rename', 'link', 'unlink')):
            self.named(which, name, [self.short(text) for text in texts])

    def opened(self, which: Tuple[str, int], name: Optional[str], how: bytes, number: int) -> None:
        if name is None:
            self.handles[number] = None
        elif name in self.folders:
            self.handles[number] = SyncedFolder(name)
        else:
            if name not in self.names:
                self.add(which, Named(name, len(self.data)))
            elif b'O_TRUNC' in how:
                self.add(which, Cut(self.names[name], 0))
            self.handles[number] = Open(self.names[name], b'O_APPEND' in how)

    def wrote(self, which: Tuple[str, int], file: Handle, data: bytes, at: Optional[int]) -> None:
        if isinstance(file, Open):
            begin = at if at is not None else len(self.data[file.ino]) if file.appends else file.at
            self.add(which, Write(file.ino, begin, data))
            file.at = begin + len(data) if at is None else file.at
        elif file == 'printed':
            self.add(which, Said(data))

    def named(self, which: Tuple[str, int], call: str, names: List[Optional[str]]) -> None:
        if names[0] is None:
            return
        if call.startswith('unlink'):
            self.add(which, Removed(names[0]))
        elif names[1] is None:
            raise Wrong(f'{call}: a name out of the folder')
        elif call.startswith('link'):
            self.add(which, Named(names[1], self.names[names[0]]))
        else:
            self.add(which, Renamed(names[0], names[1]))
