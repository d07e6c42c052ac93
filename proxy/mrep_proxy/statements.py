"""Which statements of the log change no row that is followed, and so may be skipped.

There is no parser here: the beginning of a text is compared with a list of forms, and where the names of a statement matter,
a name that is followed may stand nowhere in its bytes. Whatever is not recognized goes to `mrep`, which ends at it."""

import re
from typing import List, Optional, Tuple

Tables = List[Tuple[bytes, bytes]]

# Blanks and comments that are no more than that: not `/*!` and `/*+`, whose text counts.
# A comment ends at the first `*/`, so a text is read in one way alone; one with a byte above 0x7f is not read.
GAP = rb'(?:[ \t\n\v\f\r]|/\*(?!M?[!+])(?:[\x00-\x29\x2b-\x7f]|\*(?!/))*\*/|(?:#|--(?=[ \t\n\v\f\r]))[\x00-\x09\x0b-\x7f]*\n)'
# What MySQL writes of a temporary table.
TEMPORARY = rb'(?:(?:TEMPORARY|/\*!40005 TEMPORARY \*/)' + GAP + rb'+)?'
# An account or a word: `a`@`b`, 'a'@'b', CURRENT_USER.
ACCOUNT = rb"(?:`[^`]*`@`[^`]*`|'[^'\\]*'@'[^'\\]*'|\w+(?:\(\))?)"
CLAUSES = (rb'(?:OR' + GAP + rb'+REPLACE' + GAP + rb'+)?(?:ALGORITHM' + GAP + rb'*=' + GAP + rb'*\w+' + GAP + rb'+)?'
           rb'(?:DEFINER' + GAP + rb'*=' + GAP + rb'*' + ACCOUNT + GAP + rb'+)?(?:SQL' + GAP + rb'+SECURITY' + GAP + rb'+\w+' + GAP + rb'+)?')
LOCAL = rb'(?:(?:LOCAL|NO_WRITE_TO_BINLOG)' + GAP + rb'+)?'


def form(*words: bytes) -> 're.Pattern[bytes]':
    """Texts that begin with these words, after blanks and comments."""
    return re.compile(GAP + rb'*' + (GAP + rb'+').join(words) + rb'(?![\w$])', re.I)


# Statements on accounts, statistics and caches, which change no row whatever names they have.
HARMLESS = [
    form(rb'(?:GRANT|REVOKE)'),
    form(rb'(?:CREATE|ALTER|DROP|RENAME)', rb'(?:USER|ROLE)'),
    form(rb'SET', rb'PASSWORD'),
    form(rb'SET', rb'DEFAULT', rb'ROLE'),
    form(rb'ANALYZE', LOCAL + rb'TABLES?'),
    form(rb'FLUSH'),
]
# Statements on schemas, and those that rename, in which no followed schema may be named either.
OF_SCHEMAS = [
    form(rb'(?:CREATE|ALTER|DROP)', rb'(?:SCHEMA|DATABASE)'),
    form(rb'RENAME', rb'TABLES?'),
]
# Definitions of other things, and statements on whole tables.
OF_TABLES = [
    form(rb'CREATE', TEMPORARY + rb'TABLE'),
    form(rb'CREATE', rb'(?:(?:UNIQUE|FULLTEXT|SPATIAL)' + GAP + rb'+)?INDEX'),
    form(rb'CREATE', CLAUSES + rb'(?:AGGREGATE' + GAP + rb'+)?(?:VIEW|TRIGGER|PROCEDURE|FUNCTION|EVENT)'),
    form(rb'ALTER', CLAUSES + rb'(?:TABLE|VIEW|PROCEDURE|FUNCTION|EVENT)'),
    form(rb'DROP', TEMPORARY + rb'TABLES?'),
    form(rb'DROP', rb'(?:INDEX|VIEW|TRIGGER|PROCEDURE|FUNCTION|EVENT)'),
    form(rb'TRUNCATE'),
    form(rb'OPTIMIZE', LOCAL + rb'TABLES?'),
]
PLAIN_NAME = re.compile(rb'[0-9A-Za-z_$]+')
# A savepoint as a server writes it: the name in backticks, those inside it doubled.
SAVEPOINT = re.compile(rb'SAVEPOINT `(?:[^`]|``)+`')


class Rules:
    """Which statements are skipped where these tables are followed."""

    def __init__(self, followed: Tables) -> None:
        names = [name for pair in followed for name in pair]
        self.readable = bool(names) and all(map(PLAIN_NAME.fullmatch, names))
        self.schemas = {schema.lower() for schema, _ in followed}
        self.tables = {table.lower() for _, table in followed}

    def may_skip(self, text: bytes) -> bool:
        """Whether a statement changes no followed row, as far as its bytes show."""
        if any(it.match(text) for it in HARMLESS):
            return True
        # Bytes above 0x7f may hide a quote or a name, as the second byte of a character may in gbk, sjis and big5.
        if not self.readable or not text.isascii():
            return False
        folded = text.lower()
        if any(name in folded for name in self.tables):
            return False
        if any(it.match(text) for it in OF_TABLES):
            return True
        return any(it.match(text) for it in OF_SCHEMAS) and not any(name in folded for name in self.schemas)


def text_of(event: bytes) -> Optional[bytes]:
    """The statement of a QUERY event without checksum, or nothing if its fields do not fit. After the header: thread 4, time 4,
    the schema's length 1, error 2, the status' length 2, the status, the schema, 0x00, the text."""
    if len(event) < 32:
        return None
    text = 32 + int.from_bytes(event[30:32], 'little') + event[27] + 1
    return event[text:] if text <= len(event) else None


def is_savepoint(text: bytes) -> bool:
    """Whether it is SAVEPOINT with one quoted name, which changes no row."""
    return SAVEPOINT.fullmatch(text) is not None
