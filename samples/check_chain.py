#!/usr/bin/env python3
"""Looks whether the chain of a change feed holds (mrep .. --changes FILE --chain).

    check_chain.py [--from DIGITS] FILE

Each line of a commit ends with a member "chain". It is the SHA-256, in hexadecimal digits, of the digits of the line before that has
one, of none at the first, and of all bytes of FILE after that line up to this member. Prints how many transactions the chain covers,
the digits of its last line, and how many bytes stand after it, which no digits cover: status 0. Where a line has other digits than
these it prints the line's number: status 1.

With --from DIGITS, which an earlier look has printed, a line has to have them: otherwise FILE was cut, or made anew, and the status is 1.
So keep the last digits where who may write FILE may not.
"""
import argparse
import hashlib
import re
import sys

MEMBER = re.compile(rb',"chain":"([0-9a-f]{64})"}\n\Z')


def main():
    parser = argparse.ArgumentParser()
    parser.add_argument('--from', dest='first', metavar='DIGITS', help='digits that an earlier look has printed')
    parser.add_argument('feed', metavar='FILE')
    options = parser.parse_args()
    digits, count, rest, is_found = '', 0, 0, False
    hashed = hashlib.sha256()
    with open(options.feed, 'rb') as feed:
        for number, line in enumerate(feed, 1):
            is_commit = line.startswith(b'{"type":"commit",') and line.endswith(b'}\n')
            link = MEMBER.search(line) if is_commit else None
            count, rest = count + is_commit, rest + len(line)
            if not link:
                hashed.update(line)
                continue
            hashed.update(line[:link.start()])
            digits = hashed.hexdigest()
            if link[1].decode() != digits:
                print(f'{options.feed}: line {number}: the chain does not hold here: it, or a line after the one before that has a chain, was changed')
                return 1
            hashed, rest, covered, is_found = hashlib.sha256(digits.encode()), 0, count, is_found or digits == options.first
    if not digits:
        print(f'{options.feed}: no line has a chain')
        return 1
    if options.first and not is_found:
        print(f'{options.feed}: no line has the digits {options.first}: it was cut, or made anew')
        return 1
    print(f'{covered} transactions, {rest} bytes after them\n{digits}')
    return 0


sys.exit(main())
