#!/usr/bin/env python3
"""Puts the changes of a feed into a Redis stream, each exactly once: the entries and the place are in the same MULTI.

    consume_redis.py [--follow] [--adopt] HOST:PORT FEED..

The stream is `feed`, an entry a change: its GTID, and the line of the feed. The place is the key `feed_place`. The
other arguments are those of consume.py.
"""
import socket
import sys

import read_feed


class Redis:
    """A connection: RESP, of which these commands need no more."""

    def __init__(self, address):
        host, _, port = address.rpartition(':')
        self.socket = socket.create_connection((host, int(port)))
        self.answers = self.socket.makefile('rb')

    def run(self, *commands):
        """Runs commands, and returns the answer of the last one."""
        out = []
        for words in commands:
            out.append(b'*%d\r\n' % len(words))
            out += [b'$%d\r\n%s\r\n' % (len(data), data) for data in (word.encode() for word in words)]
        self.socket.sendall(b''.join(out))
        return [self.answer() for _ in commands][-1]

    def answer(self):
        line = self.answers.readline()
        kind, rest = line[:1], line[1:-2]
        if kind in (b'+', b':'):
            return rest
        if kind == b'$':
            return self.answers.read(int(rest) + 2)[:-2] if rest != b'-1' else None
        if kind == b'*':
            return [self.answer() for _ in range(int(rest))] if rest != b'-1' else None
        sys.exit(f'the server says {line}')


def main():
    options = read_feed.options('HOST:PORT')
    redis = Redis(options.to)
    place = (redis.run(('GET', 'feed_place')) or b'').decode()
    reader = read_feed.Reader(place, options.adopt)
    for changes in reader.transactions(options.feed, options.follow):
        entries = [('XADD', 'feed', '*', 'gtid', change['gtid'], 'change', read_feed.text(change)) for change in changes]
        # What a consumer that was killed has sent may still come: then the place is another one, or EXEC does nothing.
        is_same = (redis.run(('WATCH', 'feed_place'), ('GET', 'feed_place')) or b'').decode() == place
        place = reader.place()
        if not is_same or redis.run(('MULTI',), *entries, ('SET', 'feed_place', place), ('EXEC',)) is None:
            sys.exit('another process has used the feed meanwhile')


main()
