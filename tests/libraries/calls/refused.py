"""The calls of the libraries out of memory. The tests whose names begin with `refused`, in the files whose names do, make
each call that may be refused memory. Each of their requests for memory is refused alone (`refuse.c`), and the test has to
pass each time: a call answers as with ample memory, or that memory ran out, and then what it was to change is as it was."""

import os
import re
import struct
from concurrent.futures import Executor
from typing import Iterable, List, NamedTuple

from mrep import Wrong, compiled
from program import Tests

MADE = re.compile(r'tests::refused_\w+::refused\w*')
# A test that needs all its memory.
CONTROL = 'tests::refused_formats::answered'
# AddressSanitizer looks at each access to memory. It keeps no list of who asked for what, which costs more than the calls.
CHECKS = 'detect_stack_use_after_return=0:malloc_context_size=0:quarantine_size_mb=0:thread_local_quarantine_size_kb=0:detect_leaks=0'


class Part(NamedTuple):
    """Every step-th request of a test, from the first on."""
    test: str
    first: int
    step: int


class Seen(NamedTuple):
    """How many requests a test made, how many of them were refused, which of these was not answered rightly, and what was
    wrong."""
    made: int
    refused: int
    wrong: int
    why: str


def refuse(tests: Tests, library: str, part: Part) -> Seen:
    """Refuses requests of a test."""
    seen = f'{library}.{part.test}.{part.first}'
    env = {'LD_PRELOAD': library, 'ASAN_OPTIONS': CHECKS, 'REFUSE_SEEN': seen, 'REFUSE_FIRST': str(part.first), 'REFUSE_STEP': str(part.step)}
    status, said = tests.run(part.test, **env)
    made = refused = wrong = 0
    if os.path.exists(seen):
        with open(seen, 'rb') as file:
            made, refused, wrong, ended = struct.unpack('4l', file.read(32))
        if wrong:
            return Seen(made, refused, wrong, f'request {wrong} for memory refused: {part.test} ends with {ended}: {said[-3000:]}')
    return Seen(made, refused, wrong, f'{part.test} ends with {status}: {said[-3000:]}' if status else '')


def all_refused(tests: Tests, names: Iterable[str], folder: str, workers: Executor) -> str:
    """Refuses each request of the tests, some side by side. What that has shown."""
    library = f'{folder}/refuse.so'
    missing = compiled(f'{os.path.dirname(os.path.abspath(__file__))}/refuse.c', library)
    if missing:
        return f'no request for memory is refused, since {missing}'
    if not refuse(tests, library, Part(CONTROL, 1, 1)).wrong:
        raise Wrong(f'{CONTROL} passes where its requests for memory are refused')
    chosen = [name for name in names if MADE.fullmatch(name)]
    count, steps = 0, len(os.sched_getaffinity(0))
    for name in chosen:
        parts: List[Part] = [Part(name, first, steps) for first in range(1, steps + 1)]
        seen = list(workers.map(lambda part: refuse(tests, library, part), parts))
        for it in seen:
            if it.why:
                raise Wrong(it.why)
        refused, made = sum(it.refused for it in seen), {it.made for it in seen}
        if made != {refused} or not refused:
            raise Wrong(f'{name} makes {sorted(made)} requests for memory, of which {refused} were refused')
        count += refused
    if not count:
        raise Wrong('no test makes the calls that may be refused memory')
    return f'{count} requests for memory of the calls and of what they are given, each refused alone: no answer is another one than out of memory'
