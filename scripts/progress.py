#!/usr/bin/env python3
"""progress.py WHO WORKSPACE SAID: runs `rt ci` in WORKSPACE, with what it says in the file SAID. Says, as WHO, what will be
done and in about how long, and after each crate what is left. Ends as `rt ci` does."""

import os
import re
import signal
import statistics
import subprocess
import sys
import time
from typing import Dict, Iterable, Iterator, List, Optional, Set, Tuple

from tasks import KINDS, KNOWN, MEASURED, Seconds, Tasks, clock, crates_of, kind_of, lanes, name_of, seconds_of, write_seconds

# The seconds between two looks at what runs, and the most without a line.
LOOK, BEAT = 1, 120
TICKS = os.sysconf('SC_CLK_TCK')
# What `rt ci` and the part of the wrong bodies count at their end.
COUNT = re.compile(r'^(\d+) passed, (\d+) failed\n?', re.M)
# What the wrong bodies of a crate have come to so far.
TRIED = re.compile(r'^must-fail (\w+): (?:all \d+|(\d+) of (\d+) refused)(?:.*?(\d+) s of a processor)?', re.M)


def about(seconds: float) -> str:
    step = 60 if seconds < 600 else 300
    return 'about a minute' if seconds < 90 else f'about {round(seconds / step) * step // 60} minutes'


class Progress:
    """What is done of tasks, what runs, and what is said of it. The wrong bodies are followed in the file EDITS."""

    def __init__(self, who: str, tasks: Tasks, edits: Optional[str] = None) -> None:
        self.who, self.tasks, self.edits, self.processors = who, tasks, edits, lanes()
        self.known = seconds_of(KNOWN)
        # When tasks were first seen to run, their seconds of the clock since then, more on a busy machine, and of a processor.
        self.begun: Seconds = {}
        self.ran: Seconds = {}
        self.spent: Seconds = {}
        self.done: Set[str] = set()
        self.running: List[str] = []
        counts = ', '.join(words.format(of) for _, of, words in self.counts())
        self.say(f'to do: {counts}; {about(self.clock())} with {self.processors} at a time, on a machine as fast as that of tests/seconds; less where proofs are kept')

    def say(self, text: str) -> None:
        print(f'{self.who}: {text}', flush=True)
        self.last = time.monotonic()

    def counts(self) -> Iterator[Tuple[int, int, str]]:
        """How many tasks of each kind are done, of how many, and what they are called."""
        for kind, words in KINDS.items():
            tasks = [it for it in self.tasks if kind_of(it) == kind]
            if tasks:
                yield len(self.done.intersection(tasks)), len(tasks), words

    def usual(self, task: str) -> float:
        """What a task takes by tests/seconds, and where that has no line, the middle one of its kind."""
        alike = [seconds for it, seconds in self.known.items() if kind_of(it) == kind_of(task)]
        return self.known.get(task, statistics.median(alike or [60]))

    def clock(self) -> float:
        """About how many seconds of the clock are left, at the pace of the crates that were proved here."""
        here = [it for it in self.done if kind_of(it) == 'crate' and it in self.spent and it in self.known]
        scale = sum(self.ran[it] for it in here) / sum(self.known[it] for it in here) if here else 1
        left = {it: max(0.0, scale * self.usual(it) - self.ran.get(it, 0)) for it in self.tasks if it not in self.done}
        return clock(left, self.tasks, self.running, self.processors)

    def tell(self, news: str = '') -> None:
        counts = ', '.join(words.format(f'{done} of {of}') for done, of, words in self.counts())
        now = f'; now {", ".join(map(name_of, self.running))}' if self.running else ''
        left = f'; {about(self.clock())} left' if len(self.done) < len(self.tasks) else ''
        self.say(f'{news}{counts} done{now}{left}')

    def end(self, tasks: List[str], how: str = '') -> None:
        """Says how tasks have ended. Their seconds count only where they have ended well."""
        self.done.update(tasks)
        self.running = [it for it in self.running if it not in tasks]
        for task in tasks if how else []:
            self.spent.pop(task, None)
        took = {it: f'{self.spent[it]:.0f} s of a processor' if it in self.spent else 'done' for it in tasks}
        self.tell(', '.join(f'{name_of(it)}: {how or took[it]}' for it in tasks) + '; ')

    def look(self, running: Iterable[str]) -> None:
        """Takes note of the crates and parts that run and of the wrong bodies, and says it where nothing was said for long."""
        self.running, now = [*running], time.monotonic()
        self.ran.update({task: now - self.begun.setdefault(task, now) for task in self.running})
        if self.edits and os.path.exists(self.edits):
            with open(self.edits, encoding='utf-8', errors='replace') as file:
                tried = {f'edits {it[1]}': it for it in TRIED.finditer(file.read())}
            seconds = {task: float(it[4]) for task, it in tried.items() if it[4]}
            self.spent.update(seconds)
            self.ran.update(seconds)
            self.done.update(task for task, it in tried.items() if it[2] == it[3])
            self.running += [it for it in tried if it not in self.done]
        if now - self.last > BEAT:
            self.tell()

    def keep(self) -> None:
        """Writes to bin/seconds what tasks have taken, beside what earlier runs say of others."""
        write_seconds(MEASURED, '', {**seconds_of(MEASURED), **{it: self.spent[it] for it in self.done if it in self.spent}})


def checks_in(workspace: str) -> Iterator[Tuple[str, str, float]]:
    """The checks that run in a workspace: each process, its crate, and its seconds of a processor so far."""
    for process in filter(str.isdigit, os.listdir('/proc')):
        try:
            if not os.readlink(f'/proc/{process}/cwd').startswith(f'{workspace}/crates/'):
                continue
            with open(f'/proc/{process}/cmdline', encoding='utf-8', errors='replace') as file:
                words = file.read().split('\0')
            with open(f'/proc/{process}/stat', encoding='utf-8', errors='replace') as file:
                ticks = file.read().rpartition(') ')[2].split()[11:15]
        except OSError:
            continue
        if os.path.basename(words[0]) == 'rattle' and '--crate-name' in words:
            yield process, f'crate {words[words.index("--crate-name") + 1]}', sum(map(int, ticks)) / TICKS


def take(progress: Progress, lines: List[str], shows: bool) -> None:
    """Takes note of what `rt ci` has said, and shows it, but for its count, if so told."""
    for line in lines if shows else []:
        if not COUNT.fullmatch(line):
            print(line, flush=True)
    ended = [it for it in (re.match(r'rt: (\w+) (proved|is kept|NOT PROVED)', line) for line in lines) if it]
    kept = [f'crate {it[1]}' for it in ended if it[2] == 'is kept']
    if kept:
        progress.end(kept, 'kept')
    for it in ended:
        if it[2] != 'is kept':
            progress.end([f'crate {it[1]}'], '' if it[2] == 'proved' else 'not proved')


def prove(progress: Progress, workspace: str, said: str, shows: bool) -> int:
    """Runs `rt ci` in a workspace, with what it says in a file. Its status."""
    workspace, rest = os.path.realpath(workspace), ''
    checks: Dict[str, Tuple[str, float]] = {}
    with open(said, 'w', encoding='utf-8') as out, open(said, encoding='utf-8', errors='replace') as file:
        environment = {**os.environ, 'RT_JOBS': str(progress.processors)}
        process = subprocess.Popen(['rt', 'ci'], cwd=workspace, env=environment, stdin=subprocess.DEVNULL, stdout=out, stderr=subprocess.STDOUT)
        try:
            while True:
                status = process.poll()
                now = {number: (task, seconds) for number, task, seconds in checks_in(workspace)}
                checks.update(now)
                running = sorted({task for task, _ in now.values()})
                progress.spent.update({task: sum(seconds for it, seconds in checks.values() if it == task) for task in running})
                progress.look(running)
                *lines, rest = (rest + file.read()).split('\n')
                take(progress, lines, shows)
                if status is not None:
                    return status
                time.sleep(LOOK)
        finally:
            process.terminate()
            process.wait()


def end_by_signals() -> None:
    """A signal that asks this program to end does so by way of its `finally`."""
    for it in (signal.SIGHUP, signal.SIGINT, signal.SIGTERM):
        signal.signal(it, lambda number, _: sys.exit(128 + number))


def main() -> int:
    who, workspace, said = sys.argv[1:]
    end_by_signals()
    progress = Progress(who, crates_of(workspace))
    status = prove(progress, workspace, said, shows=False)
    progress.keep()
    return status


if __name__ == '__main__':
    sys.exit(main())
