"""The tasks of `make` and `make test`, and how long they take, in seconds of a processor. A task is named as in tests/seconds:
`crate wire`, `part program/pages`, or `edits wire`, which are the wrong bodies of a crate."""

import glob
import heapq
import os
from typing import Dict, Iterable, List, Set, Tuple

ROOT = os.path.dirname(os.path.dirname(os.path.abspath(__file__)))
# What tasks are known to take, and what they took here.
KNOWN, MEASURED = f'{ROOT}/tests/seconds', f'{ROOT}/bin/seconds'
# The part that tries the wrong bodies, beside the proofs.
EDITS = 'prover/wrong_bodies'
# The kinds of tasks, those first that get a processor first.
KINDS = {'crate': '{} crates', 'part': '{} parts', 'edits': 'the wrong bodies of {} crates'}
# The memory that a check may take, in KB.
CHECK = 4_000_000

# Each task, with those that it waits for, which come before it.
Tasks = Dict[str, List[str]]
Seconds = Dict[str, float]


def kind_of(task: str) -> str:
    return task.split()[0]


def name_of(task: str) -> str:
    kind, name = task.split()
    return f'wrong bodies of {name}' if kind == 'edits' else name


def lanes() -> int:
    """How many tasks run side by side: one a processor, and as many as memory holds. Left to itself `rt ci` reserves 10 GB
    for each of the upper crates, and proves these one after the other."""
    if os.environ.get('RT_JOBS', '').isdigit():
        return max(1, int(os.environ['RT_JOBS']))
    with open('/proc/meminfo', encoding='utf-8') as file:
        free = next(int(line.split()[1]) for line in file if line.startswith('MemAvailable'))
    return max(1, min(len(os.sched_getaffinity(0)), free // CHECK))


def crates_of(workspace: str) -> Tasks:
    with open(f'{workspace}/crates.txt', encoding='utf-8') as file:
        lines = [line.split(':') for line in file if ':' in line]
    names = {name for name, _ in lines}
    return {f'crate {name}': [f'crate {it}' for it in rest.split() if it in names] for name, rest in lines}


def tasks_of_gate() -> Tasks:
    crates = crates_of(ROOT)
    parts = sorted(os.path.relpath(os.path.dirname(it), f'{ROOT}/tests') for it in glob.glob(f'{ROOT}/tests/*/*/run'))
    edits = [it for it in crates if glob.glob(f'{ROOT}/crates/{it.split()[1]}/must-fail/*.edit')]
    return {**crates, **{f'part {it}': [*crates] for it in parts if it != EDITS}, **{f'edits {it.split()[1]}': [it] for it in edits}}


def seconds_of(path: str) -> Seconds:
    if not os.path.exists(path):
        return {}
    with open(path, encoding='utf-8') as file:
        lines = [line.rsplit(None, 1) for line in file if not line.startswith('#')]
    return {task: float(seconds) for task, seconds in lines}


def write_seconds(path: str, head: str, seconds: Seconds) -> None:
    os.makedirs(os.path.dirname(path), exist_ok=True)
    with open(path, 'w', encoding='utf-8') as file:
        file.write(head + ''.join(f'{task} {seconds[task]:.0f}\n' for task in sorted(seconds)))


def is_ready(task: str, tasks: Tasks, undone: Set[str], running: List[str]) -> bool:
    """Whether a task can begin: while a crate is left to prove, the wrong bodies of one crate at a time."""
    if kind_of(task) == 'edits' and 'crate' in map(kind_of, undone) and 'edits' in map(kind_of, running):
        return False
    return not undone.intersection(tasks[task])


def clock(left: Seconds, tasks: Tasks, running: Iterable[str], processors: int) -> float:
    """How many seconds of the clock it takes, where so many of a processor are left of tasks: first those that run, then
    crates, the longest chain first, then parts, then wrong bodies."""
    behind, now, undone = dict(left), 0.0, set(left)
    for task in reversed([it for it in left if kind_of(it) == 'crate']):
        for it in undone.intersection(tasks[task]):
            behind[it] = max(behind[it], left[it] + behind[task])
    waiting = sorted(left, key=lambda it: (it not in running, [*KINDS].index(kind_of(it)), -behind[it]))
    ends: List[Tuple[float, str]] = []
    while undone:
        for task in [*waiting]:
            if len(ends) < processors and is_ready(task, tasks, undone, [it for _, it in ends]):
                waiting.remove(task)
                heapq.heappush(ends, (now + left[task], task))
        now, task = heapq.heappop(ends)
        undone.remove(task)
    return now
