#!/usr/bin/env python3
"""A picture of the dashboard contrib/grafana.json, of what a Prometheus has of the last MINUTES: each panel of lines that has any, drawn
as SVG.

    bench/picture.py http://127.0.0.1:9090 MINUTES > docs/dashboard.svg
"""

import html
import json
import math
import os
import re
import sys
import time
import urllib.parse
import urllib.request
from typing import Any, Dict, List, NamedTuple, Tuple

ROOT = os.path.join(os.path.dirname(os.path.abspath(__file__)), '..')
# The steps of time, the size of a panel and of its margins, how many rows the names of lines have and how high one is, and what is
# drawn with.
STEPS, WIDTH, HEIGHT, LEFT, HEAD, ROWS, ROW = 180, 460, 130, 56, 26, 3, 13
WHOLE = HEAD + HEIGHT + ROW * (ROWS + 2)
COLOURS = ('#3274d9', '#e02f44', '#37872d', '#ff9830', '#8f3bb8', '#00a3a3', '#806000', '#c0307f', '#555555', '#73bf69')

Points = List[Tuple[float, float]]


class Line(NamedTuple):
    """A line of a panel, and what it is called."""

    name: str
    points: Points


def asked(url: str, path: str, **words: object) -> Any:
    with urllib.request.urlopen(f'{url}/api/v1/{path}?{urllib.parse.urlencode(words)}', timeout=60) as answer:
        return json.load(answer)['data']


def lines_of(url: str, panel: Dict[str, Any], begin: float, end: float) -> List[Line]:
    """What Prometheus has for a panel."""
    found = []
    for target in panel['targets']:
        expression = target['expr'].replace('$__rate_interval', '30s').replace('$replica', '.*')
        for series in asked(url, 'query_range', query=expression, start=begin, end=end, step=(end - begin) / STEPS)['result']:
            labels: Dict[str, str] = series['metric']
            name = re.sub(r'{{(\w+)}}', lambda it: labels.get(it[1], ''), target['legendFormat'])
            found.append(Line(name, [(float(at), float(value)) for at, value in series['values']]))
    return sorted(found)


def number(value: float, unit: str) -> str:
    """A value at an axis."""
    base = 1024 if unit == 'bytes' else 1000
    steps = ['', *('KMGT' if unit == 'bytes' else 'kMGT')]
    while abs(value) >= base and len(steps) > 1:
        value /= base
        del steps[0]
    end = {'bytes': 'iB' if steps[0] else 'B', 's': 's'}.get(unit, '')
    return f'{value:.3g} {steps[0]}{end}'.rstrip()


def text(x: float, y: float, words: str, more: str = '') -> str:
    return f'<text x="{x:.0f}" y="{y:.0f}" {more}>{html.escape(words)}</text>\n'


def above(value: float, unit: str) -> float:
    """A round number that is not less: of one digit, or a power of 2, times a power of the unit's."""
    step = 1024.0 if unit == 'bytes' else 10.0
    power = math.pow(step, math.floor(math.log(value or 1, step)))
    return power * next(it for it in (1, 2, 3, 4, 5, 6, 8, 16, 32, 64, 128, 256, 512, 1024) if it * power >= (value or 1))


def drawn(line: Line, colour: str, begin: float, end: float, top: float) -> str:
    """A line, broken where there is nothing, without points that are as those beside them."""
    parts: List[str] = []
    for at, (time_of, value) in enumerate(line.points):
        beside = line.points[max(0, at - 1):at + 2]
        if len(beside) == 3 and {it[1] for it in beside} == {value} and beside[2][0] - beside[0][0] < 3 * (end - begin) / STEPS:
            continue
        x = LEFT + (time_of - begin) / (end - begin) * (WIDTH - LEFT - 10)
        y = HEAD + HEIGHT - max(0.0, value) / top * HEIGHT
        goes_on = at > 0 and time_of - line.points[at - 1][0] < 2 * (end - begin) / STEPS
        parts.append(f'{"L" if goes_on else "M"}{x:.0f} {y:.1f}')
    return f'<path d="{"".join(parts)}" fill="none" stroke="{colour}" stroke-width="1.3"/>\n'


def names(found: List[Line]) -> str:
    """The names of lines, in rows, as many as there is room for."""
    made, x, row = '', float(LEFT), 0
    for at, line in enumerate(found):
        if x > LEFT and x + 6 * len(line.name) > WIDTH:
            x, row = LEFT, row + 1
        if row < ROWS:
            made += text(x, HEAD + HEIGHT + ROW * (row + 2), line.name, f'fill="{COLOURS[at % len(COLOURS)]}"')
        x += 6 * len(line.name) + 12
    return made


def panel_text(panel: Dict[str, Any], found: List[Line], begin: float, end: float) -> str:
    """A panel with its title, axes, lines and their names."""
    unit: str = panel['fieldConfig']['defaults']['unit']
    top = above(max(value for line in found for _, value in line.points), unit)
    made = text(LEFT, 16, panel['title'], 'font-weight="bold"')
    for share, anchor in (0, 'start'), (0.5, 'middle'), (1, 'end'):
        y, x = HEAD + HEIGHT * (1 - share), LEFT + (WIDTH - LEFT - 10) * share
        made += f'<path d="M{LEFT} {y:.0f}H{WIDTH - 10}" stroke="#ddd"/>\n' + text(LEFT - 4, y + 4, number(top * share, unit), 'text-anchor="end"')
        made += text(x, HEAD + HEIGHT + ROW, time.strftime('%H:%M:%S', time.gmtime(begin + (end - begin) * share)), f'text-anchor="{anchor}"')
    return made + ''.join(drawn(line, COLOURS[at % len(COLOURS)], begin, end, top) for at, line in enumerate(found)) + names(found)


def main() -> int:
    url, end = sys.argv[1], time.time()
    begin = end - 60 * float(sys.argv[2])
    with open(f'{ROOT}/contrib/grafana.json', encoding='utf-8') as file:
        drawn_panels = [it for it in json.load(file)['panels'] if it['type'] == 'timeseries']
    panels = [it for it in ((panel, lines_of(url, panel, begin, end)) for panel in drawn_panels) if it[1]]
    made = ''
    for at, (panel, found) in enumerate(panels):
        place = f'{at % 2 * WIDTH} {at // 2 * WHOLE}'
        made += f'<g transform="translate({place})">\n{panel_text(panel, found, begin, end)}</g>\n'
    height = (len(panels) + 1) // 2 * WHOLE
    print(f'<svg xmlns="http://www.w3.org/2000/svg" width="{2 * WIDTH}" height="{height}" font-family="sans-serif" font-size="11">\n'
          f'<rect width="100%" height="100%" fill="#fff"/>\n{made}</svg>')
    return 0


sys.exit(main())
