"""A manual page of what a program in Python says of itself: its forms, options, examples and exit statuses."""

import argparse
from typing import Dict, List


def plain(text: str) -> str:
    """Text of a page: a hyphen is one, and neither a backslash nor the first character of a line is a request."""
    text = text.replace('\\', '\\e').replace('-', '\\-')
    return '\\&' + text if text[:1] in ".'" else text


def name_of(option: argparse.Action) -> str:
    value = str(option.metavar or ('{' + ','.join(option.choices) + '}' if option.choices else ''))
    return ' '.join(filter(None, [', '.join(option.option_strings), value]))


def page(name: str, does: str, forms: List[str], about: str, options: argparse.ArgumentParser, end: str,
         files: Dict[str, str]) -> str:
    """The page of a program. `end` has its examples and, after an empty line, its exit statuses."""
    examples, statuses = end.split('\n\n')
    out = [f'.TH {plain(name.upper())} 1 "" "" "User Commands"', '.SH NAME', f'{plain(name)} \\- {does}', '.SH SYNOPSIS']
    for form in forms:
        out += [plain(form.strip()), '.br']
    out += ['.SH DESCRIPTION', plain(' '.join(about.split())), '.SH OPTIONS']
    for option in options._actions:
        out += ['.TP', f'.B {plain(name_of(option))}', plain(option.help or '')]
    out.append('.SH EXIT STATUS')
    for line in statuses.splitlines()[1:]:
        status, text = line.split(maxsplit=1)
        out += ['.TP', f'.B {status}', plain(text)]
    out.append('.SH FILES')
    for file, text in files.items():
        out += ['.TP', f'.I {file}', text]
    out.append('.SH EXAMPLES')
    for line in examples.splitlines()[1:]:
        out += ['.PP', '.nf', plain(line.strip()), '.fi']
    return '\n'.join([*out, '.SH SEE ALSO', '.BR mrep (1)'])
