"""Fills the texts proof.txt and lending.txt.

In them @{name} stands for what is said under that name; a line of nothing else goes where that is empty. Lines between `@if name` and `@end` stay where
that is not empty, and those after an `@else` where it is. Of the `use` lines stay the names that are used.
"""
import os
import re
import string


class Text(string.Template):
    delimiter = '@'


def filled(name, said):
    text = open(os.path.join(os.path.dirname(__file__), name)).read()
    return trimmed(Text(chosen(text, said)).substitute(said))


def chosen(text, said):
    """The lines that stay."""
    lines, stays = [], True
    for line in text.splitlines():
        if line.startswith('@if '):
            stays = bool(said[line[4:]])
        elif line == '@else':
            stays = not stays
        elif line == '@end':
            stays = True
        elif stays and (said[line[2:-1]] if re.fullmatch(r'@\{\w+\}', line) else True):
            lines.append(line.rstrip())
    return '\n'.join(lines) + '\n'


def trimmed(text):
    """The text without the names that it brings in and does not use."""
    lines = text.splitlines()
    rest = ' '.join(line for line in lines if not line.startswith(('use ', '--')))
    words = set(re.split(r'[\s(){},;.]+', rest))
    stay = [kept(line, words) if line.startswith('use ') else line.rstrip() for line in lines]
    return '\n'.join(line for line in stay if line is not None) + '\n'


def kept(line, words):
    """What stays of a `use` line where these words are used; None if nothing."""
    path, names = re.fullmatch(r'use (\S+?)(?:\.\{(.*)\}| as .*)', line).groups()
    if names is None:
        return line if line.split(' as ')[1] in words else None
    names = [name for name in names.split(', ') if name.split(' as ')[-1].strip('_') in words]
    return f'use {path}.{{{", ".join(names)}}}' if names else None
