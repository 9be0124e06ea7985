#!/usr/bin/env python3
"""The places that docs/DESIGN-PASS.md counts, of the code as it stands or as a commit has it.

    design_counts.py [COMMIT]           how many places each point has
    design_counts.py [COMMIT] --list    and each of them, file:line

Of each point the lines of crates/*/src that have its form, or, for twins, the functions whose bodies are alike but for names and numbers. What a line is worth is for a reader to judge: the
page says of each place what became of it.
"""
import re
import subprocess
import sys

FORMS = [
    ('1 enums of our own', r'\benum [A-Z]'),
    ('1 a number that also says "none"', r'//.*(, or 0\b|\bor 0\.|\b0 where\b|for another byte|4,294,967,295 where|\b0: no|letter 0\b)'),
    ('1 a refusal by its number', r'Refused\(\d+\)|NotBegun\(|NoAccess\(\d|NotMade\(|Err\(Refusal'),
    ('1 a flag beside a value', r'^    pub \w+: bool,'),
    ('3 loops', r'^\s*(while|loop|for)\b.*\{$'),
    ('3 loops that count by hand', r'^\s*while\b.*\{$|\bfor \w+ in 0\.\.\w+\.len\(\)'),
    ('4 arithmetic by std::num', r'std::num::\w+'),
    ('4 conversions and printing by hand', r'fn (\w*_of|number_of|jumpers_of|port_of|select_of|show\w*|put_\w+|text|decimal|code|refusal|sample|access|handed|taken|record)\('),
    ('5 facts asked of callers', r'^    requires '),
    ('6 a place or length beside a buffer', r'(?:piece|out|memory|buf|samples|text|digits)\b[^\n]*\b(?:from|at|place|places|count|n|i): (?:usize|u16)'),
    ('7 a match on a letter or a phase', r'\bmatch (letter|p|phase)\b'),
]


def text(commit, path):
    if commit:
        return subprocess.run(['git', 'show', f'{commit}:{path}'], capture_output=True, text=True, check=True).stdout
    return open(path, encoding='utf-8').read()


def sources(commit):
    command = ['git', 'ls-tree', '-r', '--name-only', commit, 'crates'] if commit else ['git', 'ls-files', 'crates']
    paths = subprocess.run(command, capture_output=True, text=True, check=True).stdout.split()
    return {p: text(commit, p) for p in paths if re.fullmatch(r'crates/\w+/src/[\w/]+\.rt', p)}


def functions(code):
    """Name, line and body of each function."""
    for m in re.finditer(r'^(?:    )?(?:pub )?(?:extern "C" )?fn (\w+)', code, re.M):
        start = re.compile(r'^\s*\{$|\{$', re.M).search(code, m.end())
        indent = ' ' * (len(m.group(0)) - len(m.group(0).lstrip()))
        end = code.find(f'\n{indent}}}', m.end())
        body = re.search(r'\n' + indent + r'\{\n(.*)', code[m.end():end + 1], re.S) or re.search(r'\{\n(.*)', code[m.end():end + 1], re.S)
        if start and body:
            yield m.group(1), code.count('\n', 0, m.start()) + 1, body.group(1)


WORDS = {'if', 'else', 'let', 'mut', 'match', 'for', 'while', 'in', 'return', 'as', 'true', 'false', 'Ok', 'Err', 'Some', 'None', 'move'}


def shape(body):
    """The body with its names and numbers numbered as they come; longer than a line or two, else None."""
    tokens = re.findall(r"b?\"[^\"]*\"|\w+|[^\s\w]", re.sub(r'//[^\n]*', '', body))
    if len(tokens) < 18:
        return None
    seen = {}
    return ' '.join(t if t in WORDS or not re.match(r'\w|b?"', t) else str(seen.setdefault(t, len(seen))) for t in tokens)


def twins(code):
    groups = {}
    for path, t in code.items():
        for name, line, body in functions(t):
            s = shape(body)
            if s:
                groups.setdefault(s, []).append(f'{path}:{line}: {name}')
    return [g for g in groups.values() if len(g) > 1]


def main():
    arguments = [a for a in sys.argv[1:] if a != '--list']
    commit, listed = arguments[0] if arguments else None, '--list' in sys.argv
    code = sources(commit)
    for name, form in FORMS:
        found = [f'{path}:{i}: {line.strip()}' for path, t in code.items() for i, line in enumerate(t.splitlines(), 1) if re.search(form, line)]
        print(f'{len(found):5} {name}')
        if listed:
            print(*('      ' + f for f in found), sep='\n')
    groups = twins(code)
    print(f'{sum(len(g) for g in groups):5} 2 functions alike but for names and numbers, in {len(groups)} groups')
    if listed:
        print(*('      ' + '\n        = '.join(g) for g in groups), sep='\n')


main()
