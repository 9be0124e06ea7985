"""The edits of crates/NAME/must-fail, tried one by one with all that the prover says, and the record of what it refused.

tools/refused.txt has for each edit a sum of what its check stands on, and below it each part of the crate that was refused at a false fact, with the first of
what was said. What an edit's check stands on: the edit, the texts of its crate, the specs/ and contracts of the crates below it, and the kit. Where one of these
is changed the record says nothing of the edit, and it is tried again.
"""
import functools
import glob
import hashlib
import os
import re
import shutil
import subprocess
import tempfile
from concurrent.futures import ThreadPoolExecutor

from edits import read_edit
from needed import read_lists

RECORD = 'tools/refused.txt'
PARTS = 'src', 'specs', 'proofs'


# ---- the record

def read():
    """Of each edit its sum, and (file, part, what was said) of each refusal."""
    found, path = {}, None
    for line in open(RECORD, encoding='utf-8') if os.path.exists(RECORD) else ():
        line = line.rstrip('\n')
        if line.startswith('  '):
            place, _, said = line.strip().partition(': ')
            found[path][1].append((*place.split(' ', 1), said))
        elif line and not line.startswith('#'):
            name, said = line.split()
            path = 'crates/{}/must-fail/{}.edit'.format(*name.split('/'))
            found[path] = said, []
    return found


def write(record):
    with open(RECORD, 'w', encoding='utf-8') as out:
        out.write('# What the prover refused of each edit, by tools/wrong_answers.py (tools/tried_edits.py).\n')
        for path, (said, found) in sorted(record.items()):
            if os.path.exists(path):
                out.write(f'{path.split("/")[1]}/{os.path.basename(path)[:-5]} {said}\n')
                out.writelines(f'  {file} {name}: {" ".join(words.split())[:100]}\n' for file, name, words in found)


def stands_on(crate, path):
    """A sum of what an edit's check stands on."""
    texts = [version(), open(path, encoding='utf-8').read(), own(crate.name), *map(promised, sorted(below(crate.name, lists())))]
    return hashlib.sha256('\0'.join(texts).encode()).hexdigest()[:32]


@functools.lru_cache(None)
def own(name):
    """The texts of a crate."""
    paths = sorted(path for part in PARTS for path in glob.glob(f'crates/{name}/{part}/**/*.*', recursive=True))
    return '\n'.join(f'{path} ' + ' '.join(open(path, encoding='utf-8').read().split()) for path in paths)


@functools.lru_cache(None)
def promised(name):
    """What a crate's definitions, types and contracts say, without the bodies."""
    specs = [plain(open(path, encoding='utf-8').read(), '--') for path in sorted(glob.glob(f'crates/{name}/specs/**/*.antt', recursive=True))]
    sources = [open(path, encoding='utf-8').read() for path in sorted(glob.glob(f'crates/{name}/src/*.rt'))]
    return '\n'.join(specs + [plain(re.sub(r'^\{\n.*?^\}$', '{}', text, flags=re.M | re.S), '//') for text in sources])


def plain(text, mark):
    return ' '.join(line for line in map(str.strip, text.split('\n')) if line and not line.startswith(mark))


lists = functools.lru_cache(None)(read_lists)


def below(name, listed):
    """The crates of the repository that a crate rests on."""
    found, todo = set(), [name]
    while todo:
        new = {d for d in listed.get(todo.pop(), ()) if d in listed} - found
        todo, found = todo + list(new), found | new
    return found


@functools.lru_cache(None)
def version():
    return subprocess.run(['rt', 'version'], stdout=subprocess.PIPE, text=True, check=True).stdout.strip()


# ---- trying

def logs(name, paths):
    """(edit, what `rt check` says of the crate with it) of these edits of a crate; several at a time."""
    with tempfile.TemporaryDirectory() as work:
        seed = copied(name, '.', f'{work}/seed')
        done = checked(name, seed)
        if done.returncode:
            raise SystemExit(f'{done.stdout[-2000:]}tools/wrong_answers.py: {name} is not proved without an edit')
        with ThreadPoolExecutor(int(os.environ.get('RT_JOBS') or os.cpu_count())) as pool:
            yield from pool.map(lambda path: (path, tried(name, path, seed, f'{work}/{os.path.basename(path)}')), paths)


def tried(name, path, seed, room):
    copied(name, seed, room)
    shutil.copytree(f'{seed}/crates/{name}/out/incremental', f'{room}/crates/{name}/out/incremental', copy_function=linked)
    for wrong in read_edit(path):
        for pair in wrong.pairs:
            file = f'{room}/crates/{name}/{pair.file}'
            text = open(file, encoding='utf-8').read()
            if text.count(pair.old) != 1:
                raise SystemExit(f'tools/wrong_answers.py: {path}: {pair.old!r} stands {text.count(pair.old)} times in {pair.file}')
            os.remove(file)
            with open(file, 'w', encoding='utf-8') as out:
                out.write(text.replace(pair.old, pair.new))
    said = checked(name, room).stdout
    shutil.rmtree(room)
    return said


def checked(name, room):
    return subprocess.run(['rt', 'check', '--jobs', '1'], cwd=f'{room}/crates/{name}', stdout=subprocess.PIPE, stderr=subprocess.STDOUT, text=True)


def copied(name, root, room):
    """A repository of this crate and those below it, with the libraries that stand in their out/: its files are other names of the same."""
    os.makedirs(room)
    with open(f'{room}/crates.txt', 'w') as out:
        kept = below(name, lists()) | {name}
        out.writelines(line for line in open('crates.txt') if re.split('[ :]', line)[0] in kept)
    for one in kept:
        for part in (*PARTS, 'out/rlib') if one != name else PARTS:
            if os.path.isdir(f'{root}/crates/{one}/{part}'):
                shutil.copytree(f'{root}/crates/{one}/{part}', f'{room}/crates/{one}/{part}', copy_function=linked)
    return room


def linked(one, other):
    try:
        os.link(one, other)
    except OSError:
        shutil.copy2(one, other)
