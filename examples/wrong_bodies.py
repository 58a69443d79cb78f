#!/usr/bin/env python3
"""Wrong bodies of docs/WRONG_BODIES.md, each applied to a copy of the tree.

wrong_bodies.py --list        each row applies: its old text stands once in its file, and the new one differs
wrong_bodies.py CRATE/NAME    tries one: the crate's check has to refuse it
"""
import collections, os, re, shutil, subprocess, sys, tempfile

ROOT = os.path.dirname(os.path.dirname(os.path.abspath(__file__)))
PAGE = os.path.join(ROOT, 'docs', 'WRONG_BODIES.md')


def text_of(cell):
    """The text of a cell; `nothing` without backticks is the empty text."""
    return '' if cell == 'nothing' else cell.replace('\\|', '|')[1:-1]


def rows():
    """The changes by name: a row each, or two rows of one name."""
    found = collections.OrderedDict()
    for line in open(PAGE, encoding='utf8'):
        cells = line.rstrip('\n')[2:-2].split(' | ')
        if line.startswith('| `') and len(cells) == 6:
            name, path, old, new = (text_of(cell) for cell in cells[:4])
            found.setdefault(name, []).append((path, old, new, cells[5]))
    return found


def read(path):
    with open(path, encoding='utf8') as file:
        return file.read()


def apply(root, change):
    """Makes a change below a root; answers what is wrong with its rows."""
    for path, old, new, _ in change:
        full = os.path.join(root, path)
        if not os.path.exists(full):
            return f'no file {path}'
        text = read(full)
        if text.count(old) != 1 or old == new:
            return f'{path}: {text.count(old)} times {old!r}, to {new!r}'
        with open(full, 'w', encoding='utf8') as file:
            file.write(text.replace(old, new))
    return None


def edit_of(change, crate):
    """A change as an edit in the crate's must-fail/."""
    file = 'file: ' + change[0][0][len(f'crates/{crate}/'):] + '\n'
    return file + ''.join(f'old: {old}\nnew: {new}\n' for _, old, new, _ in change)


def strays(name, change):
    """What is wrong with where a row says that it is tried."""
    crate, edit = name.split('/')
    path = os.path.join(ROOT, 'crates', crate, 'must-fail', edit + '.edit')
    if (change[0][3] == 'gate') != os.path.exists(path):
        return 'the gate has it, or the row says so, but not both'
    bare = lambda text: re.sub(r'(?m)^(old|new): +', r'\1: ', text).strip()
    if change[0][3] == 'gate' and bare(read(path)) != bare(edit_of(change, crate)):
        return 'its edit in must-fail/ differs'
    return None


def copy(below):
    """Copies the tracked files below a folder."""
    names = subprocess.run(['git', 'ls-files', '-z'], cwd=ROOT, capture_output=True, check=True).stdout.decode().split('\0')
    for name in filter(None, names):
        os.makedirs(os.path.dirname(os.path.join(below, name)), exist_ok=True)
        shutil.copy2(os.path.join(ROOT, name), os.path.join(below, name))


def list_all(changes):
    bad = 0
    for name, change in changes.items():
        with tempfile.TemporaryDirectory() as below:
            for path, *_ in change:
                if os.path.exists(os.path.join(ROOT, path)):
                    os.makedirs(os.path.dirname(os.path.join(below, path)), exist_ok=True)
                    shutil.copy2(os.path.join(ROOT, path), os.path.join(below, path))
            wrong = apply(below, change) or strays(name, change)
        if wrong:
            bad += 1
            print(f'{name}: {wrong}')
    print(f'{len(changes)} changes, {len(changes) - bad} apply')
    return bad != 0


def try_one(name, change):
    crate, edit = name.split('/')
    with tempfile.TemporaryDirectory() as below:
        copy(below)
        folder = os.path.join(below, 'crates', crate)
        if all(path.startswith(f'crates/{crate}/') for path, *_ in change):
            shutil.rmtree(os.path.join(folder, 'must-fail'), ignore_errors=True)
            os.makedirs(os.path.join(folder, 'must-fail'))
            with open(os.path.join(folder, 'must-fail', edit + '.edit'), 'w', encoding='utf8') as file:
                file.write(edit_of(change, crate))
            refused = subprocess.run(['rt', 'must-fail', crate], cwd=below).returncode == 0
        else:
            wrong = apply(below, change)
            if wrong:
                sys.exit(f'{name}: {wrong}')
            refused = subprocess.run(['rt', 'check'], cwd=folder).returncode != 0
    print(f'{name}: ' + ('refused' if refused else 'NOT refused'))
    return not refused


def main():
    changes = rows()
    if sys.argv[1:] == ['--list']:
        return list_all(changes)
    if len(sys.argv) != 2 or sys.argv[1] not in changes:
        sys.exit(__doc__ + f'\n{len(changes)} names stand in docs/WRONG_BODIES.md.')
    return try_one(sys.argv[1], changes[sys.argv[1]])


if __name__ == '__main__':
    sys.exit(main())
