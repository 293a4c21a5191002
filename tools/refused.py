#!/usr/bin/env python3
"""Which must-fail edit refuses which public function.

    python3 tools/refused.py DIR [CRATE ..]

Run from the project's root: it makes each edit in a copy of the repository under DIR, checks the crate there, and prints the
table of docs/EDITS.md, or the lines of these crates alone. A public function counts as refused by an edit where the check says
that the function itself is not proved, or that a private function which it calls is not. The exit status is 1 where an edit
cannot be made or is not refused, and where a public function of a library that promises something has no edit; those of
`printing` that write promise nothing (docs/EXCEPTIONS.md). An edit takes as long as its crate's check after a change.
"""
import glob
import os
import re
import subprocess
import sys

sys.dont_write_bytecode = True
from slips import copied

LINE = re.compile(r'^fn (\S+): (?:not proved|no proof)(?:: it calls `([^`]+)`)?', re.M)


def public():
    """Each public function of a library that has a promise, by the name that a log gives it."""
    names = {}
    for path in sorted(glob.glob('crates/*/src/*.rt')):
        crate, stem = path.split('/')[1], path.split('/')[3][:-3]
        if glob.glob(f'crates/{crate}/src/main.rt'):
            continue
        module = crate + '::' + ('' if stem == 'lib' else stem + '::')
        inside, name = '', None
        for line in open(path, encoding='utf-8'):
            if found := re.match(r'impl (\w+)', line):
                inside = found[1] + '::'
            elif line.startswith('}'):
                inside = ''
            elif found := re.match(r'\s*pub fn (\w+)', line):
                name = module + inside + found[1]
            elif name and re.match(r'\s*ensures', line):
                names[name] = []
            if line.rstrip().endswith('{'):
                name = None
    return names


def refused(log, names):
    """The public functions that a log refuses, by themselves or by a private function that they call."""
    calls = dict(LINE.findall(log))

    def own(name):
        below = calls[name]
        return not below or (below in calls and below not in names and own(below))

    return [name for name in calls if name in names and own(name)]


def edited(folder, edit):
    """The texts of the files that an edit changes, with the change made, by their paths; nothing where it cannot be made."""
    path, old, texts = None, None, {}
    for line in open(edit, encoding='utf-8').read().split('\n'):
        if line.startswith('file: '):
            path = os.path.join(folder, line[6:].strip())
            if path not in texts:
                with open(path, encoding='utf-8') as file:
                    texts[path] = file.read()
        elif line.startswith('old: '):
            old = line[5:]
        elif line.startswith('new:'):
            if texts[path].count(old) != 1:
                return None
            texts[path] = texts[path].replace(old, line[4:].removeprefix(' '))
    return texts


def written(texts):
    for path, text in texts.items():
        with open(path, 'w', encoding='utf-8') as file:
            file.write(text)


def checked(folder):
    run = subprocess.run(['rt', 'check'], cwd=folder, stdout=subprocess.PIPE, stderr=subprocess.STDOUT, text=True)
    return run.returncode, run.stdout


def tried(folder, edit):
    """What the check of a crate with an edit says, or nothing where the edit cannot be made or is not refused."""
    texts = edited(folder, edit)
    if not texts:
        return None
    before = {path: open(path, encoding='utf-8').read() for path in texts}
    written(texts)
    status, log = checked(folder)
    written(before)
    return log if status == 1 and re.search('^logic=not-proved', log, re.M) else None


def main():
    copy, crates = sys.argv[1], sys.argv[2:] or sorted(os.listdir('crates'))
    copied(copy)
    names, strange = {name: [] for name in public() if name.split('::')[0] in crates}, []
    print('# Must-fail edits\n')
    print('Each edit of `crates/C/must-fail`, what is wrong in it, and the public functions that the check then refuses, by')
    print('themselves or by a private function of theirs. Written by `tools/refused.py`.\n')
    print('| edit | what is wrong | refuses |\n|---|---|---|')
    for crate in crates:
        folder, paths = os.path.join(copy, 'crates', crate), sorted(glob.glob(f'crates/{crate}/must-fail/*.edit'))
        if paths and checked(folder)[0]:
            sys.exit(f'{crate} is not proved as it stands')
        for path in paths:
            edit = path.split('/')[3][:-5]
            wrong = open(path, encoding='utf-8').readline()[2:].strip()
            log = tried(folder, path)
            strange += [f'cannot be made, or is not refused: {crate}/{edit}'] if log is None else []
            which = refused(log or '', names)
            for name in which:
                names[name].append(edit)
            print(f'| `{crate}/{edit}` | {wrong} | {", ".join(f"`{name}`" for name in which)} |', flush=True)
    bare = [name for name, edits in names.items() if not edits]
    print(f'\n{len(names)} public functions, {len(names) - len(bare)} of them refused by an edit at least.')
    for told in strange + [f'none refuses {name}' for name in bare]:
        print(told, file=sys.stderr)
    sys.exit(bool(strange or bare))


main()
