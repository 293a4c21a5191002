#!/usr/bin/env python3
"""Whether the README's code and outputs are the repository's own.

    python3 tools/readme.py

Each indented block of README.md has to stand whole in a source, or line for line, in order, in a program's
stored output, among the verdicts that the reference reader gives of the samples, in the listing of the old
shelf as the reference imports it, in what it tells of a sample that it picks from, or in its answers to the
questions on a sample by an index; but for the block of commands, which starts with `./knot`.
"""
import glob
import re
import sys

sys.dont_write_bytecode = True
import asking
import importing
import picking
import reference as ref


def blocks(text):
    """The indented blocks, without their indentation; a blank line ends one."""
    for block in re.findall(r'(?:^    .*\n)+', text, re.M):
        yield re.sub(r'^    ', '', block, flags=re.M)


def in_order(block, lines):
    rest = iter(lines)
    return all(line in rest for line in block.splitlines())


def sample(name):
    with open(f'samples/{name}', 'rb') as file:
        return file.read()


def verdict(name):
    return ref.listing(sample(f'{name}.vol')).splitlines()[0]


def shelf():
    """The listing of the old shelf, once it is brought in."""
    records, old = sample('shelf.records'), sample('shelf.old')
    told = importing.import_old(records[:32], records[32:160], records[160:416], records[416:], old, 2 * len(old))
    return ref.listing(told[1]).splitlines()


def picked(t):
    """The listing of the sample with its moments of type t only, or why there is none."""
    file = sample('rhi2.vol')
    told = picking.pick(file, 1 << t - 1, len(file))
    return ref.listing(told).splitlines() if isinstance(told, bytes) else picking.refusal_words(told)


def asked(index):
    """The table of what an index gives for the questions on the sample, or why there is none."""
    questions = asking.questions_of('samples/questions.txt')
    lists = [[question[part] for question in questions] for part in range(3)]
    room = [0] * len(questions)
    told, kinds, hundredths = asking.answers(sample('rhi2.vol'), index, *lists, room, room)
    if told != len(questions):
        return asking.refusal_words(told)
    rows = [asking.COLUMNS, *((*question, kind, h) for question, kind, h in zip(questions, kinds, hundredths))]
    return ['\t'.join(map(str, row)) for row in rows]


def main():
    def read(path, errors='strict'):
        with open(path, encoding='utf-8', errors=errors) as file:
            return file.read()

    sources = [read(path) for path in glob.glob('crates/*/src/*.rt')]
    outputs = [read(path, 'replace').splitlines() for path in glob.glob('crates/*/stdout')]     # one has a volume's bytes
    outputs.append([verdict(name) for name in ('short', 'cloud', 'layers')])
    outputs.append(shelf())
    outputs += [picked(2), picked(4), asked(ref.index(sample('rhi2.vol'))), asked(b'')]
    strange = [block for block in blocks(read('README.md')) if not block.startswith('./knot')
               and not any(block in source for source in sources)
               and not any(in_order(block, lines) for lines in outputs)]
    for block in strange:
        print(block)
    sys.exit(bool(strange) and 'not found in the repository')


if __name__ == '__main__':
    main()
