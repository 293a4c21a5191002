#!/usr/bin/env python3
"""What the program `tally` reads and prints: a wedge over north of the volume `valley`.

    python3 tools/tally_expected.py stdin > crates/tally/stdin
    python3 tools/tally_expected.py stdout > crates/tally/stdout

The output was worked out by the reference reader; nothing in it comes from the program.
"""
import struct
import sys

sys.dont_write_bytecode = True
import reference as ref
import volumes

CUT, TYPE, START, END = 1, 2, 35999, 1234
NAMES = ['verdict', 'start', 'end', 'radials', 'spot blanks', 'below threshold', 'range folded', 'not scanned', 'unknown',
         'reserved', 'values', 'classes']


def table(data):
    r = ref.read(data)
    t = r.tally(CUT, TYPE, START, END)
    verdict = r.verdict if isinstance(r.verdict, str) else ' '.join(map(str, r.verdict))
    return [NAMES, [verdict, t.start, t.end, t.radials, t.blanks, *t.kinds]]


def main(args):
    data = volumes.named('valley')
    if args == ['stdin']:
        sys.stdout.buffer.write(struct.pack('<4I', CUT, TYPE, START, END) + data)
    elif args == ['stdout']:
        for line in table(data):
            print(*line, sep='\t')
    else:
        sys.exit('usage: tally_expected.py stdin|stdout')


if __name__ == '__main__':
    main(sys.argv[1:])
