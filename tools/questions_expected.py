#!/usr/bin/env python3
"""What the program `questions` prints: the answers of documents 01 and 02 on the volume `rich`, on shortened
and damaged copies of it, and on the volumes `layers` and `valley`.

    for v in rich layers valley; do python3 tools/volumes.py $v; done > crates/questions/stdin
    python3 tools/questions_expected.py > crates/questions/stdout

The stored output was worked out here, by the reference reader, which was written from the
documents' text alone; nothing in it comes from the program. A section for each copy:

    radial N: place, state, sequence, elevation number
    moments N: for each type, scale/offset/bin length/length/bytes of data/first/last byte
    gates N: for each type, what is told of gate 2**64 - 1/checksum of the answers for
        gates 0 to 19
    rows N: for each type, gates/last place of both rooms/checksum of all 16 places of both
    tallies C: for each type, the full circle's start/end/radials/spot blanks/seven counts
    wedges C T: the same for each wedge, named by its start and end; of `rich` and `valley` for more cuts and types

and after the whole volume's, each gate of some moments (kind, difference, scale, hundredths,
the float's bits or the class), some gates in words, rows in short rooms, and codes over a scale of 0. A refusal is `no`
and its number.
"""
import struct
import sys

sys.dont_write_bytecode = True
import reference as ref
import volumes

TYPES = [*range(9), *range(13, 17), 63, 64, 65]
ROOM, KIND_MARK, HUNDREDTHS_MARK = 16, 9, 7
PRIME = 65521


def is_refused(answer):
    return isinstance(answer, tuple) and answer[0] == 'refused'


def no(answer):
    return f'no{answer[1]}'


def join(*numbers):
    return '/'.join(map(str, numbers))


# --------------------------------------------------------------------------
# A checksum: each number more turns s into 31 s + x, modulo a prime. A signed number is its
# sign and its size.

def checksum(numbers):
    s = 0
    for x in numbers:
        s = (31 * s + x) % PRIME
    return s


def parts(z):
    return [int(z < 0), abs(z)]


# --------------------------------------------------------------------------
# Gates

def bits(value):
    return int.from_bytes(struct.pack('<d', value), 'little')


def told(g):
    """(kind, difference, scale, hundredths, the float's bits or the class): zeros for what a gate has not."""
    if g.kind == 5:
        return g.kind, g.numerator, g.denominator, g.hundredths, bits(g.value)
    return g.kind, 0, 0, 0, g.code or 0


def gate_numbers(answer):
    if is_refused(answer):
        return [answer[1]]
    kind, difference, scale, hundredths, pattern = told(answer)
    return [kind, *parts(difference), scale, *parts(hundredths), pattern]


def gates(r, n, t):
    numbers = [x for i in range(20) for x in gate_numbers(r.gate(n, t, i))]
    return join(no(r.gate(n, t, 2**64 - 1)), checksum(numbers))


def each_gate(r, n, t):
    """A line for each gate, to the first that is refused."""
    i, answer = 0, None
    while not is_refused(answer):
        answer = r.gate(n, t, i)
        if is_refused(answer):
            yield f'gate {n} {t} {i}: {no(answer)}'
        else:
            yield 'gate %d %d %d: %d %d %d %d %016x' % (n, t, i, *told(answer))
        i += 1


KIND_WORDS = ['no echo', 'range folded', 'the radar did not look', 'unknown', 'reserved', 'a value']
REFUSAL_WORDS = {30: 'nothing yet: no such whole radial', 31: 'no such moment in the radial',
                 32: 'no such gate in the moment'}


def in_words(r, n, t, i):
    answer = r.gate(n, t, i)
    if is_refused(answer):
        said = REFUSAL_WORDS[answer[1]]
    else:
        said = KIND_WORDS[answer.kind] if answer.kind < 6 else f'class {answer.code}'
    return f'in words {n} {t} {i}: {said}'


# --------------------------------------------------------------------------
# Rows: only the first places of each room are lent.

def row(r, n, t, kinds_lent=ROOM, hundredths_lent=ROOM):
    kinds, hundredths = [KIND_MARK] * kinds_lent, [HUNDREDTHS_MARK] * hundredths_lent
    answer = r.row(n, t, kinds, hundredths)
    kinds += [KIND_MARK] * (ROOM - kinds_lent)
    hundredths += [HUNDREDTHS_MARK] * (ROOM - hundredths_lent)
    numbers = [x for k, h in zip(kinds, hundredths) for x in (k, *parts(h))]
    shown = no(answer) if is_refused(answer) else answer
    return join(shown, kinds[-1], hundredths[-1], checksum(numbers))


def lent_row(r, n, t, kinds_lent, hundredths_lent):
    return f'row {n} {t} in {kinds_lent} {hundredths_lent}: ' + row(r, n, t, kinds_lent, hundredths_lent)


# --------------------------------------------------------------------------
# Radials, moments, tallies

def radial(r, n):
    answer = r.radial(n)
    if is_refused(answer):
        return f'{no(answer)} {answer[2]}'
    header = ref.unpack('radial', answer[0])
    return f"{answer[1]} {header['state']} {header['sequence']} {header['elevation number']}"


def moment(r, n, t):
    answer = r.moment(n, t)
    if is_refused(answer):
        return join(no(answer), 0)                      # "refused, that part is empty"
    header, data = ref.unpack('moment', answer[0]), answer[2]
    return join(header['scale'], header['offset'], header['bin length'], header['length'],
                len(data), data[0], data[-1])


def tally(r, cut, t, start=0, end=0):
    answer = r.tally(cut, t, start, end)
    if is_refused(answer):
        return no(answer)
    return join(answer.start, answer.end, answer.radials, answer.blanks, *answer.kinds)


# Wedges that start at, end at and straddle 0 and 12.34; a quarter, its rest, and next to it; equal ends; out of range.
WEDGES = [(0, 0), (0, 1), (35999, 1), (35999, 0), (1, 0), (0, 35999), (1, 35999), (1233, 1234), (1234, 1235), (1234, 1233),
          (1235, 1233), (9000, 18000), (18000, 9000), (9001, 18001), (1234, 1234), (35999, 35999), (36000, 0), (0, 36000),
          (36000, 36000), (2**32 - 1, 0)]


def wedges(r, cut, t):
    return f'wedges {cut} {t}:' + ''.join(f' {a}-{b}={tally(r, cut, t, a, b)}' for a, b in WEDGES)


# --------------------------------------------------------------------------

def lines(name, question, r, end):
    for n in range(end):
        yield f'{name} {n}:' + ''.join(f' {t}={question(r, n, t)}' for t in TYPES)


def section(label, data):
    r = ref.read(data)
    end = min(len(r.radials) + 2, 10)
    yield f'{label}: bytes {len(data)}, whole radials {len(r.radials)}'
    for n in range(end):
        yield f'radial {n}: {radial(r, n)}'
    yield from lines('moments', moment, r, end)
    yield from lines('gates', gates, r, end)
    yield from lines('rows', row, r, end)
    yield from lines('tallies', tally, r, 5)
    yield wedges(r, 1, 1)


def whole(data):
    r = ref.read(data)
    yield from section('whole', data)
    for n, t in ((1, 1), (1, 2), (1, 3), (4, 64), (4, 63), (8, 4), (7, 13), (7, 14), (8, 15), (8, 16),
                 (0, 1), (9, 1), (1, 4)):
        yield from each_gate(r, n, t)
    for n, t, i in *((1, 1, i) for i in range(6)), (7, 14, 5), (8, 15, 3), (8, 15, 7), (1, 1, 19), (1, 4, 0):
        yield in_words(r, n, t, i)
    yield in_words(ref.read(data[:1200]), 1, 1, 0)
    for asked in (1, 2, 13, 13), (1, 2, 12, 13), (1, 2, 13, 12), (1, 2, 0, 0), (9, 2, 0, 0), (1, 4, 0, 0):
        yield lent_row(r, *asked)
    for cut, t in (1, 2), (3, 14), (4, 1):
        yield wedges(r, cut, t)
    for code in 65, 66, 67, 2:
        yield 'code %d less 66 over 0: %d %d %d %d %016x' % (code, *told(ref.gate_of(code, 0, 66, 2)))


def copies(data):
    """(label, bytes) of each copy; the places of blocks are taken from the reading."""
    r = ref.read(data)
    cut_places = [b.place for b in r.blocks if b.kind == 'cut']

    def header(n, t):
        return r.find(n, t).header_place

    def damaged(place, value):
        return data[:place] + bytes([value]) + data[place + 1:]

    yield 'one byte short', data[:-1]
    yield 'cut in radial 3', data[:1600]
    yield 'cut in the second cut block', data[:800]
    yield 'empty', b''
    yield 'bad state in radial 7', damaged(r.radials[6].place, 9)
    yield 'bad type in radial 3', damaged(header(3, 3), 2)
    yield 'bad magic', damaged(0, 0)
    yield 'bad process mode in cut 3', damaged(cut_places[2], 0)
    yield 'another scale in radial 1', damaged(header(1, 1) + ref.PLACE['moment', 'scale'], 7)


def main():
    data = volumes.rich()
    for line in whole(data):
        print(line)
    for label, copy in *copies(data), ('six layers', volumes.named('layers')):
        for line in section(label, copy):
            print(line)
    r = ref.read(volumes.named('valley'))
    for cut, t in (1, 2), (2, 2), (1, 4), (1, 3), (0, 2), (3, 2):
        print(wedges(r, cut, t))


if __name__ == '__main__':
    main()
