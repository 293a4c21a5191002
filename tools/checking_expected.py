#!/usr/bin/env python3
"""What the program `checking` reads and prints: rows that somebody else decoded, checked against a volume's
own (document 02, #112).

    python3 tools/checking_expected.py stdin > crates/checking/stdin
    python3 tools/checking_expected.py stdout > crates/checking/stdout
    python3 tools/checking_expected.py names       each row's number and what it is, a line for each of the output
    python3 tools/checking_expected.py rich.kinds > samples/rich.kinds      and so rich.hundredths and folded.kinds

Standard input is one volume after the other: how many bytes it has, how many rows follow it, its bytes,
then each row: radial, type, how many kinds, how many hundredths, the kinds, and the hundredths, which
are signed. A kind has one byte, every other number four, little-endian. A line for each row: `same`, or
`differs` and the gate; for a refusal two, the second in words.

Each row is given with what is to be told of it by the way it was made, and the reference reader has to
tell the same. The rows themselves are worked out from the codes that a volume is built of, in decimal
arithmetic, and not read from its bytes. Nothing in the output comes from the program.
"""
import decimal
import itertools
import math
import struct
import sys
from collections import namedtuple
from fractions import Fraction

sys.dont_write_bytecode = True
import reference as ref
import volumes
from volumes import cut, mask, moment, radial, words

SAME, NO_RADIAL, NO_MOMENT = 'same', ref.refused(30), ref.refused(31)
IN_WORDS = {30: 'nothing yet: no such whole radial', 31: 'no such moment in the radial'}
LEAST, MOST = -2**31, 2**31 - 1         # of hundredths, in four bytes
FAR = 2**32 - 1                         # of a radial or a type
UNCHANGED = 'the row of the unchanged volume'

Case = namedtuple('Case', 'radial type kinds hundredths name told')
Codes = namedtuple('Codes', 'type codes scale offset')


def differs(gate):
    return 'differs', gate


def case(asked, row, name, told):
    return Case(*asked, *row, name, told)


# --------------------------------------------------------------------------
# Rows, each a list of kinds and one of hundredths, from codes.

def moments_of(spec):
    """(radial, type) -> the codes of that moment, as the volume was specified."""
    out, sequence = {}, 0
    for c in spec['cuts']:
        for r in c['radials']:
            sequence += 1
            for m in r['moments']:
                fields = {**volumes.DEFAULTS['moment'], **m['fields']}
                t, data = fields['type'], m['data']
                codes = from_words(data) if ref.bit(c['fields']['size mask'], t) else list(data)
                out[sequence, t] = Codes(t, codes, fields['scale'], fields['offset'])
    return out


def from_words(data, order='<'):
    return list(struct.unpack(f'{order}{len(data) // 2}H', data))


def kinds_of(m):
    other = 6 if m.type in (14, 15) else 5
    return [code if 0 <= code < 5 else other for code in m.codes]


def formula(m, rounding=decimal.ROUND_HALF_UP):
    """The hundredths of all codes, as if each were a value; this rounding takes halves away from zero."""
    exact = (decimal.Decimal(100 * (code - m.offset)) / m.scale for code in m.codes)
    return [int(x.to_integral_value(rounding)) for x in exact]


def decoded(m, rounding=decimal.ROUND_HALF_UP):
    kinds = kinds_of(m)
    return kinds, [h if k == 5 else 0 for k, h in zip(kinds, formula(m, rounding))]


def rows_of(spec):
    return {asked: decoded(m) for asked, m in moments_of(spec).items()}


# Some rows of `rich`, and those of `halves`, worked out by hand from document 01.
RICH_BY_HAND = {
    (1, 1): ([0, 1, 2, 3, 4] + [5] * 6, [0] * 5 + [-3050, 0, 3150, 3200, 3250, 9450]),
    (1, 2): ([0, 1, 2, 3, 4] + [5] * 8,
             [0] * 5 + [-3276300, -3251200, -3250700, -3225600, -3174400, -100, 0, 3276700]),
    (1, 3): ([5] * 6 + [4, 3, 2, 1, 0], [781, 6, 0, -6, -400, -781] + [0] * 5),
    (4, 63): ([5, 5, 5, 2, 0], [-13, 0, 13, 0, 0]),
    (4, 64): ([5, 5, 5, 4, 3, 2, 1, 0], [200, 50, 1] + [0] * 5),
    (7, 14): ([0, 1, 2, 3, 4] + [6] * 6, [0] * 11),
    (8, 15): ([0, 1, 2, 3, 4] + [6] * 4, [0] * 9),
    (8, 16): ([3, 5, 5], [0, -3050, 11700]),
}
HALVES_BY_HAND = {
    (1, 2): ([5] * 10, [0, 100, -6, 6, -19, 19, -38, 38, -13, 13]),
    (2, 3): ([5] * 10, [0, -1, -1, 1, -2, 2, -3, 3, -15, 15]),
    (2, 4): ([5] * 2, [500, 6553500]),
}
ONE_BYTE, TWO_BYTE, CLASS, TWO_BYTE_CLASS = ROWS = (1, 1), (1, 2), (7, 14), (8, 15)     # of `rich`


def changed(row, gate, kind=None, hundredths=None):
    """The row with another entry at a gate, in one list or in both."""
    out = [list(entries) for entries in row]
    for entries, entry in zip(out, (kind, hundredths)):
        if entry is not None:
            assert entries[gate] != entry
            entries[gate] = entry
    return out


def wrong(rows, asked, gate, name='', **entry):
    """The row with one wrong entry, which is told."""
    said = ', '.join(f'{what} {x}' for what, x in entry.items())
    return case(asked, changed(rows[asked], gate, **entry), f'gate {gate}, {said}{name and ", " + name}', differs(gate))


def resized(row, kinds, hundredths, repeat=False):
    """The row with other lengths. What is added is a list's last entry again, or zeros."""
    return [(entries + [entries[-1] if repeat else 0] * size)[:size]
            for entries, size in zip(row, (kinds, hundredths))]


def counts(kinds, hundredths):
    return f'{kinds} kinds, {hundredths} hundredths'


# --------------------------------------------------------------------------
# Entries of `rich`.

def exact(rows):
    for asked, row in rows.items():
        yield case(asked, row, 'exact', SAME)


def one_wrong_entry(rows):
    """A kind that there is not and right hundredths, and a right kind and hundredths off by one."""
    for asked in ROWS:
        gates = len(rows[asked][0])
        for gate in 0, gates // 2, gates - 1:
            hundredths = rows[asked][1][gate]
            yield wrong(rows, asked, gate, kind=7)
            yield wrong(rows, asked, gate, 'one more', hundredths=hundredths + 1)
            yield wrong(rows, asked, gate, 'one less', hundredths=hundredths - 1)


def wrong_kinds(rows):
    """Kinds taken for each other. The hundredths are right, and 0 for both where the gate has no value."""
    for asked, gates, kinds in (
            (ONE_BYTE, range(5), range(5)), (ONE_BYTE, [5], range(7)), (CLASS, [5], range(7)),
            (TWO_BYTE, [0, 5, 12], [2, 6]), (TWO_BYTE_CLASS, [0, 5, 8], [2, 5])):
        for gate, kind in itertools.product(gates, kinds):
            if kind != rows[asked][0][gate]:
                yield wrong(rows, asked, gate, kind=kind)
    for gate in 0, 5, 10:
        yield wrong(rows, ONE_BYTE, gate, kind=255)
    for kind in 5 + 8, 5 + 128:
        yield wrong(rows, ONE_BYTE, 7, '5 and a bit more', kind=kind)
    yield wrong(rows, ONE_BYTE, 6, 'the value 0 taken for no echo', kind=0)
    yield wrong(rows, TWO_BYTE, 11, 'the value 0 taken for not scanned', kind=2)


def turned(number, bit):
    """A number of four bytes with one of its bits turned."""
    return struct.unpack('<i', struct.pack('<I', number % 2**32 ^ 1 << bit))[0]


def wrong_hundredths(rows):
    for asked, gate in (ONE_BYTE, 5), (ONE_BYTE, 10), (TWO_BYTE, 5), (TWO_BYTE, 12), ((4, 63), 0), ((4, 63), 2):
        yield wrong(rows, asked, gate, 'the opposite sign', hundredths=-rows[asked][1][gate])
    for asked, gate in (ONE_BYTE, 0), (ONE_BYTE, 5), (TWO_BYTE, 12), (CLASS, 5), (TWO_BYTE_CLASS, 8):
        for hundredths in LEAST, MOST:
            yield wrong(rows, asked, gate, 'an extreme', hundredths=hundredths)
    for asked, gate in (ONE_BYTE, 10), (TWO_BYTE, 5):
        for bit in 8, 16, 24, 31:
            yield wrong(rows, asked, gate, f'bit {bit} turned', hundredths=turned(rows[asked][1][gate], bit))


def by_the_formula(rows, moments):
    """The hundredths of a gate that has no value are 0, whatever the formula gives for its code."""
    for gate, hundredths in enumerate(formula(moments[ONE_BYTE])[:5]):
        yield wrong(rows, ONE_BYTE, gate, 'by the formula', hundredths=hundredths)
    row = rows[4, 64][0], formula(moments[4, 64])
    yield case((4, 64), row, 'special codes by the formula, which gives 0 for 4 / 32768', SAME)
    for asked in CLASS, TWO_BYTE_CLASS:
        m = moments[asked]
        for gate in 5, len(m.codes) - 1:
            yield wrong(rows, asked, gate, 'the raw code', hundredths=m.codes[gate])
        yield wrong(rows, asked, 6, 'by the formula', hundredths=formula(m)[6])
    kinds, hundredths = rows[CLASS][0], formula(moments[CLASS])
    yield case(CLASS, (kinds, hundredths), 'all by the formula', differs(0))
    yield case(CLASS, (kinds, [0] * 5 + hundredths[5:]), 'classes by the formula, which gives 0 for code 5', differs(6))


# --------------------------------------------------------------------------
# Whole rows, decoded with a slip.

def width_slips(moments):
    """Two-byte codes 0 to 5, 256, 261, 512, 1024, 32767, 32768, 65535, and 0 to 5, 256, 300, 65535; one-byte
    codes 0 to 5, 66, 129, 130, 131, 255."""
    for asked in TWO_BYTE, TWO_BYTE_CLASS:
        m = moments[asked]
        data = words(*m.codes)
        for slip, codes, gate in (
                ('read as one-byte gates', list(data), 1), ('read high byte first', from_words(data, '>'), 1),
                ('read a byte late', from_words(data[1:] + b'\0'), 0), ('low bytes alone', list(data[::2]), 6)):
            yield case(asked, decoded(m._replace(codes=codes)), slip, differs(gate))
    m = moments[TWO_BYTE]
    low = m._replace(codes=[code - 65536 * (code > 32767) for code in m.codes])
    yield case(TWO_BYTE, decoded(low), 'codes signed', differs(11))
    m = moments[ONE_BYTE]
    low = m._replace(codes=[code - 256 * (code > 127) for code in m.codes])
    yield case(ONE_BYTE, decoded(low), 'codes signed', differs(7))
    pairs = m._replace(codes=from_words(bytes(m.codes[:10])))
    yield case(ONE_BYTE, decoded(pairs), 'read as two-byte gates', differs(0))


def value_slips(rows, moments):
    """With scale 2 and offset 66. The first value is at gate 5."""
    m, (kinds, own) = moments[ONE_BYTE], rows[ONE_BYTE]
    for slip, hundredths in (
            ('without the offset', decoded(m._replace(offset=0))[1]),
            ('without the scale', decoded(m._replace(scale=1))[1]),
            ('scale and offset changed over', decoded(m._replace(scale=66, offset=2))[1]),
            ('scale and offset of another moment', decoded(m._replace(scale=16, offset=130))[1]),
            ('tenths', [h // 10 for h in own]), ('offset less code', [-h for h in own])):
        yield case(ONE_BYTE, (kinds, hundredths), slip, differs(5))
    yield case(ONE_BYTE, (kinds, formula(m)), 'all by the formula', differs(0))
    yield case(ONE_BYTE, [e[:1] + e[:-1] for e in (kinds, own)], 'a gate late', differs(1))
    yield case(ONE_BYTE, [e[1:] + e[-1:] for e in (kinds, own)], 'a gate early', differs(0))


def kind_slips(rows, moments):
    """Codes folded into one, and classes where there are none."""
    for asked, name, taken, gate in (
            (ONE_BYTE, '1, 2 and 3 taken for 0', {1: 0, 2: 0, 3: 0}, 1), (ONE_BYTE, 'values taken for 0', {5: 0}, 5),
            (TWO_BYTE, '2 taken for 0', {2: 0}, 2), (TWO_BYTE, '0 and 2 changed over', {0: 2, 2: 0}, 0),
            (TWO_BYTE_CLASS, 'special codes all taken for 0', dict.fromkeys(range(5), 0), 1),
            ((7, 13), 'values taken for classes', {5: 6}, 5), ((8, 16), 'values taken for classes', {5: 6}, 1),
            (CLASS, 'classes taken for values 0', {6: 5}, 5), (TWO_BYTE_CLASS, 'classes taken for values 0', {6: 5}, 5),
            ((8, 14), 'classes taken for 4', {6: 4}, 1)):
        kinds, hundredths = rows[asked]
        yield case(asked, ([taken.get(k, k) for k in kinds], hundredths), name, differs(gate))
    for asked in CLASS, TWO_BYTE_CLASS:
        yield case(asked, decoded(moments[asked]._replace(type=13)), 'decoded as a measurement', differs(5))
    kinds, zeros = rows[CLASS]
    yield case(CLASS, (kinds, kinds), 'kinds in both lists', differs(1))
    yield case(CLASS, (zeros, zeros), 'hundredths in both lists', differs(1))


# --------------------------------------------------------------------------
# Lengths of the lists, and two differences.

def sizes(own):
    """Each list on its own, and both together: empty, of one entry, one short, one long and much longer."""
    for size in 0, 1, own - 1, own + 1, own + 256:
        yield from ((size, own), (own, size), (size, size))


def lengths(rows):
    """Where a list is longer than the row, its further entries are zeros."""
    for asked in ONE_BYTE, CLASS:
        own = len(rows[asked][0])
        for kinds, hundredths in sizes(own):
            yield case(asked, resized(rows[asked], kinds, hundredths), f'row of {own}: {counts(kinds, hundredths)}',
                       differs(min(own, kinds, hundredths)))
    for kinds, hundredths in itertools.product(range(3), range(3)):         # the only gate is 0 in both lists
        told = SAME if kinds == hundredths == 1 else differs(min(1, kinds, hundredths))
        yield case((6, 3), resized(rows[6, 3], kinds, hundredths), f'row of 1: {counts(kinds, hundredths)}', told)


def longer(rows):
    """Further entries that look like more of the row."""
    for asked, kinds, hundredths in (
            (ONE_BYTE, 1, 0), (ONE_BYTE, 0, 1), (ONE_BYTE, 1, 1), (ONE_BYTE, 99, 99),
            (TWO_BYTE, 1, 1), (TWO_BYTE, 13, 13), (TWO_BYTE_CLASS, 1, 1), (TWO_BYTE_CLASS, 99, 0)):
        own = len(rows[asked][0])
        yield case(asked, resized(rows[asked], own + kinds, own + hundredths, repeat=True),
                   f'row of {own}, the last entries again: {counts(kinds, hundredths)} more', differs(own))
    for asked, behind, name in (
            (ONE_BYTE, TWO_BYTE, 'the row of the next moment behind it'), ((1, 3), (1, 3), 'twice'),
            ((4, 63), (5, 63), 'the row of the next radial behind it')):
        row = [a + b for a, b in zip(rows[asked], rows[behind])]
        yield case(asked, row, name, differs(len(rows[asked][0])))


def two_differences(rows):
    """The gates of a wrong kind and of wrong hundredths, or None, the lengths of both lists, and what is told."""
    for kind, value, kinds, hundredths, gate in (
            (2, 7, 11, 11, 2), (7, 2, 11, 11, 2), (5, 5, 11, 11, 5), (0, 10, 11, 11, 0), (10, 0, 11, 11, 0),
            (9, 10, 11, 11, 9), (10, 9, 11, 11, 9),
            (7, None, 11, 3, 3), (None, 7, 3, 11, 3),               # behind the end of the other list
            (2, None, 11, 3, 2), (None, 2, 3, 11, 2),               # before it
            (3, None, 11, 3, 3), (None, 3, 3, 11, 3),               # at it
            (4, None, 5, 11, 4), (None, 4, 11, 5, 4),               # the last entry of a short list
            (None, 6, 5, 8, 5), (6, None, 8, 5, 5), (4, 6, 5, 8, 4), (3, 6, 8, 7, 3),
            (10, None, 12, 12, 10), (None, 10, 12, 11, 10), (10, None, 11, 12, 10),
            (0, None, 1, 1, 0), (None, 0, 0, 1, 0), (0, None, 300, 0, 0), (5, 10, 300, 11, 5),
            (None, None, 5, 8, 5), (None, None, 12, 1, 1), (None, None, 10, 12, 10), (None, None, 300, 12, 11)):
        row, said = resized(rows[ONE_BYTE], kinds, hundredths), [counts(kinds, hundredths)]
        if kind is not None:
            row, said = changed(row, kind, kind=6), said + [f'wrong kind at {kind}']
        if value is not None:
            row, said = changed(row, value, hundredths=-7), said + [f'wrong hundredths at {value}']
        yield case(ONE_BYTE, row, f'row of 11: {", ".join(said)}', differs(gate))


# --------------------------------------------------------------------------
# What is asked for.

def refusals(rows):
    """30 before 31, and both before a look at the lists."""
    row = rows[ONE_BYTE]
    for n in 0, 9, 257, 65537, 2**31 + 1, FAR:
        yield case((n, 1), row, 'the row of radial 1', NO_RADIAL)
    for t in 0, 65, 31, 257, 65537, FAR:
        yield case((1, t), row, 'the row of type 1', NO_MOMENT)
    yield case((1, 5), row, 'a type which the mask has, and no radial', NO_MOMENT)
    for asked, of, name in (
            ((2, 2), (1, 2), 'a type which radials 1 and 3 have'), ((1, 64), (4, 64), 'a type of another cut'),
            ((8, 1), (1, 1), 'a type of another cut'), ((6, 4), (7, 4), 'a type which the next radial has'),
            ((8, 13), (7, 13), 'a type which the radial before has')):
        yield case(asked, rows[of], name, NO_MOMENT)
    for asked, told in ((0, 0), NO_RADIAL), ((9, 31), NO_RADIAL), ((FAR, FAR), NO_RADIAL), ((0, 1), NO_RADIAL), (
            (8, 31), NO_MOMENT), ((1, 0), NO_MOMENT):
        yield case(asked, ([], []), 'both lists empty', told)
    for name, lists in ('300 entries', resized(row, 300, 300)), ('no kinds', ([], row[1])):
        yield case((9, 1), lists, name, NO_RADIAL)
        yield case((1, 31), lists, name, NO_MOMENT)


def other_rows(rows):
    for asked, of, told in (
            ((1, 2), (2, 1), differs(5)), ((2, 1), (1, 2), differs(5)),     # radial and type changed over
            ((1, 1), (1, 3), differs(0)), ((7, 13), (7, 14), differs(5)), ((7, 14), (8, 14), differs(0)),
            ((3, 1), (2, 1), SAME)):                                        # which has the same codes
        yield case(asked, rows[of], f'the row of radial {of[0]}, type {of[1]}', told)


def other_radials_of_layers(rows):
    """Type 2 of cut k, from 0, has the codes k, 2, 5 + k and 200 in radials 2k + 1 and 2k + 2 and in the last; type 4,
    in radials 4, 8 and 12, has 1 and 258 + k."""
    for n, of, t, told in (
            (1, 3, 2, differs(0)), (2, 1, 2, SAME), (11, 9, 2, differs(0)), (13, 11, 2, SAME), (4, 4, 4, SAME),
            (4, 8, 4, differs(1)), (3, 4, 4, NO_MOMENT), (13, 12, 4, NO_MOMENT), (14, 13, 2, NO_RADIAL)):
        yield case((n, t), rows[of, t], f'the row of radial {of}', told)
    yield case((4, 4), rows[4, 2], 'the row of type 2', differs(1))
    yield case((4, 2), rows[4, 4], 'the row of type 4', differs(1))


def other_radials_of_valley(rows):
    """Radials 5 and 10 have code 1 five times and ten times, and then a value."""
    for n, of, told in (5, 10, differs(5)), (10, 5, differs(5)), (10, 10, SAME), (24, 12, differs(0)), (
            24, 24, SAME), (25, 24, NO_RADIAL):
        yield case((n, 2), rows[of, 2], f'the row of radial {of}', told)


# --------------------------------------------------------------------------
# Bytes that look alike, and roundings.

def alike_spec():
    """Two-byte gates whose bytes are equal, all of them or the first two gates."""
    equal, first_two = moment(2, words(0, 0, 0)), moment(3, words(0x0202, 0x4242, 0x0102))
    return volumes.volume([cut([radial(equal, first_two)] * 2, mask(2, 3), mask(2, 3))])


def alike(rows, moments):
    for t, gate in (2, 3), (3, 0):                      # the row of type 2 has three gates
        m = moments[1, t]
        yield case((1, t), decoded(m._replace(codes=list(words(*m.codes)))), 'read as one-byte gates', differs(gate))
    m = moments[2, 3]
    yield case((2, 3), decoded(m._replace(codes=from_words(words(*m.codes), '>'))), 'read high byte first', differs(2))


def halves_spec():
    """In hundredths: 0, 100, -6.25, 6.25, -18.75, 18.75, -37.5, 37.5, -12.5, 12.5 as type 2, and 0, -1, -0.5, 0.5,
    -1.5, 1.5, -2.5, 2.5, -14.5, 14.5 as type 3; as type 4 the largest that there is."""
    quarters = moment(2, [100, 116, 99, 101, 97, 103, 94, 106, 98, 102], scale=16, offset=100)
    halves = moment(3, words(1000, 998, 999, 1001, 997, 1003, 995, 1005, 971, 1029), scale=200, offset=1000)
    largest = moment(4, words(5, 65535), scale=1, offset=0)
    return volumes.volume([cut([radial(quarters), radial(halves, largest)], mask(2, 3, 4), mask(3, 4))])


def half_up(m):
    return [math.floor(Fraction(100 * (code - m.offset), m.scale) + Fraction(1, 2)) for code in m.codes]


def half_down(m):
    return [math.ceil(Fraction(100 * (code - m.offset), m.scale) - Fraction(1, 2)) for code in m.codes]


def by_the_float(m):
    """100 times the float, to nearest: of 29 / 200 it is below 14.5."""
    floats = (decimal.Decimal((code - m.offset) / m.scale * 100) for code in m.codes)
    return [int(x.to_integral_value(decimal.ROUND_HALF_UP)) for x in floats]


def roundings(rows, moments):
    """What is told of types 2 and 3, each rounded in another way throughout. All of type 3 are whole or halves, so
    it is not rounded to nearest as well where that is the same."""
    for name, rounding, *told in (
            ('down', decimal.ROUND_FLOOR, differs(2), differs(3)),
            ('up', decimal.ROUND_CEILING, differs(3), differs(2)),
            ('toward zero', decimal.ROUND_DOWN, differs(4), differs(2)),
            ('away from zero', decimal.ROUND_UP, differs(2), SAME),
            ('to nearest, half to even', decimal.ROUND_HALF_EVEN, differs(8), differs(2)),
            ('to nearest, half toward zero', decimal.ROUND_HALF_DOWN, differs(6)),
            ('to nearest, half up', half_up, differs(6)),
            ('to nearest, half down', half_down, differs(7)),
            ('from the float', by_the_float, SAME, differs(8))):
        for asked, answer in zip([(1, 2), (2, 3)], told):
            m = moments[asked]
            hundredths = rounding(m) if callable(rounding) else formula(m, rounding)
            yield case(asked, (rows[asked][0], hundredths), f'rounded {name}', answer)
    for gate, hundredths in (8, -12), (9, 12):
        yield wrong(rows, (1, 2), gate, 'one half alone', hundredths=hundredths)
    yield wrong(rows, (2, 4), 1, hundredths=6553499)
    yield wrong(rows, (2, 4), 1, 'the lower two bytes alone', hundredths=6553500 % 65536)


# --------------------------------------------------------------------------
# Volumes that are not complete, and damaged ones.

def put(data, place, value):
    assert data[place] != value
    return data[:place] + bytes([value]) + data[place + 1:]


def copies_of_small():
    """(what was done, bytes, what is told of the exact row of radial 1, and in some copies of radial 2). The radials
    stand at 672 and 772, a moment's header 64 bytes behind, its data 96."""
    data = volumes.small()
    yield 'whole', data, SAME, SAME
    yield 'a byte added', data + b'\0', SAME, SAME
    for end, what in (871, 'a byte of radial 2 missing'), (868, 'without the data of radial 2'), (772, 'to radial 1'):
        yield what, data[:end], SAME, NO_RADIAL
    for end, what in (771, 'a byte of radial 1 missing'), (768, 'without the data of radial 1'), (672, 'to the cut'), (
            671, 'a byte of the cut missing'), (31, '31 bytes'), (0, 'no byte'):
        yield what, data[:end], NO_RADIAL
    for place, what in (0, 'magic'), (416, 'process mode'), (500, 'moments mask'), (672, 'state of radial 1'):
        yield f'bad {what}', put(data, place, 0), NO_RADIAL
    yield 'bad scale in radial 1', put(data, 740, 0), NO_RADIAL, NO_RADIAL
    for place, what in (772, 'state'), (780, 'sequence'), (836, 'type'), (852, 'length'):
        yield f'bad {what} in radial 2', put(data, place, 0), SAME, NO_RADIAL
    two = put(put(data, 772 + 36, 66), 772 + 40, 2)     # a length of data for two moments
    yield 'two moments of one type in radial 2', two, SAME, NO_RADIAL
    yield 'another scale in radial 1', put(data, 740, 4), differs(2)
    yield 'another last code in radial 1', put(data, 771, 67), differs(3)
    yield 'another first code in radial 1', put(data, 768, 2), differs(0)


def copies_of_rich():
    """(what was done, bytes, what is told of the exact rows of a radial and type)."""
    data = volumes.rich()
    r = ref.read(data)
    end = r.radials[0].end
    yield 'a byte missing', data[:-1], {(8, 15): NO_RADIAL, (7, 14): SAME, (1, 1): SAME}
    yield 'a byte of radial 1 missing', data[:end - 1], {(1, 1): NO_RADIAL, (1, 3): NO_RADIAL}
    yield 'to radial 1', data[:end], {(1, 1): SAME, (1, 3): SAME, (2, 1): NO_RADIAL}
    yield 'to the middle of the second cut', data[:800], {(1, 1): NO_RADIAL}
    yield 'type 2 again in radial 3', put(data, r.find(3, 3).header_place, 2), {
        (1, 1): SAME, (2, 1): SAME, (3, 2): NO_RADIAL, (3, 1): NO_RADIAL, (4, 64): NO_RADIAL}
    yield 'bad state in radial 7', put(data, r.radials[6].place, 9), {
        (1, 2): SAME, (6, 3): SAME, (7, 14): NO_RADIAL, (8, 15): NO_RADIAL}


def copies():
    """(what it is, bytes, cases)."""
    rows = rows_of(volumes.small_spec())
    for what, data, *told in copies_of_small():
        yield f'small, {what}', data, [case((n, 2), rows[n, 2], UNCHANGED, answer) for n, answer in enumerate(told, 1)]
    rows = rows_of(volumes.rich_spec())
    for what, data, told in copies_of_rich():
        yield f'rich, {what}', data, [case(asked, rows[asked], UNCHANGED, answer) for asked, answer in told.items()]


# --------------------------------------------------------------------------
# The longest row.

def longest_spec():
    """A moment of 32,768 gates, the most that there can be."""
    codes = bytes((i + i // 256) % 256 for i in range(ref.MOST_DATA - 1)) + b'\xff'
    return volumes.volume([cut([radial(moment(2, codes)), radial(moment(2, [0]))])])


def longest(rows):
    row = rows[1, 2]
    yield case((1, 2), row, 'exact', SAME)
    yield wrong(rows, (1, 2), ref.MOST_DATA - 1, hundredths=9449)
    for kinds, hundredths in (0, 0), (255, 256), (256, 255), (256, 256), (1000, 999):
        yield case((1, 2), resized(row, kinds, hundredths), counts(kinds, hundredths), differs(min(kinds, hundredths)))
    wrong_end = changed(resized(row, 1000, 1000), 999, kind=6)
    yield case((1, 2), wrong_end, 'its first 1000, the last kind wrong', differs(999))


# --------------------------------------------------------------------------

def entries_and_lengths():
    """The cases of `rich`."""
    spec = volumes.rich_spec()
    rows, moments = rows_of(spec), moments_of(spec)
    assert all(rows[asked] == row for asked, row in RICH_BY_HAND.items())
    for part in exact, one_wrong_entry, wrong_kinds, wrong_hundredths:
        yield from part(rows)
    yield from by_the_formula(rows, moments)
    yield from width_slips(moments)
    yield from value_slips(rows, moments)
    yield from kind_slips(rows, moments)
    for part in lengths, longer, two_differences, refusals, other_rows:
        yield from part(rows)


def groups():
    """(what it is, bytes, cases) of each volume."""
    yield 'rich', volumes.rich(), [*entries_and_lengths()]
    yield 'small', volumes.small(), []                  # no row and so no line
    yield 'layers', volumes.named('layers'), [*other_radials_of_layers(rows_of(volumes.layers_spec()))]
    yield 'valley', volumes.named('valley'), [*other_radials_of_valley(rows_of(volumes.valley_spec()))]
    assert rows_of(halves_spec()) == HALVES_BY_HAND
    for name, spec, part in ('alike', alike_spec(), alike), ('halves', halves_spec(), roundings):
        rows = rows_of(spec)
        yield name, volumes.build(spec), [*exact(rows), *part(rows, moments_of(spec))]
    yield from copies()
    yield 'the longest row', volumes.build(longest_spec()), [*longest(rows_of(longest_spec()))]


def checked():
    """The groups; of every case the reference reader tells what is given with it."""
    for volume, data, cases in groups():
        r = ref.read(data)
        for c in cases:
            told = r.check_row(c.radial, c.type, c.kinds, c.hundredths)
            assert told == c.told, (volume, c.name, c.told, told)
        yield volume, data, cases


def signed(numbers):
    return struct.pack(f'<{len(numbers)}i', *numbers)


def row_bytes(c):
    head = struct.pack('<4I', c.radial, c.type, len(c.kinds), len(c.hundredths))
    return head + bytes(c.kinds) + signed(c.hundredths)


def samples():
    """The lists of a row of `rich`, and its kinds where every special code was taken for no echo."""
    kinds, hundredths = rows_of(volumes.rich_spec())[ONE_BYTE]
    return {'rich.kinds': bytes(kinds), 'rich.hundredths': signed(hundredths),
            'folded.kinds': bytes(k if k > 4 else 0 for k in kinds)}


def lines(c):
    """What is printed of a case."""
    if c.told == SAME:
        return [SAME]
    line = ' '.join(map(str, c.told))
    return [line, IN_WORDS[c.told[1]]] if c.told[0] == 'refused' else [line]


def main(args):
    if args == ['stdin']:
        for _, data, cases in checked():
            sys.stdout.buffer.write(struct.pack('<2I', len(data), len(cases)) + data)
            for c in cases:
                sys.stdout.buffer.write(row_bytes(c))
    elif args == ['stdout']:
        for _, _, cases in checked():
            for c in cases:
                print(*lines(c), sep='\n')
    elif args == ['names']:
        number = itertools.count(1)
        for volume, _, cases in checked():
            for c in cases:
                print(f'{next(number)}: {volume}, radial {c.radial}, type {c.type}: {c.name}')
                print(end='\n' * (len(lines(c)) - 1))   # nothing beside a refusal in words
    elif len(args) == 1 and args[0] in samples():
        sys.stdout.buffer.write(samples()[args[0]])
    else:
        sys.exit('usage: checking_expected.py stdin|stdout|names|rich.kinds|rich.hundredths|folded.kinds')


if __name__ == '__main__':
    main(sys.argv[1:])
