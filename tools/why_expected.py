#!/usr/bin/env python3
"""What the program `why` reads and prints: why a file is refused, and why a gate is as it is (document 02, #104).

    python3 tools/why_expected.py stdin > crates/why/stdin
    python3 tools/why_expected.py stdout > crates/why/stdout
    python3 tools/why_expected.py names       each answer's number and what is asked, to read beside the output

Standard input is one case after the other: how many bytes its volume has, how many questions follow it, its
bytes, then each question: radial, type, gate. Every number has four bytes, little-endian. Without a question the
case asks why the file is refused. An empty line stands between two answers. Of a file that is refused: the number
and place that reading tells, the block, the field, what was found and the broken clause. Of a gate: its type,
scale, offset, bin length and code, and what these give. Of a question refused: two lines.

Each file is given with what is to be told of it, by hand: the number, the block, the field, what was found and
what is broken; the reference reader has to tell the same. The place of a block comes from the sizes of those
before it, as the volume was specified. The sentence of a gate is given by hand, or worked out in decimal
arithmetic from the codes that a volume is built of, and not read from its bytes. Nothing in the output comes from
the program.
"""
import decimal
import itertools
import math
import struct
import sys
from collections import namedtuple
from fractions import Fraction

sys.dont_write_bytecode = True
import checking_expected as checking
import cloud
import reference as ref
import volumes
from volumes import cut, mask, moment, radial, single, words

INT_MIN, INT_MAX = -2**31, 2**31 - 1
FAR = 2**32 - 1                         # of a radial, a type or a gate
ALL = 2**64 - 1                         # of a mask

Volume = namedtuple('Volume', 'name spec data places')
# asked are the questions, none of a file; told is one answer of a file, else one for each question
Case = namedtuple('Case', 'name volume data asked told')
# told of a file that is refused; with the block's place where the volume as specified has another block there
Told = namedtuple('Told', 'number block field found broken place', defaults=[None])
COMPLETE = 'complete'

# What is broken, where it is long or comes up often.
MAGIC = 'it differs from the magic, bytes 52 53 54 4D'
CUTS, ONE_CUT = 'it is not 1..256', 'it is not 1, while scan type is 2'
STATE = 'this state is not allowed here'
SEQUENCE, COUNT = 'it is not 1 more than the radials before it', "it is not the radial's count in its cut, from 1"
OTHER_CUT = "it is not the cut's number"
MOMENTS, SHORT_DATA = 'it is not 1..64', '33 times it is over the length of data'
NO_TYPE, SEEN, MASKED = 'it is not 1..64', 'it was seen before in this radial', "its bit in the cut's moments mask is 0"
ONE_BYTE = "it is not 1, while the type's bit in the cut's size mask is 0"
TWO_BYTE = "it is not 2, while the type's bit in the cut's size mask is 1"
LENGTH, ODD = 'it is not 1..32,768', 'it is not a multiple of bin length'
TILING = 'it is wrong for the tiling: the last moment leaves no byte, any other 33 for each after it'
TRAILING = 'bytes follow the volume that this radial closes'
NO_HOPE = 'no further bytes would make the file complete'


def opened(missing):
    return 'open', missing


def no_hope(block):
    return Told(40, block, None, None, NO_HOPE)


def no(number, there_is):
    """A question refused; its second line ends with what there is."""
    return ref.NoGate(number, 0, there_is)


# --------------------------------------------------------------------------
# Volumes, and files with some of their fields changed.

def kind_of(block):
    return block.split()[0]


def places_of(spec):
    """Block, in words -> where it stands."""
    out, place = {}, 0

    def stands(block, data=b''):
        nonlocal place
        out[block] = place
        place += ref.SIZES[kind_of(block)] + len(data)

    for block in 'generic header', 'site', 'task':
        stands(block)
    for c in range(len(spec['cuts'])):
        stands(f'cut {c + 1}')
    for n, r in enumerate(radials_of(spec), 1):
        stands(f'radial {n}')
        for k, m in enumerate(r['moments'], 1):
            stands(f'moment {k} of radial {n}', m['data'])
    return out


def radials_of(spec):
    return [r for c in spec['cuts'] for r in c['radials']]


def made(name, spec):
    return Volume(name, spec, volumes.build(spec), places_of(spec))


def changed(volume, changes):
    """The bytes with fields set: (block, field, number). An angle may be given by its four bytes."""
    out = bytearray(volume.data)
    for block, field, value in changes:
        kind = kind_of(block)
        raw = value if isinstance(value, bytes) else struct.pack(ref.FORMAT[kind, field], value)
        place = volume.places[block] + ref.PLACE[kind, field]
        out[place:place + len(raw)] = raw
    return bytes(out)


def end_of(volume, block):
    return volume.places[block] + ref.SIZES[kind_of(block)]


def in_words(changes):
    def shown(value):
        return f'bits {value[::-1].hex()}' if isinstance(value, bytes) else value
    return [f'{block}, {field} {shown(value)}' for block, field, value in changes]


def case(volume, changes, told, end=None, more=b'', name=''):
    """A file with these changes; to an end, or with more bytes behind it."""
    label = '; '.join([volume.name, *in_words(changes)] + [name] * bool(name))
    return Case(label, volume, changed(volume, changes)[:end] + more, [], [told])


def broken(volume, number, block, field, value, what, *also, found=None, **how):
    """A field that breaks its rule, with other changes."""
    return case(volume, [(block, field, value), *also],
                Told(number, block, field, str(value) if found is None else found, what), **how)


def ended(volume, number, block, field, value, what, *also, found=None):
    """The same, and the file ends behind the block."""
    return broken(volume, number, block, field, value, what, *also, found=found,
                  end=end_of(volume, block), name='to its end')


def trailing(volume, block, state, more, name, changes=()):
    return case(volume, changes, Told(25, block, 'state', str(state), TRAILING), more=more, name=name)


def pairs_spec():
    """Types 1 and 2 in one-byte gates, 3 and 4 in two-byte ones."""
    one, two, three, four = moment(1, [5, 6, 7]), moment(2, [8, 9]), moment(3, words(300, 301)), moment(4, words(302))
    return volumes.volume([cut([radial(one, three, two), radial(four, one)], mask(1, 2, 3, 4), mask(3, 4))])


def three_spec():
    """Three cuts of two, three and two radials, each with other types. The size masks have bits of types that the
    cut has not."""
    one, two, three, four = moment(1, [5]), moment(2, [6]), moment(3, [7, 8]), moment(4, words(9, 300))
    return volumes.volume([
        cut([radial(two), radial(two)], mask(2), mask(1, 3, 4)),
        cut([radial(two, four), radial(four), radial(four, two)], mask(2, 4), mask(1, 4)),
        cut([radial(three, one, two), radial(one)], mask(1, 2, 3), mask(4))])


def two_spec(scan_type):
    """Two cuts, of two and of three radials."""
    one = radial(moment(2, [7]))
    return volumes.volume([cut([one] * 2), cut([one] * 3)], **{'scan type': scan_type})


SMALL, RICH = made('small', volumes.small_spec()), made('rich', volumes.rich_spec())
RHI, LAYERS = made('rhi2', volumes.rhi_spec(2)), made('layers', volumes.layers_spec())
VALLEY = made('valley', volumes.valley_spec())
PAIRS, THREE = made('pairs', pairs_spec()), made('three', three_spec())
TWO, TWO_LAYERS = made('two', two_spec(0)), made('two layers', two_spec(5))


# --------------------------------------------------------------------------
# Each clause of the table, broken once.

def without_data():
    """A first moment of length 0 that tiles: one moment is after it, and it leaves 34 bytes."""
    empty, two = moment(1, []), moment(2, [7, 8])
    return made('a moment without data', volumes.volume([cut([radial(empty, two), radial(two)], mask(1, 2))]))


def gate_and_a_half():
    """A first moment of two-byte gates, of three bytes, that tiles."""
    odd, one = moment(3, [1, 2, 3]), moment(1, [7, 8])
    return made('a gate and a half', volumes.volume([cut([radial(odd, one), radial(one)], mask(1, 3), mask(3))]))


def each_clause():
    """Each is broken alone, but for those that are not in so small a volume: it has no 257 cuts, a length of data of 0
    is too short for any moment number, and by 0 moments or two its 36 bytes are not tiled. A type outside 1..64 has no
    bit in a mask, so it is said to break the first clause alone."""
    yield broken(SMALL, 1, 'generic header', 'magic', 0x4D545353, 'it differs from the magic, bytes 52 53 54 4D',
                 found='1297371987')
    yield broken(SMALL, 2, 'generic header', 'generic type', 2, 'it is not 1')
    yield broken(SMALL, 3, 'site', 'latitude', 91.5, 'it is not in -90..90', found='91.50')
    yield broken(SMALL, 4, 'site', 'longitude', -180.25, 'it is not in -180..180', found='-180.25')
    yield broken(SMALL, 5, 'task', 'polarization', 5, 'it is not 1..4')
    yield broken(SMALL, 6, 'task', 'scan type', 7, 'it is not 0..6')
    yield broken(SMALL, 7, 'task', 'start time', -1, 'it is below 0')
    yield broken(SMALL, 8, 'task', 'cut number', 257, 'it is not 1..256')
    yield case(TWO_LAYERS, [('task', 'scan type', 2)],  # the states are those of any RHI
               Told(8, 'task', 'cut number', '2', 'it is not 1, while scan type is 2'))
    yield broken(SMALL, 9, 'cut 1', 'process mode', 3, 'it is not 1..2')
    yield broken(SMALL, 9, 'cut 1', 'wave form', 7, 'it is not 0..6')
    yield broken(SMALL, 9, 'cut 1', 'unfold mode', 5, 'it is not 1..4')
    yield broken(SMALL, 9, 'cut 1', 'log resolution', 5001, 'it is not 1..5000')
    yield broken(SMALL, 9, 'cut 1', 'Doppler resolution', 0, 'it is not 1..5000')
    yield broken(SMALL, 9, 'cut 1', 'phase mode', 4, 'it is not 1..3')
    yield broken(SMALL, 10, 'radial 1', 'state', 0, 'this state is not allowed here')
    yield broken(SMALL, 11, 'radial 1', 'spot blank', 2, 'it is not 0..1')
    # 12 past 65,536 and 13 over 1000 are met by no file, since 40 comes before them (document 02, #110)
    yield broken(SMALL, 12, 'radial 2', 'sequence', 3, 'it is not 1 more than the radials before it')
    yield broken(SMALL, 13, 'radial 2', 'radial number', 1, "it is not the radial's count in its cut, from 1")
    yield broken(SMALL, 14, 'radial 2', 'elevation number', 2, "it is not the cut's number")
    yield broken(SMALL, 15, 'radial 1', 'azimuth', 360.25, 'it is not in 0..360', found='360.25')
    yield broken(SMALL, 16, 'radial 2', 'elevation', -2.25, 'it is not in -2..90', found='-2.25')
    yield broken(SMALL, 17, 'radial 2', 'seconds', -1, 'it is below 0')
    yield broken(SMALL, 17, 'radial 1', 'microseconds', 1000000, 'it is not 0..999,999')
    yield broken(SMALL, 18, 'radial 1', 'length of data', 0, 'it is not 1..100,000')
    yield broken(SMALL, 19, 'radial 2', 'moment number', 0, 'it is not 1..64')
    yield broken(SMALL, 19, 'radial 1', 'moment number', 2, '33 times it is over the length of data')
    yield broken(SMALL, 20, 'moment 1 of radial 1', 'type', 65, 'it is not 1..64')
    yield broken(PAIRS, 20, 'moment 3 of radial 1', 'type', 1, 'it was seen before in this radial')
    yield broken(SMALL, 20, 'moment 1 of radial 2', 'type', 3, "its bit in the cut's moments mask is 0")
    yield broken(SMALL, 21, 'moment 1 of radial 1', 'scale', 0, 'it is not 1..32,768')
    yield broken(SMALL, 22, 'moment 1 of radial 2', 'offset', 32769, 'it is not 0..32,768')
    yield broken(SMALL, 23, 'moment 1 of radial 1', 'bin length', 2,
                 "it is not 1, while the type's bit in the cut's size mask is 0")
    yield broken(PAIRS, 23, 'moment 2 of radial 1', 'bin length', 1,
                 "it is not 2, while the type's bit in the cut's size mask is 1")
    yield case(without_data(), [], Told(24, 'moment 1 of radial 1', 'length', '0', 'it is not 1..32,768'))
    yield case(gate_and_a_half(), [],
               Told(24, 'moment 1 of radial 1', 'length', '3', 'it is not a multiple of bin length'))
    yield broken(SMALL, 24, 'moment 1 of radial 2', 'length', 3,
                 'it is wrong for the tiling: the last moment leaves no byte, any other 33 for each after it')
    yield trailing(SMALL, 'radial 2', 4, b'\0', 'a byte added')
    yield case(SMALL, [('cut 1', 'moments mask', 0)],
               Told(40, 'cut 1', None, None, 'no further bytes would make the file complete'))


# --------------------------------------------------------------------------
# Several things broken at once: the first is told.

def several_clauses():
    """Clauses of one field: the first in the table's order."""
    for value, scan_type, what in (
            (300, 2, CUTS), (257, 2, CUTS), (0, 2, CUTS), (-1, 2, CUTS), (INT_MIN, 2, CUTS), (257, 5, CUTS),
            (2, 2, ONE_CUT), (256, 2, ONE_CUT)):
        yield ended(SMALL, 8, 'task', 'cut number', value, what, ('task', 'scan type', scan_type))
    for value in 65536, 65537:                          # the second would pass 65,536
        yield ended(SMALL, 12, 'radial 1', 'sequence', value, SEQUENCE)
    for value in 1000, 1001:                            # the second is over 1000
        yield ended(SMALL, 13, 'radial 2', 'radial number', value, COUNT)
    for value, length, what in (
            (65, 36, MOMENTS), (65, 2144, MOMENTS), (0, 1, MOMENTS), (-1, 36, MOMENTS), (INT_MAX, 100000, MOMENTS),
            (130150525, 36, MOMENTS),                   # 33 times it is 2**32 + 29
            (64, 36, SHORT_DATA), (2, 65, SHORT_DATA)):
        yield ended(SMALL, 19, 'radial 1', 'moment number', value, what, ('radial 1', 'length of data', length))
    # a type that was seen before in its radial is in the mask; one that the mask has not, another cut's radial may have
    yield broken(THREE, 20, 'moment 1 of radial 7', 'type', 4, MASKED, name='a type of cut 2')
    yield broken(THREE, 20, 'moment 2 of radial 3', 'type', 2, SEEN, name='a type of gates of another size')
    # by the tiling, the second moment of radial 1 of `pairs` may have up to 5 bytes, and the third has just 2; the
    # first of radial 2 may have up to 4. All have two-byte gates but the third
    for block, lengths in (
            ('moment 2 of radial 1', {0: LENGTH, 1: ODD, 5: ODD, 6: TILING, 7: ODD}),
            ('moment 3 of radial 1', {0: LENGTH, -2: LENGTH, 1: TILING, 3: TILING, 32768: TILING, 32769: LENGTH}),
            ('moment 1 of radial 2', {-1: LENGTH, 3: ODD, 5: ODD, 6: TILING, 32767: ODD, 32768: TILING, 32769: LENGTH,
                                      INT_MAX: LENGTH})):
        for value, what in lengths.items():
            yield ended(PAIRS, 24, block, 'length', value, what)


# Of each block the fields that have a rule, in byte order, with a bad number.
BAD = {
    'generic header': [(1, 'magic', 0, MAGIC), (2, 'generic type', 0, 'it is not 1')],
    'site': [(3, 'latitude', 100.0, 'it is not in -90..90'), (4, 'longitude', 200.0, 'it is not in -180..180')],
    'task': [(5, 'polarization', 0, 'it is not 1..4'), (6, 'scan type', -1, 'it is not 0..6'),
             (7, 'start time', -2, 'it is below 0'), (8, 'cut number', 0, CUTS)],
    'cut 1': [(9, 'process mode', 0, 'it is not 1..2'), (9, 'wave form', -1, 'it is not 0..6'),
              (9, 'unfold mode', 0, 'it is not 1..4'), (9, 'log resolution', 0, 'it is not 1..5000'),
              (9, 'Doppler resolution', -250, 'it is not 1..5000'), (9, 'phase mode', 0, 'it is not 1..3')],
    'radial 1': [(10, 'state', 7, STATE), (11, 'spot blank', -1, 'it is not 0..1'), (12, 'sequence', 0, SEQUENCE),
                 (13, 'radial number', 0, COUNT), (14, 'elevation number', 0, OTHER_CUT),
                 (15, 'azimuth', 400.0, 'it is not in 0..360'), (16, 'elevation', 100.0, 'it is not in -2..90'),
                 (17, 'seconds', -1, 'it is below 0'), (17, 'microseconds', -1, 'it is not 0..999,999'),
                 (18, 'length of data', 0, 'it is not 1..100,000'), (19, 'moment number', 65, MOMENTS)],
    'moment 1 of radial 1': [(20, 'type', 0, NO_TYPE), (21, 'scale', 0, 'it is not 1..32,768'),
                             (22, 'offset', -1, 'it is not 0..32,768'), (23, 'bin length', 3, ONE_BYTE),
                             (24, 'length', 0, LENGTH)],
}
FOUND = {100.0: '100.00', 200.0: '200.00', 400.0: '400.00'}


def several_fields():
    """Fields of one block: the first in byte order, with all after it."""
    for block, bad in BAD.items():
        for k, (number, field, value, what) in enumerate(bad):
            also = [(block, name, x) for _, name, x, _ in bad[k + 1:]]
            yield ended(SMALL, number, block, field, value, what, *also, found=FOUND.get(value))


def several_blocks():
    """The first in the file, also where the other is nearer to its own block's start, or the file's end is bad."""
    for volume, first, *also in (
            (SMALL, (2, 'generic header', 'generic type', 0, 'it is not 1'), ('site', 'latitude', 91.0)),
            (SMALL, (8, 'task', 'cut number', 0, CUTS), ('cut 1', 'process mode', 0)),
            (SMALL, (9, 'cut 1', 'phase mode', 0, 'it is not 1..3'), ('radial 1', 'state', 0)),
            (SMALL, (19, 'radial 1', 'moment number', 0, MOMENTS), ('moment 1 of radial 1', 'type', 0)),
            (SMALL, (24, 'moment 1 of radial 1', 'length', 0, LENGTH), ('radial 2', 'state', 0)),
            (SMALL, (19, 'radial 1', 'moment number', -1, MOMENTS), ('radial 2', 'state', 9)),
            (THREE, (9, 'cut 1', 'phase mode', 0, 'it is not 1..3'), ('cut 2', 'process mode', 0),
             ('cut 3', 'process mode', 0)),
            (THREE, (9, 'cut 2', 'phase mode', 0, 'it is not 1..3'), ('cut 3', 'process mode', 0),
             ('radial 1', 'state', 9)),
            (THREE, (9, 'cut 3', 'wave form', 7, 'it is not 0..6'), ('radial 1', 'state', 9)),
            (THREE, (17, 'radial 2', 'microseconds', -1, 'it is not 0..999,999'), ('radial 3', 'state', 9),
             ('radial 6', 'state', 9)),
            (THREE, (20, 'moment 2 of radial 3', 'type', 3, MASKED), ('moment 2 of radial 5', 'type', 3)),
            (THREE, (21, 'moment 1 of radial 6', 'scale', -1, 'it is not 1..32,768'),
             ('moment 2 of radial 6', 'type', 0), ('moment 3 of radial 6', 'type', 0))):
        yield broken(volume, *first, *also)
    yield broken(SMALL, 24, 'moment 1 of radial 2', 'length', 5, TILING, more=bytes(100), name='100 bytes added')
    yield broken(SMALL, 11, 'radial 2', 'spot blank', 2, 'it is not 0..1', more=b'\0', name='a byte added')
    yield case(THREE, [('cut 2', 'moments mask', 0), ('cut 3', 'process mode', 0)], no_hope('cut 2'))
    yield broken(THREE, 9, 'cut 2', 'process mode', 0, 'it is not 1..2', ('cut 3', 'moments mask', 0))
    # a small volume that says two cuts: the second is read where its radials stand, and they are 56 bytes short of one
    two = [('task', 'cut number', 2)]
    yield case(SMALL, two, opened(56))
    yield case(SMALL, two, Told(9, 'cut 2', 'process mode', '3', 'it is not 1..2', 672), more=bytes(56),
               name='56 bytes added')


# --------------------------------------------------------------------------
# The fault in one block or another.

def other_cuts():
    for block in 'cut 1', 'cut 2', 'cut 3':
        for number, field, value, what in BAD['cut 1']:
            yield ended(THREE, number, block, field, value, what)
    yield ended(made('51 cuts', volumes.many_cuts_spec(51)), 9, 'cut 51', 'wave form', 7, 'it is not 0..6')


def other_radials():
    """`two` has radials 1 and 2 in cut 1, and 3 to 5 in cut 2; `three` has 3 to 5 in cut 2, and 6 and 7 in cut 3."""
    for volume, number, block, field, value, what in (
            (TWO, 12, 'radial 1', 'sequence', 0, SEQUENCE), (TWO, 12, 'radial 1', 'sequence', 2, SEQUENCE),
            (TWO, 12, 'radial 2', 'sequence', 1, SEQUENCE), (TWO, 12, 'radial 3', 'sequence', 1, SEQUENCE),
            (TWO, 12, 'radial 5', 'sequence', 65541, SEQUENCE), (THREE, 12, 'radial 6', 'sequence', -6, SEQUENCE),
            (TWO, 13, 'radial 1', 'radial number', 0, COUNT), (TWO, 13, 'radial 3', 'radial number', 3, COUNT),
            (TWO, 13, 'radial 4', 'radial number', 1, COUNT), (THREE, 13, 'radial 6', 'radial number', 4, COUNT),
            (TWO, 13, 'radial 5', 'radial number', 65539, COUNT), (TWO, 13, 'radial 5', 'radial number', -3, COUNT),
            (TWO, 14, 'radial 1', 'elevation number', 0, OTHER_CUT),
            (TWO, 14, 'radial 3', 'elevation number', 1, OTHER_CUT),
            (TWO, 14, 'radial 3', 'elevation number', 3, OTHER_CUT),
            (THREE, 14, 'radial 6', 'elevation number', 2, OTHER_CUT),
            (THREE, 14, 'radial 7', 'elevation number', 257, OTHER_CUT),
            (TWO, 14, 'radial 5', 'elevation number', INT_MIN + 2, OTHER_CUT),
            (TWO, 17, 'radial 5', 'seconds', -1, 'it is below 0'),
            (THREE, 17, 'radial 6', 'microseconds', 1000000, 'it is not 0..999,999'),
            (TWO, 18, 'radial 4', 'length of data', -36, 'it is not 1..100,000'),
            (THREE, 19, 'radial 6', 'moment number', 4, SHORT_DATA),
            (THREE, 11, 'radial 7', 'spot blank', 256, 'it is not 0..1')):
        yield ended(volume, number, block, field, value, what)
    for block in 'radial 2', 'radial 3', 'radial 6':
        yield broken(THREE, 15, block, 'azimuth', -0.25, 'it is not in 0..360', found='-0.25')


def states():
    """States that are not allowed where the radial stands. Document 02, #103: each cut of an RHI is opened by 5 and
    closed by 6."""
    for volume, block, *bad in (
            (SMALL, 'radial 1', 0, 1, 4, 5, 259, -1),   # the volume's first: 3
            (SMALL, 'radial 2', 2, 6), (TWO, 'radial 2', 0, 3, 4, 7), (TWO, 'radial 3', 1, 2, 3),
            (TWO, 'radial 4', 0, 2),
            (RHI, 'radial 1', 1, 3, 6), (RHI, 'radial 2', 4, 5),
            (TWO_LAYERS, 'radial 2', 2, 4), (TWO_LAYERS, 'radial 3', 0, 1), (TWO_LAYERS, 'radial 5', 2, 4)):
        for state in bad:
            yield ended(volume, 10, block, 'state', state, STATE)
    # a state that is allowed, and so the next radial's is not, or the volume ends early, or does not end
    for volume, block, state, told in (
            (THREE, 'radial 2', 1, Told(10, 'radial 3', 'state', '0', STATE)),
            (THREE, 'radial 4', 2, Told(10, 'radial 5', 'state', '2', STATE)),
            (THREE, 'radial 7', 1, opened(64)),
            (TWO, 'radial 4', 4, Told(25, 'radial 4', 'state', '4', TRAILING)),
            (RHI, 'radial 2', 6, Told(25, 'radial 2', 'state', '6', TRAILING)), (RHI, 'radial 3', 1, opened(64)),
            (TWO_LAYERS, 'radial 2', 1, Told(10, 'radial 3', 'state', '5', STATE)),
            (TWO_LAYERS, 'radial 4', 6, Told(25, 'radial 4', 'state', '6', TRAILING))):
        yield case(volume, [(block, 'state', state)], told)
    for volume, scan_type, told in (
            (SMALL, 2, Told(10, 'radial 1', 'state', '3', STATE)),
            (SMALL, 5, Told(10, 'radial 1', 'state', '3', STATE)),
            (RHI, 0, Told(10, 'radial 1', 'state', '5', STATE)), (RHI, 5, COMPLETE),
            (TWO_LAYERS, 4, Told(10, 'radial 1', 'state', '5', STATE)), (SMALL, 1, COMPLETE)):
        yield case(volume, [('task', 'scan type', scan_type)], told)


def other_moments():
    """Radials 3 and 5 of `three` have types 2 and 4, and 4 and 2; radial 6 has 3, 1 and 2, and the others one alone."""
    for number, block, field, value, what in (
            (20, 'moment 1 of radial 1', 'type', 4, MASKED), (20, 'moment 1 of radial 3', 'type', 1, MASKED),
            (20, 'moment 2 of radial 5', 'type', 4, SEEN), (20, 'moment 2 of radial 6', 'type', 3, SEEN),
            (20, 'moment 3 of radial 6', 'type', 3, SEEN), (20, 'moment 3 of radial 6', 'type', 4, MASKED),
            (21, 'moment 2 of radial 6', 'scale', 32769, 'it is not 1..32,768'),
            (22, 'moment 3 of radial 6', 'offset', -1, 'it is not 0..32,768'),
            (23, 'moment 1 of radial 2', 'bin length', 2, ONE_BYTE),
            (23, 'moment 2 of radial 3', 'bin length', 1, TWO_BYTE),
            (23, 'moment 2 of radial 5', 'bin length', 2, ONE_BYTE), (24, 'moment 1 of radial 4', 'length', 3, ODD),
            (24, 'moment 1 of radial 4', 'length', 2, TILING), (24, 'moment 2 of radial 6', 'length', 2, TILING),
            (24, 'moment 3 of radial 6', 'length', 0, LENGTH), (24, 'moment 1 of radial 7', 'length', 33, TILING)):
        yield ended(THREE, number, block, field, value, what)
    # in `rich` every field without a rule holds something; radial 3 has types 2, 3 and 1, radial 8 has 4, 15, 16 and 14
    for number, block, field, value, what in (
            (20, 'moment 2 of radial 3', 'type', 2, SEEN), (20, 'moment 3 of radial 3', 'type', 9, MASKED),
            (20, 'moment 4 of radial 8', 'type', 15, SEEN)):
        yield broken(RICH, number, block, field, value, what)
    sixty_four = made('64 moments', volumes.many_moments_spec())
    yield ended(sixty_four, 20, 'moment 64 of radial 1', 'type', 64, SEEN)


# --------------------------------------------------------------------------
# Both sides of each edge.

# (number, block of `small`, field, lowest, highest, what is broken outside)
RANGES = [
    (2, 'generic header', 'generic type', 1, 1, 'it is not 1'),
    (5, 'task', 'polarization', 1, 4, 'it is not 1..4'),
    (6, 'task', 'scan type', 0, 6, 'it is not 0..6'),
    (7, 'task', 'start time', 0, INT_MAX, 'it is below 0'),
    (9, 'cut 1', 'process mode', 1, 2, 'it is not 1..2'),
    (9, 'cut 1', 'wave form', 0, 6, 'it is not 0..6'),
    (9, 'cut 1', 'unfold mode', 1, 4, 'it is not 1..4'),
    (9, 'cut 1', 'log resolution', 1, 5000, 'it is not 1..5000'),
    (9, 'cut 1', 'Doppler resolution', 1, 5000, 'it is not 1..5000'),
    (9, 'cut 1', 'phase mode', 1, 3, 'it is not 1..3'),
    (11, 'radial 1', 'spot blank', 0, 1, 'it is not 0..1'),
    (17, 'radial 1', 'seconds', 0, INT_MAX, 'it is below 0'),
    (17, 'radial 1', 'microseconds', 0, 999999, 'it is not 0..999,999'),
    (21, 'moment 1 of radial 1', 'scale', 1, 32768, 'it is not 1..32,768'),
    (22, 'moment 1 of radial 1', 'offset', 0, 32768, 'it is not 0..32,768'),
]
# what is missing behind a block of `small`
NEXT = {'generic header': 128, 'task': 256, 'cut 1': 64, 'radial 1': 32, 'moment 1 of radial 1': 4, 'site': 256}


def in_range(block, field, value):
    return case(SMALL, [(block, field, value)], opened(NEXT[block]), end=end_of(SMALL, block), name='to its end')


def ranges():
    """Some of the numbers outside look right in their low bytes, or without their sign."""
    for number, block, field, lowest, highest, what in RANGES:
        for value in sorted({lowest, highest}):
            yield in_range(block, field, value)
        for value in sorted({lowest - 1, highest + 1, lowest + 65536, -highest}):
            if INT_MIN <= value <= INT_MAX and not lowest <= value <= highest:
                yield ended(SMALL, number, block, field, value, what)


def magics():
    """Next to the magic, turned, without a byte, with the sign. A bad one is not told before 32 bytes are there."""
    for value in 1297371985, 1297371987, 1381192781, 5526354, 1297371986 + INT_MIN, 0, -1, INT_MIN:
        yield ended(SMALL, 1, 'generic header', 'magic', value, MAGIC)
    ones = Volume('ones', None, b'\1' * 33, {'generic header': 0})
    yield case(ones, [], opened(1), end=31, name='31 bytes')
    for end in 32, 33:
        yield case(ones, [], Told(1, 'generic header', 'magic', '16843009', MAGIC), end=end, name=f'{end} bytes')


def cut_numbers():
    """The file ends behind the task."""
    for scan_type, values in (0, (1, 2, 50, 51, 256)), (2, (1,)), (5, (1, 2, 256)):
        for value in values:
            changes = [('task', 'scan type', scan_type), ('task', 'cut number', value)]
            yield case(SMALL, changes, opened(256), end=416, name='to its end')
    for value in 0, -1, 257, 65537, INT_MAX, INT_MIN, INT_MIN + 1:
        yield ended(SMALL, 8, 'task', 'cut number', value, CUTS)


def lengths_of_data():
    """`pairs` has four types. A moment has at most 32,768 bytes."""
    def tried(volume, length, count, told):
        changes = [('radial 1', 'length of data', length), ('radial 1', 'moment number', count)]
        return case(volume, changes, told, end=end_of(volume, 'radial 1'), name='to its end')

    def bad(number, field, found, what):
        return Told(number, 'radial 1', field, str(found), what)

    for length in 0, -1, 100001, 100036, INT_MAX, INT_MIN, INT_MIN + 36:
        yield tried(PAIRS, length, 4, bad(18, 'length of data', length, 'it is not 1..100,000'))
    yield tried(PAIRS, 100000, 4, opened(32))
    yield tried(PAIRS, 100000, 3, no_hope('radial 1'))
    yield tried(PAIRS, 1, 1, bad(19, 'moment number', 1, SHORT_DATA))
    yield tried(PAIRS, 32, 1, bad(19, 'moment number', 1, SHORT_DATA))
    yield tried(PAIRS, 33, 1, opened(32))
    yield tried(PAIRS, 98, 3, bad(19, 'moment number', 3, SHORT_DATA))
    yield tried(PAIRS, 32800, 1, opened(32))
    yield tried(PAIRS, 32801, 1, no_hope('radial 1'))
    every = made('all types', volumes.volume([cut([radial(moment(2, [7]))] * 2, ALL)]))
    yield tried(every, 2112, 64, opened(32))
    yield tried(every, 2111, 64, bad(19, 'moment number', 64, SHORT_DATA))
    yield tried(every, 2145, 65, bad(19, 'moment number', 65, MOMENTS))
    yield tried(every, 2145, 64, opened(32))
    # a wrong length of data that keeps 18 and 19 shows at a moment; 100 counts the 64 bytes of the header
    for block, length in ('radial 2', 35), ('radial 2', 37), ('radial 1', 100):
        yield case(SMALL, [(block, 'length of data', length)], Told(24, f'moment 1 of {block}', 'length', '4', TILING))


def lengths_of_moments():
    """The first moment of radial 1 of `pairs` may have up to 7 of the 105 bytes; with 7 no two others fit."""
    block = 'moment 1 of radial 1'
    for length, told in (1, opened(1)), (6, opened(6)), (7, no_hope(block)):
        yield case(PAIRS, [(block, 'length', length)], told, end=end_of(PAIRS, block), name='to its end')
    for length, what in (8, TILING), (39, TILING), (65539, LENGTH), (-3, LENGTH), (INT_MAX, LENGTH), (
            INT_MIN + 3, LENGTH):
        yield ended(PAIRS, 24, block, 'length', length, what)
    # two moments, and room for a first one of 32,769 bytes
    room = ('radial 1', 'length of data', 32 + 32769 + 33), ('radial 1', 'moment number', 2)
    yield case(PAIRS, [*room, (block, 'length', 32768)], opened(32768), end=end_of(PAIRS, block), name='to its end')
    yield ended(PAIRS, 24, block, 'length', 32769, LENGTH, *room)
    yield ended(PAIRS, 24, block, 'length', 32770, LENGTH, *room)


def one_type(t, types, sizes, name):
    """A volume of one type, four bytes of data in each radial."""
    return made(f'type {t}, {name}', volumes.volume([cut([radial(moment(t, [5, 1, 6, 1]))] * 2, types, sizes)]))


def masks():
    """Type t is bit t-1 of both masks."""
    block = 'moment 1 of radial 1'
    for t in 1, 2, 33, 64:
        narrow = one_type(t, mask(t), ALL - mask(t), 'its bit alone, and the size bits of the others')
        wide = one_type(t, mask(t), mask(t), 'its bit alone, in two-byte gates')
        yield case(narrow, [], COMPLETE)
        yield ended(narrow, 23, block, 'bin length', 2, ONE_BYTE)
        yield case(wide, [], COMPLETE)
        yield ended(wide, 23, block, 'bin length', 1, TWO_BYTE)
        told = Told(20, block, 'type', str(t), MASKED)
        yield case(one_type(t, ALL - mask(t), 0, 'all bits but its own'), [], told, end=768, name='to its first header')
        for other in t - 1, t + 1, (t + 31) % 64 + 1:
            if 1 <= other <= 64:
                volume = one_type(t, mask(other), 0, f'the bit of type {other}')
                yield case(volume, [], told, end=768, name='to its first header')
    for value in 0, -1, 65, 66, 258, 65538, INT_MIN + 2:
        yield ended(SMALL, 20, block, 'type', value, NO_TYPE)
    for value in 0, -1, 3, 257, -32767:
        yield ended(SMALL, 23, block, 'bin length', value, ONE_BYTE)
    for value in 0, -2, 3, 4, 258:
        yield ended(one_type(2, mask(2), mask(2), 'in two-byte gates'), 23, block, 'bin length', value, TWO_BYTE)


# --------------------------------------------------------------------------
# Angles: the singles next to an end, and those that are no numbers or large. One more in the bits is one single
# further from zero.

NOT_NUMBERS = {
    0x7F800000: 'infinity', 0xFF800000: '-infinity', 0x7FC00000: 'no number', 0xFFC00000: 'no number',
    0x7F800001: 'no number', 0xFF800001: 'no number', 0x7FFFFFFF: 'no number', 0xFFFFFFFF: 'no number',
}
LARGE = {
    0x49742400: '1000000.00', 0x497423FF: 'a little over 999999.93',    # the second is 999,999.9375
    0x497FFFFC: '1048575.75', 0x497FFFFF: 'a little over 1048575.93',   # 1,048,575.9375
    0x49800000: 'over 1000000', 0x49800001: 'over 1000000', 0x7F7FFFFF: 'over 1000000',
    0xC9742400: '-1000000.00', 0xC97FFFFE: 'a little under -1048575.87',
    0xC97FFFFF: 'a little under -1048575.93', 0xC9800000: 'under -1000000', 0xFF7FFFFF: 'under -1000000',
}
ANGLES = {
    (3, 'site', 'latitude', 'it is not in -90..90'): {
        0x42B40001: 'a little over 90.00', 0xC2B40001: 'a little under -90.00', 0x42B40400: 'a little over 90.00',
        0x42B40800: 'a little over 90.01', 0x42B48000: '90.25', 0xC2B48000: '-90.25', 0x42B40520: 'a little over 90.01',
        0x42B4051E: 'a little over 90.00', 0x42C80000: '100.00', 0xC2C80001: 'a little under -100.00',
        **NOT_NUMBERS, **LARGE},
    (4, 'site', 'longitude', 'it is not in -180..180'): {
        0x43340001: 'a little over 180.00', 0xC3340001: 'a little under -180.00', 0x43348000: '180.50',
        0xC3B40000: '-360.00', 0x43B40000: '360.00', 0x4334C000: '180.75', **NOT_NUMBERS},
    (15, 'radial 1', 'azimuth', 'it is not in 0..360'): {
        0x43B40001: 'a little over 360.00', 0x80000001: 'a little under 0.00', 0x80800000: 'a little under 0.00',
        0xBC23D70A: 'a little under 0.00', 0xBC23D70B: 'a little under -0.01',      # next to -0.01 on both sides
        0xBB800000: 'a little under 0.00', 0xBE800000: '-0.25', 0xBF000000: '-0.50', 0xBF7FFFFF: 'a little under -0.99',
        0xBF800000: '-1.00', 0xBF800001: 'a little under -1.00', 0x43B44000: '360.50', 0xC3B40000: '-360.00',
        0x497FFFFF: 'a little over 1048575.93', 0xC9800000: 'under -1000000', **NOT_NUMBERS},
    (16, 'radial 1', 'elevation', 'it is not in -2..90'): {
        0xC0000001: 'a little under -2.00', 0x42B40001: 'a little over 90.00', 0xC0100000: '-2.25', 0xC0200000: '-2.50',
        0xC000A3D7: 'a little under -2.00', 0xC000A3D8: 'a little under -2.01',     # next to -2.01 on both sides
        0xC2B40000: '-90.00', 0x42B70000: '91.50', 0x49800000: 'over 1000000', 0x7F800000: 'infinity',
        0xFF800000: '-infinity', 0x7FC00000: 'no number', 0xFF800001: 'no number'},
}
# both ends and the singles inside them, zeros, and the smallest that are not
IN_RANGE = {
    ('site', 'latitude'): [0x42B40000, 0xC2B40000, 0x42B3FFFF, 0xC2B3FFFF, 0, 0x80000000, 1, 0x80000001],
    ('site', 'longitude'): [0x43340000, 0xC3340000, 0x4333FFFF, 0xC333FFFF, 0x80000000],
    ('radial 1', 'azimuth'): [0, 0x80000000, 1, 0x43B40000, 0x43B3FFFF],
    ('radial 1', 'elevation'): [0xC0000000, 0xBFFFFFFF, 0x42B40000, 0x42B3FFFF, 0x80000000],
}


def angles():
    for (number, block, field, what), tried in ANGLES.items():
        for bits, found in tried.items():
            yield ended(SMALL, number, block, field, single(bits), what, found=found)
    for (block, field), tried in IN_RANGE.items():
        for bits in tried:
            yield in_range(block, field, single(bits))


# --------------------------------------------------------------------------
# Bytes behind a volume, files without hope, and files that are not refused.

def behind():
    """25 cites the radial that closed the volume, by 4 or by 6; its place is where the volume ended."""
    for volume, block, state in (
            (SMALL, 'radial 2', 4), (PAIRS, 'radial 2', 4), (TWO, 'radial 5', 4), (THREE, 'radial 7', 4),
            (RICH, 'radial 8', 4), (RHI, 'radial 3', 6), (TWO_LAYERS, 'radial 5', 6), (LAYERS, 'radial 13', 6)):
        yield trailing(volume, block, state, b'\xff', 'a byte added')
    for volume, block, state, more, name in (
            (SMALL, 'radial 2', 4, SMALL.data, 'twice'),
            (SMALL, 'radial 2', 4, SMALL.data[772:], 'its last radial twice'),
            (SMALL, 'radial 2', 4, bytes(1000), '1000 bytes added'), (RHI, 'radial 3', 6, bytes(64), '64 bytes added'),
            (THREE, 'radial 7', 4, THREE.data[:32], 'a generic header added')):
        yield trailing(volume, block, state, more, name)
    yield trailing(RHI, 'radial 3', 6, b'\0', 'a byte added', [('task', 'scan type', 5)])


def hopeless():
    """40 at a cut, at a radial header and at a moment header. A cut of 1000 radials is left to the program `hoping`."""
    for k in 1, 2, 3:
        block = f'cut {k}'
        none = block, 'moments mask', 0
        yield case(THREE, [none], no_hope(block))
        yield case(THREE, [none, (block, 'size mask', ALL)], no_hope(block), end=end_of(THREE, block),
                   name='to its end')
        yield ended(THREE, 9, block, 'phase mode', 0, 'it is not 1..3', none)
    yield case(THREE, [none], opened(1), end=end_of(THREE, block) - 1, name='a byte of it missing')
    yield case(THREE, [('cut 1', 'moments mask', 0), ('cut 3', 'moments mask', 0)], no_hope('cut 1'))
    # more moments than types: one in cut 1, two in cut 2 and three in cut 3
    for block, count in ('radial 1', 2), ('radial 2', 2), ('radial 3', 3), ('radial 5', 64), ('radial 6', 4), (
            'radial 7', 4):
        many = (block, 'moment number', count), (block, 'length of data', 2112)
        yield case(THREE, many, no_hope(block), end=end_of(THREE, block), name='to its end')
    yield case(THREE, many, no_hope(block))
    yield case(THREE, many, opened(1), end=end_of(THREE, block) - 1, name='a byte of it missing')
    yield ended(THREE, 16, block, 'elevation', 90.5, 'it is not in -2..90', *many, found='90.50')
    # data that two-byte gates cannot fill: an odd count, or too few bytes for two moments
    both = radial(moment(3, words(7)), moment(4, words(8)))
    wide = made('two-byte types', volumes.volume([cut([both] * 2, mask(3, 4), ALL)]))
    for block, count, length in ('radial 1', 1, 33), ('radial 1', 1, 35), ('radial 2', 2, 66), ('radial 2', 2, 69):
        changes = (block, 'moment number', count), (block, 'length of data', length)
        yield case(wide, changes, no_hope(block), end=end_of(wide, block), name='to its end')
    # what a moment leaves to those after it: types 3 and 4 have two-byte gates, and type 1 is taken
    odd = made('an odd rest', volumes.volume([cut(
        [radial(moment(1, [5, 6]), moment(3, words(7, 8))),
         radial(moment(4, words(9)), moment(1, [5, 6]), moment(3, words(7, 8)))], mask(1, 3, 4), mask(3, 4))]))
    for block, length in ('moment 1 of radial 1', 1), ('moment 1 of radial 1', 3), ('moment 2 of radial 2', 3), (
            'moment 2 of radial 2', 5):
        short = block, 'length', length
        yield case(odd, [short], no_hope(block), end=end_of(odd, block), name='to its end')
    yield case(odd, [short], no_hope(block))
    yield case(odd, [short], opened(1), end=end_of(odd, block) - 1, name='a byte of it missing')
    yield ended(odd, 22, block, 'offset', 32769, 'it is not 0..32,768', short)


def not_refused():
    """Complete files, and files that end inside each kind of block and between two."""
    for volume in SMALL, PAIRS, TWO, THREE, RICH, RHI, LAYERS, VALLEY:
        yield case(volume, [], COMPLETE)
    for end, missing in (
            (0, 32), (1, 31), (31, 1), (32, 128), (33, 127), (159, 1), (160, 256), (200, 216), (415, 1), (416, 256),
            (500, 172), (671, 1), (672, 64), (673, 63), (736, 32), (767, 1), (768, 4), (769, 3), (772, 64), (868, 4),
            (871, 1)):
        yield case(SMALL, [], opened(missing), end=end, name=f'{end} bytes')
    for block, missing in ('cut 3', 256), ('radial 3', 64), ('moment 3 of radial 6', 32):
        place = THREE.places[block]
        yield case(THREE, [], opened(missing), end=place, name=f'to {block}')
        yield case(THREE, [], opened(1), end=end_of(THREE, block) - 1, name=f'{block} less a byte')
    inside = THREE.places['moment 2 of radial 6'] - 1   # before it two bytes of data
    yield case(THREE, [], opened(1), end=inside, name='inside the data of moment 1 of radial 6')
    # a block whose fault does not show before all its bytes are there
    for block, bad in BAD.items():
        _, field, value, _ = bad[0]
        yield case(SMALL, [(block, field, value)], opened(1), end=end_of(SMALL, block) - 1, name='a byte of it missing')


def clouds():
    """A cloud radar's files have other blocks: the heights stand where a volume has latitude and longitude, and bytes
    of a description, 0, where it has the polarization."""
    places = {'generic header': 0, 'site': 32, 'task': 160}
    plain = Volume('cloud', None, cloud.cloud(), places)
    yield case(plain, [], Told(5, 'task', 'polarization', '0', 'it is not 1..4'))
    high = Volume('cloud, high station', None, cloud.cloud(antenna_height=512.0, ground_height=508.0), places)
    yield case(high, [], Told(3, 'site', 'latitude', '512.00', 'it is not in -90..90'))
    spectra = Volume('cloud, spectra', None, cloud.cloud(generic_type=3), places)
    yield case(spectra, [], Told(2, 'generic header', 'generic type', '3', 'it is not 1'))
    yield asked_of(plain, [((1, 1, 0), no(30, 0)), ((0, 0, 0), no(30, 0))])


# --------------------------------------------------------------------------
# Gates.

NO_ECHO, FOLDED, NOT_LOOKED = 'no echo: code 0', 'range folded: code 1', 'the radar did not look: code 2'
UNKNOWN, RESERVED = 'unknown: code 3', 'reserved: code 4'
SPECIAL = [NO_ECHO, FOLDED, NOT_LOOKED, UNKNOWN, RESERVED]


def codes_spec():
    """Special codes, values on both sides of zero and of halves, the largest there are, and classes, in gates of one
    byte and of two."""
    values = moment(2, [0, 1, 2, 3, 4, 5, 66, 67, 255])
    sixteenths = moment(3, [129, 130, 131], scale=16, offset=130)
    eighths = moment(7, [99, 100, 101], scale=8, offset=100)
    classes = moment(14, [0, 1, 2, 3, 4, 5, 7, 255])
    large = moment(4, words(0, 1, 2, 3, 4, 5, 256, 261, 32768, 65535), scale=1, offset=32768)
    tiny = moment(5, words(32767, 32768, 32769, 32605, 32604, 32931, 32932, 5, 65535), scale=32768, offset=32768)
    halves = moment(6, words(999, 1001, 997, 1003, 971, 1029, 4), scale=200, offset=1000)
    below = moment(8, words(999, 1001, 899, 1101), scale=201, offset=1000)
    largest = moment(9, words(5, 65535), scale=1, offset=0)
    wide_classes = moment(15, words(0, 1, 2, 3, 4, 5, 256, 300, 65535), scale=1, offset=5)
    return volumes.volume([cut(
        [radial(values, sixteenths, eighths, classes), radial(large, tiny, halves, below, largest, wide_classes)],
        mask(2, 3, 4, 5, 6, 7, 8, 9, 14, 15), mask(4, 5, 6, 8, 9, 15))])


CODES = made('codes', codes_spec())
CODES_BY_HAND = {
    (1, 2): [*SPECIAL, '-61/2, -30.50', '0/2, 0.00', '1/2, 0.50', '189/2, 94.50'],
    (1, 3): ['-1/16, -0.06', '0/16, 0.00', '1/16, 0.06'],
    (1, 7): ['-1/8, -0.13', '0/8, 0.00', '1/8, 0.13'],
    (1, 14): [*SPECIAL, 'class 5', 'class 7', 'class 255'],
    (2, 4): [*SPECIAL, '-32763/1, -32763.00', '-32512/1, -32512.00', '-32507/1, -32507.00', '0/1, 0.00',
             '32767/1, 32767.00'],
    (2, 5): ['-1/32768, 0.00', '0/32768, 0.00', '1/32768, 0.00', '-163/32768, 0.00', '-164/32768, -0.01',
             '163/32768, 0.00', '164/32768, 0.01', '-32763/32768, -1.00', '32767/32768, 1.00'],
    (2, 6): ['-1/200, -0.01', '1/200, 0.01', '-3/200, -0.02', '3/200, 0.02', '-29/200, -0.15', '29/200, 0.15',
             RESERVED],
    (2, 8): ['-1/201, 0.00', '1/201, 0.00', '-101/201, -0.50', '101/201, 0.50'],
    (2, 9): ['5/1, 5.00', '65535/1, 65535.00'],
    (2, 15): [*SPECIAL, 'class 5', 'class 256', 'class 300', 'class 65535'],
}


def asked_of(volume, rows, data=None, name=''):
    """Questions with what is told of each, put to the volume or to a copy of it."""
    label = '; '.join([volume.name] + [name] * bool(name))
    return Case(label, volume, volume.data if data is None else data, *zip(*rows))


def sentences_of(m):
    """The sentence of each gate, from the codes of a moment as it was specified."""
    for code, hundredths in zip(m.codes, checking.formula(m)):
        if code < 5:
            yield SPECIAL[code]
        elif m.type in (14, 15):
            yield f'class {code}'
        else:
            yield f'{code - m.offset}/{m.scale}, {decimal.Decimal(hundredths).scaleb(-2):.2f}'


def every_gate(volume, radials=None):
    """((radial, type, gate), the sentence) of every gate; with a number, of the first radials alone."""
    for (n, t), m in checking.moments_of(volume.spec).items():
        if radials is None or n <= radials:
            for i, sentence in enumerate(sentences_of(m)):
                yield (n, t, i), sentence


def all_gates():
    """Of the volumes in samples/, of which short.vol is `small` without its last byte and cloud.vol has none, and of
    `codes`."""
    by_spec = {}
    for (n, t, _), sentence in every_gate(CODES):
        by_spec.setdefault((n, t), []).append(sentence)
    assert by_spec == CODES_BY_HAND
    for volume in SMALL, RICH, RHI, LAYERS, VALLEY, CODES:
        yield asked_of(volume, every_gate(volume))
    yield asked_of(SMALL, every_gate(SMALL, 1), SMALL.data[:-1], 'a byte missing')


def refused_questions():
    """30 before 31 before 32. Radial 2 of `rich` has types 3 and 1, and its cut types 2 and 5 too."""
    place = RICH.places
    rows = [((n, 1, 0), no(30, 8)) for n in (0, 9, 257, 65537, 2**31, FAR)]
    rows += [((0, 0, FAR), no(30, 8)), ((9, 65, FAR), no(30, 8))]
    rows += [((1, t, 0), no(31, place['radial 1'])) for t in (0, 4, 5, 65, 64, 257, 65537, 2**31 + 1, FAR)]
    rows += [((2, 2, 0), no(31, place['radial 2'])), ((2, 2, FAR), no(31, place['radial 2'])),
             ((8, 3, 0), no(31, place['radial 8'])), ((8, 13, 0), no(31, place['radial 8']))]
    rows += [((1, 1, i), no(32, 11)) for i in (11, 12, 256, 267, 65536, 2**31, FAR)]
    rows += [((1, 2, i), no(32, 13)) for i in (13, 26, 2**31 + 1, FAR)]     # two-byte gates
    rows += [((6, 3, 1), no(32, 1)), ((7, 4, 1), no(32, 1)), ((8, 15, 9), no(32, 9)), ((4, 64, 8), no(32, 8))]
    yield asked_of(RICH, rows)
    yield asked_of(SMALL, [((3, 2, 0), no(30, 2)), ((1, 3, 0), no(31, 672)), ((2, 1, 0), no(31, 772)),
                           ((2, 2, 4), no(32, 4)), ((2, 2, 3), '189/2, 94.50')])
    yield asked_of(VALLEY, [((25, 2, 0), no(30, 24)), ((24, 4, 0), no(31, VALLEY.places['radial 24'])),
                            ((24, 2, 13), no(32, 13)), ((6, 4, 3), no(32, 3))])


def shortened():
    """Questions on whole radials, of which there are some in an open file."""
    none = [((n, 2, 0), no(30, 0)) for n in (0, 1, 2)]
    for end in 0, 1, 672, 735, 768, 771:
        yield asked_of(SMALL, none, SMALL.data[:end], f'{end} bytes')
    for end in 772, 836, 868, 871:
        yield asked_of(SMALL, [*every_gate(SMALL, 1), ((2, 2, 0), no(30, 1)), ((1, 2, 4), no(32, 4)),
                               ((1, 1, 0), no(31, 672))], SMALL.data[:end], f'{end} bytes')
    yield asked_of(SMALL, [*every_gate(SMALL), ((3, 2, 0), no(30, 2))], SMALL.data + b'\0', 'a byte added')
    end = RICH.places['moment 2 of radial 3']
    yield asked_of(RICH, [((2, 3, 0), '125/16, 7.81'), ((2, 1, 10), '189/2, 94.50'), ((3, 2, 0), no(30, 2))],
                   RICH.data[:end], 'to moment 2 of radial 3')
    end = RICH.places['radial 4']
    yield asked_of(RICH, [((3, 2, 7), '-32507/1, -32507.00'), ((3, 1, 4), RESERVED), ((4, 63, 0), no(30, 3))],
                   RICH.data[:end], 'to radial 4')


def damaged():
    """Questions ahead of a fault, and gates of which something was changed that keeps every rule."""
    def copy(volume, changes, rows):
        return asked_of(volume, rows, changed(volume, changes), '; '.join(in_words(changes)))

    for change in ('generic header', 'magic', 0), ('cut 1', 'moments mask', 0), ('moment 1 of radial 1', 'scale', 0):
        yield copy(SMALL, [change], [((1, 2, 0), no(30, 0)), ((2, 2, 3), no(30, 0))])
    for change in ('radial 2', 'state', 2), ('radial 2', 'moment number', 0), ('moment 1 of radial 2', 'type', 3), (
            'moment 1 of radial 2', 'length', 3):
        yield copy(SMALL, [change], [*every_gate(SMALL, 1), ((2, 2, 0), no(30, 1)), ((1, 3, 0), no(31, 672))])
    yield copy(RICH, [('moment 2 of radial 8', 'type', 3)], [
        ((7, 14, 5), 'class 5'), ((7, 14, 4), RESERVED), ((7, 4, 0), '195/2, 97.50'), ((7, 13, 6), '0/2, 0.00'),
        ((8, 4, 0), no(30, 7)), ((7, 15, 0), no(31, RICH.places['radial 7']))])
    yield copy(LAYERS, [('radial 5', 'state', 1)], [
        ((4, 4, 0), FOLDED), ((4, 4, 1), '193/2, 96.50'), ((4, 2, 1), NOT_LOOKED), ((5, 2, 0), no(30, 4))])
    yield copy(SMALL, [('moment 1 of radial 1', 'scale', 4)], [
        ((1, 2, 2), '-61/4, -15.25'), ((2, 2, 3), '189/2, 94.50')])
    yield copy(SMALL, [('moment 1 of radial 1', 'offset', 0)], [((1, 2, 2), '5/2, 2.50'), ((1, 2, 1), FOLDED)])
    yield copy(SMALL, [('moment 1 of radial 1', 'flags', -1)], [((1, 2, 2), '-61/2, -30.50')])
    yield copy(SMALL, [('moment 1 of radial 1', 'scale', 32768), ('moment 1 of radial 1', 'offset', 32768)], [
        ((1, 2, 0), NO_ECHO), ((1, 2, 2), '-32763/32768, -1.00'), ((1, 2, 3), '-32702/32768, -1.00')])


def many_gates():
    """More gates than a byte counts, in gates of one byte and of two."""
    one, two = moment(2, [i % 256 for i in range(300)]), moment(4, words(*range(300)))
    volume = made('300 gates', volumes.volume([cut([radial(one, two), radial(two)], mask(2, 4), mask(4))]))
    yield asked_of(volume, [
        ((1, 2, 0), NO_ECHO), ((1, 2, 255), '189/2, 94.50'), ((1, 2, 256), NO_ECHO), ((1, 2, 299), '-23/2, -11.50'),
        ((1, 2, 300), no(32, 300)), ((1, 2, 65536), no(32, 300)), ((1, 4, 255), '189/2, 94.50'),
        ((1, 4, 256), '190/2, 95.00'), ((1, 4, 299), '233/2, 116.50'), ((1, 4, 300), no(32, 300)),
        ((1, 4, 600), no(32, 300)), ((2, 4, 299), '233/2, 116.50')])


# --------------------------------------------------------------------------
# What is printed.

def hexadecimal(raw):
    return ' '.join(f'{byte:02X}' for byte in raw)


def two_decimals(hundredths):
    return f'{"-" * (hundredths < 0)}{abs(hundredths) // 100}.{abs(hundredths) % 100:02}'


def degrees(x):
    """With two decimals, cut toward zero; words where it is not exactly that."""
    if math.isnan(x):
        return 'no number'
    if math.isinf(x):
        return 'infinity' if x > 0 else '-infinity'
    if abs(x) >= 2**20:
        return 'over 1000000' if x > 0 else 'under -1000000'
    exact = Fraction(x) * 100
    rest = '' if exact.denominator == 1 else 'a little over ' if x > 0 else 'a little under '
    return rest + two_decimals(math.trunc(exact))


def found_in(field):
    return degrees(field.value) if isinstance(field.value, float) else str(field.value)


def block_in_words(block):
    if block.kind == 'generic':
        return 'generic header'
    which = block.kind if block.nth is None else f'{block.kind} {block.nth}'
    return f'{which} of radial {block.radial}' if block.kind == 'moment' else which


def file_lines(told):
    if told == 'complete':
        return ['nothing is refused: the file is complete']
    if told[0] == 'open':
        return [f'nothing is refused: the file is open, missing bytes: {told[1]}']
    field = told.field
    return [f'refused {told.number} {told.place}',
            f'block: {block_in_words(told.block)}, at byte {told.block.place}',
            *([f'field: {field.name}, {field.size} bytes at byte {field.place}',
               f'found: {found_in(field)}, bytes {hexadecimal(field.bytes)}'] if field else []),
            f'broken: {told.broken}']


def sentence(told):
    gate = told.gate
    if gate.kind < 5:
        kinds = 'no echo', 'range folded', 'the radar did not look', 'unknown', 'reserved'
        return f'{kinds[gate.kind]}: code {told.code.value}'
    if gate.kind == 6:
        return f'class {gate.code}'
    return f'{gate.numerator}/{gate.denominator}, {two_decimals(gate.hundredths)}'


def gate_lines(told):
    if isinstance(told, ref.NoGate):
        return [f'refused {told.number} {told.place}',
                {30: f'no such whole radial; the file has {told.there_is}',
                 31: f'no such moment in the radial, which stands at byte {told.there_is}',
                 32: f'no such gate; the moment has {told.there_is}'}[told.number]]
    return [f'{c.name}: {c.value}, bytes {hexadecimal(c.bytes)} at byte {c.place}' for c in told[:5]] + [sentence(told)]


# Whole answers on the small volume, by hand.
BY_HAND = '''
refused 25 872
block: radial 2, at byte 772
field: state, 4 bytes at byte 772
found: 4, bytes 04 00 00 00
broken: bytes follow the volume that this radial closes

refused 16 696
block: radial 1, at byte 672
field: elevation, 4 bytes at byte 696
found: -2.25, bytes 00 00 10 C0
broken: it is not in -2..90

refused 23 748
block: moment 1 of radial 1, at byte 736
field: bin length, 2 bytes at byte 748
found: -1, bytes FF FF
broken: it is not 1, while the type's bit in the cut's size mask is 0

refused 40 416
block: cut 1, at byte 416
broken: no further bytes would make the file complete

nothing is refused: the file is complete

nothing is refused: the file is open, missing bytes: 1

type: 2, bytes 02 00 00 00 at byte 736
scale: 2, bytes 02 00 00 00 at byte 740
offset: 66, bytes 42 00 00 00 at byte 744
bin length: 1, bytes 01 00 at byte 748
code: 5, bytes 05 at byte 770
-61/2, -30.50

refused 30 0
no such whole radial; the file has 2

refused 31 0
no such moment in the radial, which stands at byte 672

refused 32 0
no such gate; the moment has 4
'''


def by_hand():
    """The same answers from the reference."""
    data = SMALL.data
    files = [data + b'\0'] + [changed(SMALL, [change]) for change in (
        ('radial 1', 'elevation', -2.25), ('moment 1 of radial 1', 'bin length', -1), ('cut 1', 'moments mask', 0))]
    gates = (1, 2, 2), (3, 2, 0), (1, 3, 0), (1, 2, 4)
    answers = [file_lines(ref.why(file)) for file in (*files, data, data[:-1])]
    answers += [gate_lines(ref.why_gate(data, *asked)) for asked in gates]
    return '\n\n'.join('\n'.join(lines) for lines in answers)


# --------------------------------------------------------------------------
# Every case, and whether the reference tells what is given with it.

GROUPS = [
    each_clause, several_clauses, several_fields, several_blocks, other_cuts, other_radials, states, other_moments,
    ranges, magics, cut_numbers, lengths_of_data, lengths_of_moments, masks, angles, behind, hopeless, not_refused,
    clouds, all_gates, refused_questions, shortened, damaged, many_gates]


def check_file(c, told, answer):
    """That this was to be told, at the places that the blocks have by their sizes."""
    if not isinstance(told, Told):
        assert answer == told
        return
    assert isinstance(answer, ref.Why)
    assert (answer.number, block_in_words(answer.block), answer.broken) == (told.number, told.block, told.broken)
    place = c.volume.places[told.block] if told.place is None else told.place
    assert answer.block.place == place
    if told.field is None:
        assert answer.field is None and answer.place == place
        return
    field, kind = answer.field, kind_of(told.block)
    assert (field.name, found_in(field)) == (told.field, told.found)
    first = place + ref.PLACE[kind, told.field]
    assert (field.place, field.size) == (first, struct.calcsize(ref.FORMAT[kind, told.field]))
    assert field.bytes == c.data[first:first + field.size]
    assert answer.place == (radial_end(c.volume, told.block) if told.number == 25 else first)


def radial_end(volume, block):
    """Where a radial ends: the next one's place, or the volume's end."""
    n = int(block.split()[1])
    return volume.places.get(f'radial {n + 1}', len(volume.data))


def check_gate(c, asked, told, answer):
    """That this was to be told, with the places in the moment's header and data as the volume was specified."""
    if isinstance(told, ref.NoGate):
        assert answer == told
        return
    assert isinstance(answer, ref.WhyGate) and sentence(answer) == told
    n, t, gate = asked
    head, size = moment_at(c.volume, n, t)
    places = head, head + 4, head + 8, head + 12, head + 32 + gate * size
    for cited, place, length in zip(answer, places, (4, 4, 4, 2, size)):
        assert (cited.place, cited.size, cited.bytes) == (place, length, c.data[place:place + length])


def moment_at(volume, n, t):
    """Where a moment's header stands, and the size of its gates."""
    cuts = [c for c in volume.spec['cuts'] for _ in c['radials']]
    types = [m['fields']['type'] for m in radials_of(volume.spec)[n - 1]['moments']]
    size = 1 + ref.bit(cuts[n - 1]['fields']['size mask'], t)
    return volume.places[f'moment {types.index(t) + 1} of radial {n}'], size


def answers_of(c):
    """(what is asked, the lines) of each answer."""
    if not c.asked:
        answer = ref.why(c.data)
        check_file(c, *c.told, answer)
        yield c.name, file_lines(answer)
    for asked, told in zip(c.asked, c.told):
        answer = ref.why_gate(c.data, *asked)
        check_gate(c, asked, told, answer)
        yield '{}: radial {}, type {}, gate {}'.format(c.name, *asked), gate_lines(answer)


def checked():
    """(case, its answers) of every case."""
    assert by_hand() == BY_HAND.strip()
    met = set()
    for c in itertools.chain.from_iterable(group() for group in GROUPS):
        try:
            answers = [*answers_of(c)]
        except AssertionError as wrong:
            raise AssertionError(c.name) from wrong
        met |= {(told.number, told.field, told.broken) for told in c.told if isinstance(told, Told)}
        yield c, answers
    # every clause is broken by some file, but for the two that no file can break
    table = {(rule.number, rule.field, clause.broken)
             for rules in ref.RULES.values() for rule in rules for clause in rule.clauses}
    assert table - met == {(12, 'sequence', 'it would pass 65,536'), (13, 'radial number', 'the count is over 1000')}
    assert met - table == {(25, 'state', TRAILING), (40, None, NO_HOPE)}


def case_bytes(c):
    questions = b''.join(struct.pack('<3I', *asked) for asked in c.asked)
    return struct.pack('<2I', len(c.data), len(c.asked)) + c.data + questions


def main(args):
    if args == ['stdin']:
        for c, _ in checked():
            sys.stdout.buffer.write(case_bytes(c))
    elif args == ['stdout']:
        print('\n\n'.join('\n'.join(lines) for _, answers in checked() for _, lines in answers))
    elif args == ['names']:
        number = itertools.count(1)
        for _, answers in checked():
            for asked, lines in answers:                # a name, then nothing beside the rest of its answer
                print(f'{next(number)}: {asked}', end='\n' * (len(lines) + 1))
    else:
        sys.exit('usage: why_expected.py stdin|stdout|names')


if __name__ == '__main__':
    main(sys.argv[1:])
