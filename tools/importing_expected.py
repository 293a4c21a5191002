#!/usr/bin/env python3
"""What the program `importing` reads and prints: old SA/SB files brought in under records of ours (document 02, #102).

    python3 tools/importing_expected.py stdin > crates/importing/stdin
    python3 tools/importing_expected.py stdout > crates/importing/stdout
    python3 tools/importing_expected.py names       each case's number and what it is, beside its lines of the output
    python3 tools/importing_expected.py shelf.records > samples/shelf.records       and so shelf.old

Standard input is one case after the other: how many bytes our records have, how many the old file has, how long the
room is, which output is wanted (0, 1 or 2), then our records (generic, site, task and cuts, one after the other) and the
old file. Every number has four bytes, little-endian. The room is filled with AA before, and its checksum covers all
of it. A line for each case:

    refused NUMBER PLACE CHECKSUM
    taken BYTES complete CHECKSUM       or open
    no records                          where generic, site and task are not all there
    too long                            where the room would be longer than the program's own
    cut short                           where the input ends in the case

Where output 1 is wanted, for each radial and each of types 2, 3 and 4 another line, with the gates of the volume that
was written: `0` or `1` where it has no value, else `5 DIFFERENCE/SCALE`, the difference that of code and offset; 31
where the radial has no such moment.

Output 2 is for the command line, and has no checksum:

    refused NUMBER PLACE                and a second line that says it in words
    taken BYTES complete                or open MISSING; then the volume's bytes as they are, with no line behind them

Each case is given with what is to be told of it, by hand, and the import written from the text has to tell the same.
A volume that was taken has to be the one that volumes.py builds of the same radials, with the times counted by the
calendar and the codes worked out from document 003's values; its gates, as read, have to have these values. Nothing
in the output comes from the program.
"""
import datetime
import itertools
import struct
import sys
from collections import namedtuple
from fractions import Fraction

sys.dont_write_bytecode = True
import importing
import reference as ref
import volumes
from volumes import cut, mask, moment, radial

FILLED = 0xAA
LONGEST_ROOM = 4169072                  # of our records with 256 cuts, and 862 old radials of the most gates
ALL = 2**64 - 1                         # of a mask
COMPLETE, OPEN = 'complete', 'open'
NO_RECORDS, TOO_LONG, CUT_SHORT = 'no records', 'too long', 'cut short'
CUT_1, CUT_2, CUT_3 = 416, 672, 928     # where a cut's block stands; the first radial's where there is no such cut

# told is one of these five, or a refusal; old are the bytes of the old file, radials what they were made of
Case = namedtuple('Case', 'name records old radials room output told')
# An old radial; counts are the gate counts where these are not those of the codes
Old = namedtuple('Old', 'state number z v w resolution day ms azimuth elevation mark counts')

no = ref.refused


# --------------------------------------------------------------------------
# Old files.

def old(state, number=1, z=(0, 130, 1), v=(129, 2), w=(255, 1), resolution=2, day=16725, ms=46800123, azimuth=8192,
        elevation=91, mark=1, counts=None):
    """An old radial, near 0.5 degrees, on 16 October 2015."""
    return Old(state, number, bytes(z), bytes(v), bytes(w), resolution, day, ms, azimuth, elevation, mark, counts)


def reflectivity(state, number=1, **fields):
    return old(state, number, v=(), w=(), **fields)


def doppler(state, number=1, **fields):
    return old(state, number, z=(), **fields)


def file_of(radials):
    return b''.join(map(raw, radials))


def raw(o):
    """The bytes of an old radial. What is not looked at holds something: the pointers, the old number in the cut, the
    bytes behind the data."""
    out = bytearray((73 * i + 29) % 256 for i in range(2432))
    z_gates, v_gates = o.counts or (len(o.z), len(o.v))
    for place, fmt, value in (
            (14, '<H', o.mark), (28, '<I', o.ms), (32, '<H', o.day), (36, '<H', o.azimuth), (40, '<H', o.state),
            (42, '<H', o.elevation), (44, '<H', o.number), (54, '<H', z_gates), (56, '<H', v_gates),
            (70, '<H', o.resolution)):
        struct.pack_into(fmt, out, place, value)
    data = o.z + o.v + o.w
    out[128:128 + len(data)] = data
    assert len(out) == 2432 and len(o.v) == len(o.w)
    return bytes(out)


def scan(*cuts):
    """An old file by the states of each cut's radials. All have other angles, times and codes; of three one after the
    other, the first has all moments, the second reflectivity alone and the third the other two."""
    out = []
    for number, states in enumerate(cuts, 1):
        for state in states:
            k = len(out)
            some = bytes((k * 50 + i * 37) % 256 for i in range(10))
            z, v, w = some[:3 + k % 2], some[4:7], some[7:]
            if k % 3 == 1:
                v = w = b''
            elif k % 3 == 2:
                z = b''
            out.append(old(state, number, z, v, w, resolution=2 + 2 * (k % 2), ms=46800123 + 1377 * k,
                           azimuth=(8192 + 13000 * k) % 65536, elevation=91 * number))
    return out


# --------------------------------------------------------------------------
# Our records.

USUAL = mask(2, 3, 4), mask(2, 3, 4)    # moments mask and size mask


def front(*cuts, scan_type=0):
    """Our records; a cut is given by its two masks. Fields that have no rule hold something."""
    spec = volumes.volume([cut([], *masks) for masks in cuts], fill=7, **{'scan type': scan_type})
    return volumes.build(spec)


def changed(records, *changes):
    """With other fields: (block, field, value)."""
    out = bytearray(records)
    for block, field, value in changes:
        kind, number = block.split()[0], int((block.split() + [1])[1])
        place = {'generic': 0, 'site': 32, 'task': 160, 'cut': 160 + 256 * number}[kind] + ref.PLACE[kind, field]
        struct.pack_into(ref.FORMAT[kind, field], out, place, value)
    return bytes(out)


ONE, TWO, THREE = front(USUAL), front(USUAL, USUAL), front(USUAL, USUAL, USUAL)


def case(name, records, radials, told, room=None, output=0, old_file=None):
    """The room is as long as the volume would be, if it is not given."""
    if room is None:
        room = len(records) + sum(map(new_size, radials))
    return Case(name, records, file_of(radials) if old_file is None else old_file, radials, room, output, told)


def new_size(o):
    """How many bytes an old radial becomes."""
    return 64 + sum(32 + 2 * len(codes) for codes in (o.z, o.v, o.w) if codes)


def first(name, told, o, records=ONE, **how):
    """One old radial alone."""
    return case(name, records, [o], told, **how)


# --------------------------------------------------------------------------
# The shelf.

def shelf_spec():
    """Our records of two cuts, without radials."""
    cuts = [cut([], *USUAL, elevation=e, **{'log resolution': 1000}) for e in (0.5, 1.5)]
    return volumes.volume(cuts)


def shelf():
    """Their six old radials: all moments, reflectivity alone, and velocity with width alone."""
    z, v, w = (0, 0, 66, 90, 104, 120, 1, 0), (0, 129, 140, 2, 255, 1, 100, 64), (0, 131, 133, 130, 139, 1, 129, 0)
    return [
        old(3, 1, z, v, w, azimuth=0),
        reflectivity(1, 1, z=z[::-1], azimuth=182, ms=46800170),
        doppler(2, 1, v=v[::-1], w=w[::-1], azimuth=364, ms=46800216),
        old(0, 2, z[:5], v[:6], w[:6], resolution=4, elevation=273, azimuth=364, ms=46801002),
        doppler(1, 2, v=v[:4], w=w[2:6], resolution=4, elevation=273, azimuth=546, ms=46801049),
        old(4, 2, z, v[2:], w[2:], resolution=4, elevation=273, azimuth=728, ms=46801095)]


def samples():
    return {'shelf.records': volumes.build(shelf_spec()), 'shelf.old': file_of(shelf())}


def whole_shelf():
    records, radials = samples()['shelf.records'], shelf()
    yield case('the shelf', records, radials, COMPLETE, output=1)
    yield case('the first cut of the shelf', records, radials[:3], OPEN)
    yield case('the first radial of the shelf, in the longest room', records, radials[:1], OPEN, room=LONGEST_ROOM)
    yield case('in a room of one byte more', records, radials[:1], TOO_LONG, room=LONGEST_ROOM + 1)


# --------------------------------------------------------------------------
# 50, and records that are not there.

def old_lengths():
    two = file_of(scan([3, 4]))
    for length in 0, 2431, 2433:
        yield case(f'an old file of {length} bytes', ONE, [], no(50), room=900, old_file=two[:length])
    yield case('an old file of 2432 bytes', ONE, scan([3]), OPEN)
    yield case('an old file of 4864 bytes', ONE, scan([3, 4]), COMPLETE)
    magic = changed(ONE, ('generic', 'magic', 0))
    yield case('50 ahead of 1', magic, [], no(50), room=900, old_file=two[:100])
    yield case('50 ahead of 33', ONE, [], no(50), room=0, old_file=b'')
    yield case('50 ahead of 34', ONE[:CUT_1 + 100], [], no(50), room=900, old_file=two[:100])
    yield case('50 ahead of 51', ONE, [], no(50), room=900, old_file=raw(old(3, mark=2)) + b'\1')


def no_records():
    """The next case shows that the old file was passed over."""
    yield case('records of 415 bytes', ONE[:415], scan([3]), NO_RECORDS, room=2000)
    yield case('records of 416 bytes, so no cut', ONE[:416], scan([3]), no(34, CUT_1), room=2000)
    yield case('neither records nor an old file', b'', [], NO_RECORDS)
    yield case('records of 415 bytes, an old file of one', ONE[:415], [], NO_RECORDS, room=10, output=1, old_file=b'\1')


# --------------------------------------------------------------------------
# The writer's refusals on our records.

def our_fields():
    """Each number. Every other case has an old file that is refused too, behind our records."""
    for k, (number, place, block, field, value) in enumerate([
            (1, 0, 'generic', 'magic', 0x4D545353), (2, 8, 'generic', 'generic type', 2),
            (3, 32 + 40, 'site', 'latitude', 90.5), (4, 32 + 44, 'site', 'longitude', float('nan')),
            (5, 160 + 160, 'task', 'polarization', 0), (6, 160 + 164, 'task', 'scan type', 7),
            (7, 160 + 172, 'task', 'start time', -1), (8, 160 + 176, 'task', 'cut number', 257),
            (40, CUT_1, 'cut 1', 'moments mask', 0), (9, CUT_1, 'cut 1', 'process mode', 0),
            (40, CUT_2, 'cut 2', 'moments mask', 0), (9, CUT_2 + 72, 'cut 2', 'phase mode', 4)]):
        records = changed(TWO if block == 'cut 2' else ONE, (block, field, value))
        name = f'{block}, {field} {value}' + ', and mark 2' * (k % 2)
        yield first(name, no(number, place), old(3, mark=1 + k % 2), records)
    yield first('9 ahead of 40', no(9, CUT_1 + 72), old(3),
                changed(ONE, ('cut 1', 'moments mask', 0), ('cut 1', 'phase mode', 0)))


def cut_counts():
    """Other numbers of cuts than the task says, and bytes that are no whole cut."""
    due_two, spare = changed(ONE, ('task', 'cut number', 2)), TWO[CUT_2:]
    bad, bad_spare = changed(ONE, ('cut 1', 'wave form', 7)), changed(TWO, ('cut 2', 'wave form', 7))[CUT_2:]
    for name, records, told in (
            ('a cut where two are due', due_two, no(34, CUT_2)),
            ('two cuts where one is due', ONE + spare, no(34, CUT_2)),
            ('two cuts where one is due, the second bad', ONE + bad_spare, no(34, CUT_2)),
            ('two cuts where one is due, the first bad', bad + spare, no(9, CUT_1 + 4)),
            ('cuts of 255 bytes', ONE[:-1], no(34, CUT_1)),
            ('cuts of 257 bytes', ONE + b'\1', no(34, CUT_2)),
            ('cuts of 511 bytes where two are due', TWO[:-1], no(34, CUT_2)),
            ('cuts of 257 bytes, the first bad', bad + b'\1', no(9, CUT_1 + 4))):
        yield first(name, told, old(3), records)
    # too few are found out at the first radial, a part of a cut before it
    yield first('too few cuts, mark 2', no(51, 0), old(3, mark=2), due_two)
    yield first('no cut, day 0', no(62, 0), old(3, day=0), ONE[:416])
    yield first('too few cuts, state 1', no(34, CUT_2), old(1), due_two)
    yield first('a part of a cut, mark 2', no(34, CUT_2), old(3, mark=2), ONE + b'\1')
    yield first('too many cuts, mark 2', no(34, CUT_2), old(3, mark=2), ONE + spare)
    # 33 is told of a block that is due
    yield first('too few cuts, no room behind them', no(34, CUT_2), old(3), due_two, room=CUT_2)
    yield first('a part of a cut, no room for the cut', no(33, CUT_1), old(3), ONE + b'\1', room=CUT_2 - 1)
    yield first('a part of a cut, no room behind the cut', no(34, CUT_2), old(3), ONE + b'\1', room=CUT_2)


# --------------------------------------------------------------------------
# 51, 62, 52, 53: an old radial's own refusals.

def marks():
    for mark in 0, 2, 257:
        yield first(f'mark {mark}', no(51, 0), old(3, mark=mark))


def times():
    """Day 24,856 holds 11,648 seconds that still fit. Day 49,712 begins 63,104 seconds past 2**32."""
    for day, ms in ((1, 0), (1, 86399999), (24855, 86399999), (24856, 11647999)):
        yield first(f'day {day}, milliseconds {ms}', OPEN, old(3, day=day, ms=ms))
    for day, ms in ((0, 0), (1, 86400000), (1, 4294967295), (24856, 11648000), (24857, 0), (49712, 0), (65535, 0)):
        yield first(f'day {day}, milliseconds {ms}', no(62, 0), old(3, day=day, ms=ms))
    yield case('other times', ONE, [reflectivity(3, day=2, ms=999), reflectivity(1, day=365, ms=1000),
                                    reflectivity(1, ms=59001)], OPEN)


def codes(gates, step=1):
    return bytes(step * i % 256 for i in range(gates))


def gate_counts():
    for z, v in (1, 0), (0, 1), (460, 0), (0, 920), (460, 920):
        yield first(f'gate counts {z} and {v}', OPEN, old(3, z=codes(z), v=codes(v, 3), w=codes(v, 7)))
    for counts in (461, 0), (0, 921), (461, 920), (460, 921), (0, 0), (32768, 1), (3, 65535):
        yield first('gate counts {} and {}'.format(*counts), no(52, 0), old(3, counts=counts))


def resolutions():
    yield first('resolution 4', OPEN, old(3, resolution=4), output=1)
    for resolution in 0, 3, 5, 258, 65535:
        yield first(f'resolution {resolution}', no(53, 0), old(3, resolution=resolution))
    yield first('resolution 3, reflectivity alone', no(53, 0), reflectivity(3, resolution=3))


def own_order():
    """51, 62, 52, 53, then the writer's."""
    faults = {'mark': 2, 'day': 0, 'counts': (0, 0), 'resolution': 3}
    for k, number in enumerate((51, 62, 52, 53)):
        left = dict([*faults.items()][k:])
        yield first(f'{", ".join(left)} and state 1', no(number, 0), old(1, **left))


# --------------------------------------------------------------------------
# The writer's refusals on a radial.

SIZE = 64 + 3 * 32 + 2 * (3 + 2 + 2)    # of what an `old` becomes, with three, two and two gates


def states():
    for state in 1, 5, 9, 259:
        yield first(f'state {state} first', no(10, CUT_2), old(state))
    for state in 2, 3:
        yield case(f'state {state} second, in the last cut', ONE, [old(3), old(state)], no(10, CUT_2 + SIZE))
    yield case('the volume closed too early', TWO, [old(3), old(4)], no(10, CUT_3 + SIZE))
    yield case('the second cut opened by 1', TWO, [old(3), old(2), old(1, 2)], no(10, CUT_3 + 2 * SIZE))


def scan_types():
    """Types 2 and 5 open by 5 and close by 6, which an old file has no states for; all others by 3 and 4."""
    for state, types, told in (
            (3, (1, 3, 4, 6), OPEN), (5, (2, 5), OPEN), (5, (1, 6), no(10, CUT_2)), (3, (2, 5), no(10, CUT_2))):
        for t in types:
            yield first(f'scan type {t}, state {state} first', told, old(state), front(USUAL, scan_type=t))
    yield case('scan type 2', front(USUAL, scan_type=2), scan([5, 6]), COMPLETE)
    yield case('scan type 5, two cuts', front(USUAL, USUAL, scan_type=5), scan([5, 6], [5, 6]), COMPLETE)
    yield case('scan type 5, closed by 4', front(USUAL, scan_type=5), [old(5), old(4)], no(10, CUT_2 + SIZE))


def elevation_numbers():
    """The old ones are carried over, and have to be the cut's."""
    for number in 0, 2, 257:
        yield first(f'elevation number {number}', no(14, CUT_2 + 16), old(3, number))
    yield case('elevation number 1 in both cuts', TWO, [old(3), old(2), old(0, 1)], no(14, CUT_3 + 2 * SIZE + 16))
    yield first('10 ahead of 14', no(10, CUT_2), old(1, 2))
    yield first('14 ahead of 33', no(14, CUT_2 + 16), old(3, 2), room=CUT_2)


def angles():
    """90 degrees are 16384. Old numbers are unsigned, so what would be a little below 0 is near 360."""
    for n in 16385, 65535:
        yield first(f'elevation {n}', no(16, CUT_2 + 24), old(3, elevation=n))
    turns = [(65535, 16384), (0, 0), (1, 16383), (32768, 1), (43691, 5461)]
    yield case('azimuth 65535, elevation 16384, and other angles', ONE, [
        reflectivity(1 if k else 3, azimuth=a, elevation=e) for k, (a, e) in enumerate(turns)], OPEN)


def masks():
    """Types that a cut has not, or has in one-byte gates. Of an `old` the second moment stands 38 bytes behind the
    first, the third 36 behind the second."""
    at, two_byte = CUT_2 + 64, USUAL[1]
    three, z, d = old(3), reflectivity(3), doppler(3)
    for name, types, o, told in (
            ('type 2, reflectivity alone', [2], z, OPEN), ('type 2, all moments', [2], three, no(40, CUT_2)),
            ('types 3 and 4, velocity and width', [3, 4], d, OPEN), ('types 3 and 4, reflectivity', [3, 4], z, no(20, at)),
            ('types 2 and 3, velocity and width', [2, 3], d, no(20, at + 36)),
            ('types 1, 2 and 3, all moments', [1, 2, 3], three, no(20, at + 38 + 36))):
        yield first(f'a cut of {name}', told, o, front((mask(*types), two_byte)))
    yield first('a cut of all types', OPEN, three, front((ALL, ALL)))
    for name, sizes, told in (
            ('no type', [], no(23, at + 12)), ('types 2 and 4', [2, 4], no(23, at + 38 + 12)),
            ('types 2 and 3', [2, 3], no(23, at + 38 + 36 + 12))):
        yield first(f'two-byte gates for {name}', told, three, front((ALL, mask(*sizes))))
    each = front((mask(2), mask(2)), (mask(3, 4), mask(3, 4)))
    yield case('reflectivity in the first cut, velocity and width in the second', each,
               [z, reflectivity(2), doppler(0, 2), doppler(4, 2)], COMPLETE)
    one, other = front((mask(2), two_byte)), front((mask(3), two_byte))
    yield first('16 ahead of 40', no(16, CUT_2 + 24), old(3, elevation=20000), one)
    yield first('40 ahead of 33', no(40, CUT_2), three, one, room=CUT_2)
    yield first('20 ahead of 33', no(20, at), z, other, room=at)
    yield first('33 of the header ahead of 20', no(33, CUT_2), z, other, room=at - 1)


# --------------------------------------------------------------------------
# 33, block by block.

def rooms():
    """Each block of an `old` a byte short, and some with just enough room: then the next has none."""
    o, ends = old(3), [0, 32, 160, 416, CUT_2, CUT_2 + 64]
    for gates in 3, 2, 2:
        ends += [ends[-1] + 32, ends[-1] + 32 + 2 * gates]
    assert ends[-1] == CUT_2 + SIZE
    for start, end in zip(ends, ends[1:]):
        yield first(f'a room of {end - 1}, a byte short for the block at {start}', no(33, start), o, room=end - 1)
    for end in ends[1], ends[4], ends[5], ends[6], ends[7]:
        yield first(f'a room of {end}, none for the block there', no(33, end), o, room=end)
    yield first('all the room', OPEN, o, room=ends[-1])
    yield first('a byte more', OPEN, o, room=ends[-1] + 1)
    yield first('no room, state 1', no(33, 0), old(1), room=0)
    yield first('no room, magic 0', no(1, 0), o, changed(ONE, ('generic', 'magic', 0)), room=0)
    yield first('no room behind the cut, mark 2', no(51, 0), old(3, mark=2), room=CUT_2)
    yield first('no room behind the cut, state 1', no(10, CUT_2), old(1), room=CUT_2)
    yield case('the second of two radials a byte short', ONE, [o, old(4)], no(33, CUT_2 + 2 * SIZE - 4),
               room=CUT_2 + 2 * SIZE - 1)
    yield case('room for one of two radials', ONE, [o, old(4)], no(33, CUT_2 + SIZE), room=CUT_2 + SIZE)
    yield case('33 of the first radial ahead of 51 of the second', ONE, [o, old(4, mark=2)], no(33, CUT_2 + SIZE - 4),
               room=CUT_2 + SIZE - 1)


# --------------------------------------------------------------------------
# Radials after one another.

def later_radials():
    """A refusal after radials that were taken. 51, 62, 52 and 53 have the old radial's place, the writer's the new."""
    for name, bad, told in (
            ('mark 0', old(4, mark=0), no(51, 4864)), ('state 3', old(3), no(10, CUT_2 + 2 * SIZE))):
        yield case(f'the last of three, {name}', ONE, [old(3), old(1), bad], told)
    for name, bad, told in (
            ('milliseconds 86400000', old(4, ms=86400000), no(62, 2432)), ('no gates', old(4, counts=(0, 0)), no(52, 2432)),
            ('resolution 5', old(4, resolution=5), no(53, 2432)),
            ('elevation 16385', old(4, elevation=16385), no(16, CUT_2 + SIZE + 24))):
        yield case(f'the last of two, {name}', ONE, [old(3), bad], told)
    yield case('10 of the first radial ahead of 51 of the second', ONE, [old(1), old(4, mark=2)], no(10, CUT_2))


def after_the_end():
    done, end = [old(3), old(4)], CUT_2 + 2 * SIZE
    yield case('a radial after the end', ONE, done + [old(9, 7)], no(25, end))
    yield case('a radial after the end, mark 2', ONE, done + [old(1, mark=2)], no(51, 4864))
    yield case('a radial after the end, no room for it', ONE, done + [old(1)], no(25, end), room=end)


def several_cuts():
    """Sequence numbers go on from cut to cut, those in a cut begin anew."""
    yield case('three cuts of three, two and two radials', THREE, scan([3, 1, 2], [0, 2], [0, 4]), COMPLETE, output=1)
    yield case('three cuts, the second not closed', THREE, scan([3, 2], [0, 1]), OPEN)
    yield first('60 cuts', OPEN, old(3), front(*[USUAL] * 60))


# --------------------------------------------------------------------------
# Codes.

def gates():
    some = 0, 1, 2, 3, 4, 5, 66, 129, 254, 255
    for resolution in 2, 4:
        yield first(f'codes at the edges, resolution {resolution}', OPEN, old(
            3, z=some, v=some[::-1], w=some[5:] + some[:5], resolution=resolution), output=1)
    yield case('radials that lack moments', ONE, [
        doppler(3, v=[1, 254], w=[2, 0], resolution=4), reflectivity(1, z=[255, 2, 0]), old(4, z=[2], v=[2], w=[2])],
        COMPLETE, room=5000, output=1)
    every = codes(256)
    yield case('all codes', ONE, [old(3, z=every, v=every[::-1], w=every, resolution=2),
                                  old(4, z=every[::-1], v=every, w=every[::-1], resolution=4)], COMPLETE)
    yield case('two radials of the most gates', ONE, [
        old(state, z=codes(460, 11), v=codes(920, 13), w=codes(920, 17), resolution=resolution)
        for state, resolution in ((3, 2), (4, 4))], COMPLETE)
    yield first('gates wanted of a file that is refused', no(51, 0), old(3, mark=2), output=1)


# --------------------------------------------------------------------------
# The command line's output, and the input's end.

WORDS = {
    50: 'the length of the old file is not a positive multiple of 2432',
    51: 'the radar mark of the old radial there is not 1',
    62: 'the time of the old radial there: day 0, milliseconds not under 86,400,000 or seconds over 2,147,483,647',
    52: 'a gate count of the old radial there is too large, or all are 0',
    53: 'the resolution of the old radial there is not 2 or 4'}
OTHER_WORDS = 'our writer refuses a block of the new volume there'


def command_line():
    records, radials = samples()['shelf.records'], shelf()
    yield case('the bytes of the shelf', records, radials, COMPLETE, output=2)
    yield case('the bytes of its first cut', records, radials[:3], OPEN, output=2)
    yield case('no records, for the command line', records[:415], radials, NO_RECORDS, output=2)
    yield case('50 in words', ONE, [], no(50), room=900, output=2, old_file=b'\1')
    for number, fault in (51, {'mark': 2}), (62, {'day': 0}), (52, {'counts': (0, 0)}), (53, {'resolution': 3}):
        yield case(f'{number} in words', ONE, [old(3), old(1, **fault)], no(number, 2432), output=2)
    yield first('10 in words', no(10, CUT_2), old(1), output=2)
    yield first('1 in words', no(1, 0), old(3), changed(ONE, ('generic', 'magic', 0)), output=2)


def cut_short():
    """The last, since nothing is read behind it: the input lacks its last byte."""
    yield first('a case that is cut short', CUT_SHORT, old(3))


GROUPS = [whole_shelf, old_lengths, no_records, our_fields, cut_counts, marks, times, gate_counts, resolutions, own_order,
          states, scan_types, elevation_numbers, angles, masks, rooms, later_radials, after_the_end, several_cuts, gates,
          command_line, cut_short]


# --------------------------------------------------------------------------
# What the volume is to be, by another way than the import's.

def value_by_003(t, code, resolution):
    """Document 003's formulas; None where a code is no value."""
    if code in (0, 1):
        return None
    if t == 2:
        return Fraction(code - 2, 2) - 32
    if t == 3 and resolution == 4:
        return Fraction(code - 2) - 127
    return Fraction(code - 2, 2) - Fraction('63.5')


def new_codes(t, old_codes, scale, offset, resolution):
    """The codes that have these values under our scale and offset."""
    for code in old_codes:
        value = value_by_003(t, code, resolution)
        new = Fraction(code) if value is None else offset + scale * value
        assert new.denominator == 1
        yield int(new)


def degrees_by_003(n):
    """As the single's bytes, which hold it exactly."""
    single = struct.pack('<f', n / 8 * (180 / 4096))
    assert Fraction(struct.unpack('<f', single)[0]) == Fraction(n, 8) * Fraction(180, 4096)
    return single


def radial_of(o):
    velocity = {2: (2, 132), 4: (1, 132)}[o.resolution]
    parts = (2, o.z, (2, 69)), (3, o.v, velocity), (4, o.w, (2, 132))
    ours = [moment(t, volumes.words(*new_codes(t, old_codes, scale, offset, o.resolution)),
                   scale=scale, offset=offset, **{'bin length': 2})
            for t, old_codes, (scale, offset) in parts if old_codes]
    since = datetime.timedelta(days=o.day - 1, milliseconds=o.ms)
    return radial(*ours, state=o.state, elevation_number=o.number, azimuth=degrees_by_003(o.azimuth),
                  elevation=degrees_by_003(o.elevation), seconds=since // datetime.timedelta(seconds=1),
                  microseconds=since.microseconds)


def volume_of(c):
    """The volume that is to be written, built of our records and the old radials in their cuts."""
    cuts, at = [[] for _ in range((len(c.records) - 416) // 256)], 0
    for o in c.radials:
        cuts[at].append(radial_of(o))
        at += o.state in (2, 4, 6)
    built = volumes.build(volumes.volume([cut(radials) for radials in cuts]))
    return c.records + built[len(c.records):]           # the radials as built, our records as they were given


def check_taken(c, volume, verdict):
    r = ref.read(volume)
    assert volume == volume_of(c) and r.bytes_read == len(volume) <= c.room
    assert r.verdict == verdict and verdict == (COMPLETE if c.told == COMPLETE else ('open', 64))
    assert len(r.radials) == len(c.radials)
    for n, o in enumerate(c.radials, 1):
        for t, old_codes in (2, o.z), (3, o.v), (4, o.w):
            if not old_codes:
                assert r.find(n, t) == no(31)
                continue
            answers = r.gates(n, t)
            assert len(answers) == len(old_codes)
            for g, code in zip(answers, old_codes):
                value = value_by_003(t, code, o.resolution)
                if value is None:
                    assert g.kind == code
                else:
                    assert g.kind == 5 and Fraction(g.numerator, g.denominator) == value == Fraction(g.value)


# --------------------------------------------------------------------------

def checksum(room):
    total = 0
    for byte in room:
        total = (31 * total + byte) % 2**32
    return total


def gate_words(g):
    return f'5 {g.numerator}/{g.denominator}' if g.kind == 5 else str(g.kind)


def gate_lines(volume):
    r = ref.read(volume)
    for n in range(1, len(r.radials) + 1):
        for t in 2, 3, 4:
            there = isinstance(r.find(n, t), ref.Moment)
            yield f'{n} {t}: ' + (' '.join(map(gate_words, r.gates(n, t))) if there else '31')


def unread(c):
    """What is printed of a case that is not looked at; None of any other."""
    if c.told == CUT_SHORT:
        return CUT_SHORT
    if len(c.records) < 416:
        return NO_RECORDS
    return TOO_LONG if c.room > LONGEST_ROOM else None


def lines(c):
    """What is printed of a case, which has to be what is given with it. A volume's bytes stand for no line."""
    if unread(c):
        assert c.told == unread(c)
        return [c.told]
    r = c.records
    told = importing.import_old(r[:32], r[32:160], r[160:416], r[416:], c.old, c.room)
    if told[0] == 'refused':
        assert told == c.told, told
        if c.output == 2:
            return ['refused {} {}'.format(*told[1:]), WORDS.get(told[1], OTHER_WORDS)]
        return ['refused {} {} {}'.format(*told[1:], checksum(bytes([FILLED]) * c.room))]
    _, volume, verdict = told
    assert c.told in (COMPLETE, OPEN), told[2]
    check_taken(c, volume, verdict)
    if c.output == 2:
        return [f'taken {len(volume)} ' + (COMPLETE if verdict == COMPLETE else 'open {1}'.format(*verdict)), volume]
    sum_behind = checksum(volume + bytes([FILLED]) * (c.room - len(volume)))
    first_line = f'taken {len(volume)} {c.told} {sum_behind}'
    return [first_line, *gate_lines(volume)] if c.output else [first_line]


def checked():
    """(case, its lines) of every case."""
    met = set()
    for c in itertools.chain.from_iterable(group() for group in GROUPS):
        try:
            yield c, lines(c)
        except AssertionError as wrong:
            raise AssertionError(c.name) from wrong
        met.add(c.told[1] if c.told[0] == 'refused' else c.told)
    # all that an import can tell. It goes on from what it wrote, so there is no 37, and what it makes of a radial keeps
    # 11, 15, 17 to 19, 21, 22, 24 and 35; it counts the radials itself, and where there are too many 40 is ahead of 12 and 13
    assert met == {*range(1, 11), 14, 16, 20, 23, 25, 33, 34, 40, *range(50, 54), 62,
                   COMPLETE, OPEN, NO_RECORDS, TOO_LONG, CUT_SHORT}


def case_bytes(c):
    out = struct.pack('<4I', len(c.records), len(c.old), c.room, c.output) + c.records + c.old
    return out[:-1] if c.told == CUT_SHORT else out


def printed(told):
    return b''.join(line if isinstance(line, bytes) else line.encode() + b'\n' for line in told)


def main(args):
    if args == ['stdin']:
        for c, _ in checked():
            sys.stdout.buffer.write(case_bytes(c))
    elif args == ['stdout']:
        for _, told in checked():
            sys.stdout.buffer.write(printed(told))
    elif args == ['names']:
        for number, (c, told) in enumerate(checked(), 1):
            print(f'{number}: {c.name}', end='\n' * printed(told).count(b'\n'))      # nothing beside the gates
    elif len(args) == 1 and args[0] in samples():
        sys.stdout.buffer.write(samples()[args[0]])
    else:
        sys.exit('usage: importing_expected.py stdin|stdout|names|shelf.records|shelf.old')


if __name__ == '__main__':
    main(sys.argv[1:])
