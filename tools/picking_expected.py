#!/usr/bin/env python3
"""What the program `picking` reads and prints: volumes with the wanted moments only (document 02, #111).

    python3 tools/picking_expected.py stdin > crates/picking/stdin
    python3 tools/picking_expected.py stdout > crates/picking/stdout
    python3 tools/picking_expected.py names         each case's number and what it is, beside its lines of the output

Standard input is one case after the other: how many bytes a file has, how long the room is and which output is wanted (0, 1
or 2), each with four bytes, little-endian; then the mask of the wanted types and another mask, each with eight; then the
file. The room is filled with AA before, and its checksum covers all of it:

    refused NUMBER PLACE CHECKSUM
    written BYTES VERDICT RADIALS CHECKSUM
    too long                            for the case, where the room would be longer than the program's own
    cut short                           for the case, where the input ends in it

The verdict and the radials are what reading tells of the written volume. Output 2 has a second such line, of what was
written, picked by the other mask in a second room of the same length; where the first pick is refused, nothing was written,
and the second is that of an empty file.

Output 1 is for the command line, and has no checksum:

    refused NUMBER PLACE                and a second line that says it in words
    written BYTES                       and behind that line the volume's bytes as they are, with no line behind them

Each case is given with what is to be told of it: a refusal by its number and, for 60, its radial; else the specification of
the volume, whose moments and masks are cut down there, and of which volumes.py works out the numbers and lengths and builds
the bytes. The picking written from the text has to tell all of that. Nothing in the output comes from the program.
"""
import copy
import itertools
import struct
import sys
from collections import namedtuple

sys.dont_write_bytecode = True
import picking
import reference as ref
import volumes
from mending_expected import (
    CUT_SHORT, FILLED, LONGEST_ROOM, TOO_LONG, behind_cuts, checksum, patched, printed, radial_ends, radials_of, with_field)
from volumes import cut, mask, moment, radial, words

ALL = 2**64 - 1

# told has an entry for each pick, one or, of output 2, two, or is one of TOO_LONG and CUT_SHORT
Case = namedtuple('Case', 'name file wanted again room output told')

no = ref.refused


# --------------------------------------------------------------------------
# What is to be told, by another way than the picking's: of a volume's specification.

def only(spec, wanted):
    """The specification of the volume with the wanted moments only."""
    spec = copy.deepcopy(spec)
    for c in spec['cuts']:
        c['fields']['moments mask'] &= wanted
        for r in c['radials']:
            r['moments'] = [m for m in r['moments'] if mask(m['fields']['type']) & wanted]
    return spec


def none_left(spec, number):
    """60, at the radial with this number, from 1."""
    return no(60, radial_ends(spec)[number - 1])


def picked(spec, wanted, empty):
    """By the number of the first radial that would have no moment left; None where there is none."""
    return none_left(spec, empty) if empty else only(spec, wanted)


def first_empty(spec, wanted):
    left = [any(mask(m['fields']['type']) & wanted for m in r['moments']) for r in radials_of(spec)]
    return None if all(left) else left.index(False) + 1


def case(name, file, wanted, told, room=None, output=0):
    """The room is as long as the file, if it is not given."""
    room = len(file) if room is None else room
    return Case(name, file, wanted, 0, room, output, told if told in (TOO_LONG, CUT_SHORT) else [told])


def of_spec(name, spec, wanted, empty=None, **how):
    return case(name, volumes.build(spec), wanted, picked(spec, wanted, empty), **how)


def shown(wanted):
    """The types of a mask, for a name."""
    types = [str(t) for t in range(1, 65) if mask(t) & wanted]
    return {0: 'no type', 1: 'type ' + ''.join(types), 64: 'all types'}.get(len(types), 'types ' + ', '.join(types))


# --------------------------------------------------------------------------
# Volumes to pick from.

def gates(t, k, two):
    """A moment of type t with other gates in each radial k, of one or two bytes."""
    codes = [(7 * k + 3 * t + i) % 256 for i in range(1 + (t + k) % 4)]
    return moment(t, words(*(256 * i + code for i, code in enumerate(codes))) if two else codes, scale=k, offset=t)


def cut_of(types_of_radials, first, types, two, **fields):
    """A cut, from radial `first` on, with a moment of each of these types; those in `two` have two bytes a gate."""
    radials = [radial(*(gates(t, k, t in two) for t in ts), azimuth=k % 360.0) for k, ts in enumerate(types_of_radials, first)]
    return cut(radials, mask(*types), mask(*two), **fields)


def mixed_spec(scan_type=0, fill=None):
    """Three cuts that carry different types. Type 2 alone is in every radial, and has two bytes in the third cut; type 3 has
    two in the first and one in the third. Type 9 is in a cut's mask and in no radial, and size masks have bits of types that
    their cut has not."""
    return volumes.volume([
        cut_of([(2, 1, 3), (2, 3), (3, 2)], 1, (1, 2, 3, 9), (3, 20, 64)),
        cut_of([(64, 2, 4), (4, 2)], 4, (2, 4, 64), (1, 4, 64)),
        cut_of([(2,), (33, 14, 2, 3), (3, 2, 14)], 6, (2, 3, 14, 33), (2, 33))], fill=fill, **{'scan type': scan_type})


def pairs_spec(*types_of_radials):
    """One cut of types 2 and 4, with these types in its radials."""
    return volumes.volume([cut_of(types_of_radials, 1, (2, 4), (4,))])


def every_type_spec():
    """All 64 types in each radial, those with an even number with two bytes, upwards in the first and downwards in the second."""
    every, two = range(1, 65), range(2, 65, 2)
    return volumes.volume([cut_of([every, every[::-1]], 1, every, two)], fill=7)


MIXED = mixed_spec(fill=5)


# --------------------------------------------------------------------------
# Masks.

def single_types():
    """Each type alone: what is told, by the first radial that has it not."""
    without = {1: 2, 2: None, 3: 4}
    for t in range(1, 65):
        yield of_spec(f'type {t} alone', MIXED, mask(t), without.get(t, 1))


def several_types():
    for types, empty in (
            ((3, 4), 6), ((1, 3), 4), ((3, 64), 5), ((1, 3, 4, 14, 33, 64), 6), ((1, 4), 2), ((3, 14, 33), 4), ((1, 4, 64, 9), 2),
            ((2, 3), None), ((1, 2), None), ((2, 64), None), ((2, 14), None), ((2, 33), None), ((2, 4, 64), None),
            ((1, 2, 3), None), ((3, 2, 33, 64), None)):
        yield of_spec(f'mixed: {shown(mask(*types))}', MIXED, mask(*types), empty)


def other_masks():
    """A mask of no type, of all, of what there is and more, and less by bits that no moment has."""
    yield of_spec('no type: the first radial', MIXED, 0, 1)
    yield of_spec('no type, the small volume', volumes.small_spec(), 0, 1)
    present = mask(1, 2, 3, 4, 14, 33, 64)
    for name, wanted in (
            ('all types', ALL), ('what the cuts have', present | mask(9)), ('what the radials have', present),
            ('a type that no radial has', mask(2, 9)), ('types that no cut has', mask(2, 5, 8, 10, 32, 34, 63)),
            ('all but those there are', ALL & ~present | mask(2)), ('all but type 9', ALL & ~mask(9)),
            ('all but type 64', ALL & ~mask(64)), ('all but type 1', ALL & ~mask(1))):
        yield of_spec(f'mixed: {name}', MIXED, wanted)
    yield of_spec('mixed: all but type 2', MIXED, ALL & ~mask(2), 6)


def ends_of_masks():
    """Types at both ends, and beside them: a type taken for the next bit shows."""
    spec = volumes.volume([cut_of([(1, 64), (64, 1)], 1, (1, 2, 63, 64), (64, 2)), cut_of([(64, 1), (1, 64)], 3, (1, 64), (1,))])
    for types in (1,), (64,), (1, 64), (1, 2), (63, 64), (1, 63), (2, 64):
        yield of_spec(f'types 1 and 64: {shown(mask(*types))}', spec, mask(*types))
    for types in (2,), (63,), (2, 63), (32, 33):
        yield of_spec(f'types 1 and 64: {shown(mask(*types))}', spec, mask(*types), 1)


def every_type():
    spec = every_type_spec()
    low, odd = 2**32 - 1, sum(mask(t) for t in range(1, 65, 2))
    for t in 1, 2, 8, 9, 16, 17, 31, 32, 33, 34, 63, 64:
        yield of_spec(f'64 types: type {t}', spec, mask(t))
    for name, wanted in (
            ('all', ALL), ('those of one byte', odd), ('those of two bytes', ALL & ~odd), ('the lower half', low),
            ('the upper half', ALL & ~low), ('all but type 32', ALL & ~mask(32)), ('1 and 64', mask(1, 64))):
        yield of_spec(f'64 types: {name}', spec, wanted)
    yield of_spec('64 types: none', spec, 0, 1)


# --------------------------------------------------------------------------
# 60: the first radial that would have no moment left.

def empty_radials():
    both, z = (2, 4), (2,)
    for name, spec, empty in (
            ('the first', pairs_spec(z, both, both), 1), ('the second', pairs_spec(both, z, both), 2),
            ('the last', pairs_spec(both, both, z), 3), ('two, the first of them counts', pairs_spec(both, z, both, z, both), 2),
            ('the last two', pairs_spec(both, both, z, z), 3), ('all', pairs_spec(z, z, z), 1), ('none', pairs_spec(both, both), None)):
        yield of_spec(f'type 4 is lacking: {name}', spec, mask(4), empty)
    one_each = volumes.volume([cut_of([(3,), (3,)], 1, (3,), (3,)), cut_of([(4,), (4,)], 3, (3, 4), ())])
    for wanted, empty in (mask(3), 3), (mask(4), 1), (mask(3, 4), None), (mask(2, 5), 1):
        yield of_spec(f'a type for each cut: {shown(wanted)}', one_each, wanted, empty)


# --------------------------------------------------------------------------
# One mask and then another.

def in_turn(name, spec, one, other, empties):
    """By the first radial without a moment of the first mask, and that of the common bits."""
    first, common = empties
    first_told = picked(spec, one, first)
    second = no(36) if first else picked(first_told, other, common)
    assert first or common or volumes.build(second) == volumes.build(only(spec, one & other))
    file = volumes.build(spec)
    return Case(f'{name}: {shown(one)}, then {shown(other)}', file, one, other, len(file), 2, [first_told, second])


def two_masks():
    """Both orders, and their common bits alone."""
    for one, other, by_one, by_other, common in (
            (mask(2, 3, 4), mask(1, 2, 64), None, None, None), (mask(2), mask(2, 9), None, None, None),
            (ALL, mask(2, 3), None, None, None), (mask(2, 14, 33), mask(2, 33, 64), None, None, None),
            (mask(1, 2, 3), mask(2, 4, 14, 33), None, None, None), (mask(2, 3, 4), mask(1, 3, 64), None, 5, 4),
            (mask(2, 4, 64), mask(3, 4, 64), None, 6, 1), (mask(1, 2, 3), mask(3, 9, 14), None, 4, 4),
            (mask(3, 4), mask(2), 6, None, 1), (0, ALL, 1, None, 1)):
        yield in_turn('mixed', MIXED, one, other, (by_one, common))
        yield in_turn('mixed', MIXED, other, one, (by_other, common))
        yield of_spec(f'mixed: the common ones, {shown(one & other)}', MIXED, one & other, common)


def every_two_masks():
    """Each two masks of three types and one that no radial has."""
    spec = volumes.volume([cut_of([(1, 2, 3), (3, 2)], 1, (1, 2, 3, 4), (2,))])
    for one, other in itertools.product(range(16), repeat=2):
        yield in_turn('three types', spec, one, other, (first_empty(spec, one), first_empty(spec, one & other)))


# --------------------------------------------------------------------------
# Rooms.

def rooms():
    for wanted in mask(2), mask(2, 3, 33), ALL:
        spec = only(MIXED, wanted)
        size = len(volumes.build(spec))
        for room in 0, 1, 415, 1184, size - 1, size, size + 1, size + 500:
            yield case(f'{size} bytes in a room of {room}', volumes.build(MIXED), wanted, no(33) if room < size else spec, room=room)
    yield of_spec('the longest room', MIXED, mask(2), room=LONGEST_ROOM)
    yield case('a room of one byte more', volumes.build(MIXED), mask(2), TOO_LONG, room=LONGEST_ROOM + 1)


# --------------------------------------------------------------------------
# Files that are not complete, and the order of the refusals.

def incomplete_files():
    """(name, file) of files that are open, or refused by some number."""
    file, ends = volumes.build(MIXED), radial_ends(MIXED)
    yield 'an empty file', b''
    yield 'one byte', b'R'
    yield 'another file', b'\1' * 500
    for end in 32, 160, 416, 416 + 256, behind_cuts(MIXED), ends[1], ends[3], ends[7]:
        yield f'open, {end} bytes', file[:end]
    yield 'open, without the last byte', file[:-1]
    yield 'open, without the last radial and a byte', file[:ends[-2] - 1]
    yield 'refused 25, a byte behind it', file + b'\0'
    yield 'refused 25, twice the file', file + file
    yield 'open, the last radial does not close it', with_field(MIXED, 'radial 8', 'state', 1)
    for number, block, field, value in (
            (10, 'radial 8', 'state', 2), (11, 'radial 8', 'spot blank', 2), (12, 'radial 4', 'sequence', 5),
            (18, 'radial 2', 'length of data', 0), (19, 'radial 7', 'moment number', 65), (20, 'moment 8', 'type', 4),
            (21, 'moment 1', 'scale', 0), (22, 'moment 6', 'offset', 32769), (23, 'moment 4', 'bin length', 1),
            (24, 'moment 5', 'length', 1), (24, 'moment 8', 'length', 0)):
        damaged = with_field(MIXED, block, field, value)
        assert ref.read(damaged).verdict[1] == number
        yield f'refused {number}: {block}, {field} {value}', damaged
    masks = 416 + ref.PLACE['cut', 'moments mask']
    for number, place, fmt, value in (
            (1, 0, '<i', 0), (2, 8, '<i', 2), (3, 72, '<f', 90.5), (6, 324, '<i', 7), (8, 336, '<i', 257), (9, 416, '<i', 0),
            (40, masks, '<Q', 0), (40, masks, '<Q', mask(2, 3)), (20, masks, '<Q', mask(2, 3, 9))):
        damaged = patched(file, place, fmt, value)
        assert ref.read(damaged).verdict[1] == number
        yield f'refused {number}: {value} at {place}', damaged


def not_complete():
    for name, file in incomplete_files():
        yield case(f'not complete: {name}', file, mask(2), no(36))


def order():
    """36 before 60 before 33."""
    file = volumes.build(MIXED)
    incomplete = [('open', file[:-1]), ('refused 25', file + b'\0'), ('empty', b'')]
    for (name, not_whole), wanted, room in itertools.product(incomplete, (0, mask(3), mask(2)), (0, 2000)):
        yield case(f'36 first: {name}, {shown(wanted)}, a room of {room}', not_whole, wanted, no(36), room=room)
    for wanted, empty in (0, 1), (mask(3), 4), (mask(1, 3, 4, 64), 6):
        for room in 0, 500, radial_ends(MIXED)[0]:
            yield of_spec(f'60 before 33: {shown(wanted)}, a room of {room}', MIXED, wanted, empty, room=room)
    yield case('33 last', file, mask(2), no(33), room=0)


# --------------------------------------------------------------------------
# Other volumes.

def shapes():
    """Every scan type; what has no rule holds odd bytes."""
    for scan_type in (0, 1, 3, 4, 5, 6):
        yield of_spec(f'scan type {scan_type}', mixed_spec(scan_type, fill=scan_type), mask(2, 4))
    yield of_spec('scan type 2', volumes.rhi_spec(2), mask(2))
    yield of_spec('scan type 2, the last lacks type 4', volumes.rhi_spec(2), mask(4), 3)
    yield of_spec('an RHI of six layers', volumes.layers_spec(), mask(2))
    yield of_spec('an RHI of six layers, the first lacks type 4', volumes.layers_spec(), mask(4), 1)
    rich = volumes.rich_spec()
    yield of_spec('the rich volume: types 1, 4 and 63, of which none is in radial 6', rich, mask(1, 4, 63), 6)
    yield of_spec('the rich volume: types 3 and 63, of which none is in radial 8', rich, mask(3, 63), 8)
    yield of_spec('the rich volume: types 3, 4 and 63', rich, mask(3, 4, 63))
    yield of_spec('the rich volume: types 1, 3, 14 and 63', rich, mask(1, 3, 14, 63))
    for fill in 0, 1, 200:
        yield of_spec(f'odd bytes {fill}', mixed_spec(fill=fill), mask(2, 3))
    odd_sizes = volumes.volume([cut_of([(2, 4), (4,)], 1, (2, 4), (4,))], fill=9)
    for sizes in ALL & ~mask(2), mask(4) | 1 << 62, mask(4, 3, 5):
        odd_sizes['cuts'][0]['fields']['size mask'] = sizes
        yield of_spec(f'size mask {sizes:x}', odd_sizes, mask(4))


def large():
    """Many cuts, many radials, much data."""
    cuts = [cut_of([(2, 3), (3, 2)] if c % 2 else [(3,), (3, 4)], 1, (2, 3, 4), (c % 3 + 2,)) for c in range(256)]
    yield in_turn('256 cuts', volumes.volume(cuts), mask(2, 3), mask(3, 4), (None, None))
    long_cut = volumes.volume([cut_of([(2, 4)] * 999 + [(2,)], 1, (2, 4), ())])
    yield of_spec('1000 radials', long_cut, mask(2))
    yield of_spec('1000 radials, the last lacks type 4', long_cut, mask(4), 1000)
    ends = [moment(4, bytes(range(16))), moment(2, b'\7' * 32768)]
    longest = volumes.volume([cut([radial(moment(1, b'\5' * 32768), *ends), radial(*ends[:1])], mask(1, 2, 4))])
    yield in_turn('data of 32,768 bytes', longest, mask(2, 4), mask(4), (None, None))


# --------------------------------------------------------------------------
# The command line's output, and the input's end.

def command_line():
    rhi = volumes.rhi_spec(2)
    yield of_spec('for the command line: the sample, type 2', rhi, mask(2), output=1)
    yield of_spec('for the command line: the sample, types 2 and 4', rhi, mask(2, 4), output=1)
    yield of_spec('for the command line: the sample, type 4', rhi, mask(4), 3, output=1)
    yield of_spec('for the command line: all types', MIXED, ALL, output=1)
    yield case('for the command line: not complete', volumes.build(rhi)[:-1], mask(2), no(36), output=1)
    yield case('for the command line: no room', volumes.build(rhi), mask(2), no(33), room=100, output=1)


def cut_short():
    """The last, since nothing is read behind it: the input lacks its last byte."""
    yield case('a case that is cut short', volumes.small(), mask(2), CUT_SHORT)


GROUPS = [single_types, several_types, other_masks, ends_of_masks, every_type, empty_radials, two_masks, every_two_masks, rooms,
          not_complete, order, shapes, large, command_line, cut_short]


# --------------------------------------------------------------------------
# The lines, and that the picking written from the text tells the same.

def keeps_answers(file, volume, wanted):
    """Every radial's record but for two fields; every moment of a wanted type, and none of another."""
    before, after = ref.read(file), ref.read(volume)
    assert after.verdict == 'complete' and len(after.radials) == len(before.radials)
    for old, new in zip(before.radials, after.radials):
        n = old.sequence
        records = [ref.unpack('radial', r.radial(n)[0]) for r in (before, after)]
        assert [name for name in records[0] if records[0][name] != records[1][name]] in (
            [], ['length of data'], ['length of data', 'moment number'])
        assert [m.type for m in new.moments] == [m.type for m in old.moments if ref.bit(wanted, m.type)]
        for m in old.moments:
            header, _, data = before.moment(n, m.type)
            told = after.moment(n, m.type)
            assert (told[0], told[2]) == (header, data) if ref.bit(wanted, m.type) else told == ref.refused(31)


def told_lines(c, file, wanted, told):
    """What is printed of one pick, and the volume. A volume's bytes stand for no line."""
    answer = picking.pick(file, wanted, c.room)
    if not isinstance(told, dict):
        assert answer == told, answer
        if c.output == 1:
            return picking.refusal_words(told), b''
        return ['refused {} {} {}'.format(*told[1:], checksum(bytes([FILLED]) * c.room))], b''
    volume = volumes.build(told)
    assert answer == volume
    keeps_answers(file, volume, wanted)
    if c.output == 1:
        return [f'written {len(volume)}', volume], volume
    room = volume + bytes([FILLED]) * (c.room - len(volume))
    return [f'written {len(volume)} complete {len(radials_of(told))} {checksum(room)}'], volume


def lines(c):
    if c.told == CUT_SHORT or c.room > LONGEST_ROOM:
        assert c.told in (CUT_SHORT, TOO_LONG)
        return [c.told]
    out, file = [], c.file
    assert len(c.told) == 1 + (c.output == 2)
    for wanted, told in zip((c.wanted, c.again), c.told):
        more, file = told_lines(c, file, wanted, told)
        out += more
    return out


def checked():
    """(case, its lines) of every case."""
    met = set()
    for c in itertools.chain.from_iterable(group() for group in GROUPS):
        try:
            yield c, lines(c)
        except AssertionError as wrong:
            raise AssertionError(c.name) from wrong
        if isinstance(c.told, str):
            met.add(c.told)
        else:
            met.update('written' if isinstance(told, dict) else told[1] for told in c.told)
    assert met == {'written', 36, 60, 33, TOO_LONG, CUT_SHORT}


def case_bytes(c):
    out = struct.pack('<3I2Q', len(c.file), c.room, c.output, c.wanted, c.again) + c.file
    return out[:-1] if c.told == CUT_SHORT else out


def main(args):
    if args == ['stdin']:
        for c, _ in checked():
            sys.stdout.buffer.write(case_bytes(c))
    elif args == ['stdout']:
        for _, told in checked():
            sys.stdout.buffer.write(printed(told))
    elif args == ['names']:
        for number, (c, told) in enumerate(checked(), 1):
            print(f'{number}: {c.name}', end='\n' * printed(told).count(b'\n'))      # nothing beside its other lines
    else:
        sys.exit('usage: picking_expected.py stdin|stdout|names')


if __name__ == '__main__':
    main(sys.argv[1:])
