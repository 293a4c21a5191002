#!/usr/bin/env python3
"""What the program `mending` reads and prints: broken volumes closed (document 02, #107).

    python3 tools/mending_expected.py stdin > crates/mending/stdin
    python3 tools/mending_expected.py stdout > crates/mending/stdout
    python3 tools/mending_expected.py names         each case's number and what it is, beside its lines of the output
    python3 tools/mending_expected.py broken.vol > samples/broken.vol

Standard input is one case after the other: how many bytes a file has, how many of them the shortest start has that is to
be mended, how long the room is, which output is wanted (0 or 1), then the file. Every number has four bytes, little-endian.
Each of the file's starts from that length on is mended, the last being the whole file, and has a line. The room is filled
with AA before, and its checksum covers all of it:

    refused NUMBER 0 CHECKSUM
    written BYTES cut number PLACE WRITTEN OLD NEW state PLACE WRITTEN OLD NEW cuts FROM COUNT stretch FROM TO VERDICT
        RADIALS CHECKSUM
    too long                            for the case, where the room would be longer than the program's own
    cut short                           for the case, where the input ends in it

A field that is not changed has neither its name nor its numbers in the line. The verdict and the radials are what reading
tells of the written volume.

Output 1 is for the command line, and has no checksum:

    refused NUMBER 0                    and a second line that says it in words
    written BYTES                       behind the report in words, a line for each part; then the volume's bytes as they are,
                                        with no line behind them

Each case is given with what is to be told of it, by hand: how many radials of each cut are kept, and what the last one's
state was, where that is changed. The volume that is to be written is the one that volumes.py builds of these radials, which
works out the cut number and the states itself. The mending written from the text has to tell all of that. Nothing in the
output comes from the program.
"""
import copy
import itertools
import struct
import sys
from collections import namedtuple

sys.dont_write_bytecode = True
import mending
import reference as ref
import volumes
from volumes import cut, mask, moment, radial, words

FILLED = 0xAA
LONGEST_ROOM = 2097152
TOO_LONG, CUT_SHORT = 'too long', 'cut short'

# told has an entry for each start of the file that is mended, or is one of these two
Case = namedtuple('Case', 'name file shortest room output told')
# What is to be written, of the volume with this specification: the first radials, so many of each cut; what the last one's
# state was, None where it stays
Kept = namedtuple('Kept', 'spec radials state')

no = ref.refused


# --------------------------------------------------------------------------
# Volumes to break.

def three_spec(scan_type=0, fill=None):
    """Three cuts of three, two and three radials, with moments of one and two bytes; every radial has other gates."""
    def radials(count, first):
        for k in range(first, first + count):
            z = moment(2, [k, 2, 66 + k, 255][:2 + k % 3])
            w = moment(4, words(k, 258, 5))
            yield radial(*([z, w], [z], [w, z])[k % 3], azimuth=float(k))
    cuts = [cut(radials(count, first), mask(2, 4), mask(4)) for count, first in ((3, 0), (2, 3), (3, 5))]
    return volumes.volume(cuts, fill=fill, **{'scan type': scan_type})


def tiny_spec(*counts, scan_type=0):
    """Cuts of so many radials, each with one gate of one byte: 97 bytes."""
    one = moment(2, [7])
    return volumes.volume([cut([radial(one)] * count) for count in counts], **{'scan type': scan_type})


THREE = three_spec(fill=5)


def radials_of(spec):
    return [r for c in spec['cuts'] for r in c['radials']]


def behind_cuts(spec):
    return 416 + 256 * len(spec['cuts'])


def radial_ends(spec):
    """Where the radials end, behind where they begin."""
    sizes = (64 + sum(32 + len(m['data']) for m in r['moments']) for r in radials_of(spec))
    return list(itertools.accumulate(sizes, initial=behind_cuts(spec)))


def start_of(spec, whole, more=0):
    """The file's start with so many whole radials, and more bytes behind them."""
    return volumes.build(spec)[:radial_ends(spec)[whole] + more]


def kept_spec(kept):
    """The specification of the volume that is to be written."""
    spec = copy.deepcopy(kept.spec)
    spec['cuts'] = spec['cuts'][:len(kept.radials)]
    for c, count in zip(spec['cuts'], kept.radials):
        c['radials'] = c['radials'][:count]
    return spec


def case(name, file, told, room=None, output=0, shortest=None):
    """The room is as long as the file, if it is not given, and the file alone is mended."""
    room = len(file) if room is None else room
    if shortest is None:
        shortest, told = len(file), told if told in (TOO_LONG, CUT_SHORT) else [told]
    return Case(name, file, shortest, room, output, told)


def tiny(name, counts, file_radials, kept, state, more=0, **how):
    """A volume of tiny radials that breaks more bytes behind so many of them."""
    spec = tiny_spec(*counts)
    return case(name, start_of(spec, file_radials, more), Kept(spec, kept, state), **how)


# --------------------------------------------------------------------------
# Files that end early.

def told_by_whole(spec, closing):
    """What is to be told with no whole radial, one, and so on up to all eight of three, two and three. A fourth and a sixth
    are alone in their cut. `closing` is the state that closes a cut before the last, None where it closes the last too."""
    first, second = Kept(spec, [3], closing), Kept(spec, [3, 2], closing)
    return [no(54), no(54), Kept(spec, [2], 1), first, first, second, second, Kept(spec, [3, 2, 2], 1),
            Kept(spec, [3, 2, 3], None)]


def every_start():
    """A volume of three cuts broken at every byte."""
    file, ends = volumes.build(THREE), radial_ends(THREE)
    by_whole = told_by_whole(THREE, 2)
    told = [by_whole[sum(end <= n for end in ends[1:])] for n in range(len(file) + 1)]
    yield case('every start of a volume of three cuts', file, told, room=len(file) + 3, shortest=0)


def scan_types():
    """Broken a byte before the end of each radial, at its end and a byte behind it, but for the end of the volume. Of types 2
    and 5 every closing state is 6."""
    for scan_type, closing in (5, None), (1, 2):
        spec = three_spec(scan_type)
        by_whole = told_by_whole(spec, closing)
        for whole in range(1, 8):
            yield case(f'scan type {scan_type}, {whole} whole radials and around', start_of(spec, whole, 1),
                       [by_whole[whole - 1], by_whole[whole], by_whole[whole]],
                       shortest=radial_ends(spec)[whole] - 1)
    for scan_type in range(7):
        spec = tiny_spec(4, scan_type=scan_type)
        yield case(f'scan type {scan_type}, three of four radials', start_of(spec, 3), Kept(spec, [3], 1))


def last_radials():
    """The last whole radial alone in its cut, closing it, behind a closed one, and in the middle of one."""
    for name, whole, kept, state in (
            ('two whole radials of three', 2, [2], 1), ('the first cut closed', 3, [3], 2),
            ('one whole radial behind the first cut', 4, [3], 2), ('two whole radials behind the first cut', 5, [3, 2], 1),
            ('the second cut closed', 6, [3, 3], 2), ('one whole radial of the last cut', 7, [3, 3], 2),
            ('two whole radials of the last cut', 8, [3, 3, 2], 1)):
        for more in 0, 64, 96:          # at its end, behind the next one's header, a byte short of that one's end
            yield tiny(f'{name} and {more} bytes', [3, 3, 3], whole, kept, state, more)


def dropped_cuts():
    yield tiny('254 of 256 cuts dropped', [2, 3] + [2] * 254, 4, [2, 2], 1, more=50)
    yield tiny('one of 60 cuts dropped', [2] * 60, 119, [2] * 59, 2)
    yield tiny('all but one of 20 cuts dropped', [2] * 20, 3, [2], 2)
    yield tiny('none of 20 cuts dropped', [2] * 19 + [3], 40, [2] * 20, 1)


def nothing_to_keep():
    """54, which is also told where the room is too short for anything."""
    front = behind_cuts(THREE)
    for name, file in (
            ('an empty file', b''), ('one byte', b'R'), ('half a task', start_of(THREE, 0)[:300]),
            ('a cut that is a byte short', start_of(THREE, 0)[:front - 1]), ('no radial', start_of(THREE, 0)),
            ('a part of a radial', start_of(THREE, 0, 70)), ('one whole radial', start_of(THREE, 1)),
            ('one whole radial and a part of the next', start_of(THREE, 1, 90)),
            ('another file', b'\1' * 500), ('a byte less than two radials', start_of(THREE, 2)[:-1])):
        for room in sorted({0, len(file)}):
            yield case(f'{name}, a room of {room}', file, no(54), room=room)


# --------------------------------------------------------------------------
# Rooms.

def rooms():
    """By what is to be written, which is shorter than the file where something is dropped."""
    for name, file, kept in (
            ('two of three cuts', start_of(THREE, 6, 20), Kept(THREE, [3, 2], 2)),
            ('all cuts', start_of(THREE, 7, 20), Kept(THREE, [3, 2, 2], 1)),
            ('a complete file', volumes.build(THREE), Kept(THREE, [3, 2, 3], None)),
            ('a complete file with bytes behind it', volumes.build(THREE) + b'\1\2\3', Kept(THREE, [3, 2, 3], None))):
        size = len(volumes.build(kept_spec(kept)))
        for room, told in (0, no(33)), (335, no(33)), (size - 1, no(33)), (size, kept), (size + 1, kept), (size + 500, kept):
            yield case(f'{name}, {size} bytes in a room of {room}', file, told, room=room)
    yield case('the longest room', start_of(THREE, 6, 20), Kept(THREE, [3, 2], 2), room=LONGEST_ROOM)
    yield case('in a room of one byte more', start_of(THREE, 6, 20), TOO_LONG, room=LONGEST_ROOM + 1)


# --------------------------------------------------------------------------
# Complete files, and such with bytes behind them.

def complete():
    for name, spec in (
            ('three cuts', THREE), ('an RHI of three layers', three_spec(5)), ('the small volume', volumes.small_spec()),
            ('a cut of two radials', tiny_spec(2)), ('20 cuts', tiny_spec(*[2] * 20)),
            ('an RHI of one cut', volumes.rhi_spec(2)), ('64 moments', volumes.many_moments_spec())):
        all_of_it = Kept(spec, [len(c['radials']) for c in spec['cuts']], None)
        yield case(f'complete: {name}', volumes.build(spec), all_of_it)
    every = Kept(THREE, [3, 2, 3], None)
    file = volumes.build(THREE)
    for name, behind in (
            ('a byte', b'\0'), ('its last radial again', file[radial_ends(THREE)[-2]:]), ('the file again', file),
            ('a volume of its own', volumes.small())):
        yield case(f'complete, and behind it {name}', file + behind, every)


# --------------------------------------------------------------------------
# Refused files: what stands ahead of the fault is kept.

def patched(data, place, fmt, value):
    raw = struct.pack(fmt, value)
    return data[:place] + raw + data[place + len(raw):]


def with_field(spec, block, field, value):
    """The whole file with another field: of a radial, counted from 1 in the volume, or of its first moment."""
    kind, number = block.split()
    place = radial_ends(spec)[int(number) - 1] + (64 if kind == 'moment' else 0)
    return patched(volumes.build(spec), place + ref.PLACE[kind, field], ref.FORMAT[kind, field], value)


def faults():
    """The fault's radial is no whole one, however much stands behind it."""
    first, second = Kept(THREE, [3], 2), Kept(THREE, [3, 2], 2)
    for block, field, value, number, told in (
            ('radial 4', 'spot blank', 2, 11, first), ('radial 5', 'spot blank', 2, 11, first),
            ('radial 6', 'elevation', 91.0, 16, second), ('radial 7', 'sequence', 8, 12, second),
            ('radial 8', 'microseconds', 1000000, 17, Kept(THREE, [3, 2, 2], 1)),
            ('moment 4', 'scale', 0, 21, first), ('moment 5', 'offset', -1, 22, first), ('moment 6', 'type', 9, 20, second),
            ('moment 8', 'bin length', 3, 23, Kept(THREE, [3, 2, 2], 1)), ('moment 3', 'length', 5, 24, Kept(THREE, [2], 1)),
            ('radial 3', 'state', 4, 10, Kept(THREE, [2], 1)), ('radial 5', 'state', 4, 10, first),
            ('radial 4', 'state', 1, 10, first), ('radial 8', 'state', 2, 10, Kept(THREE, [3, 2, 2], 1)),
            ('radial 2', 'radial number', 1, 13, no(54)), ('moment 2', 'type', 0, 20, no(54)),
            ('radial 1', 'state', 0, 10, no(54)), ('radial 3', 'elevation number', 2, 14, Kept(THREE, [2], 1))):
        file = with_field(THREE, block, field, value)
        assert ref.read(file).verdict[1] == number
        yield case(f'refused {number}: {block}, {field} {value}', file, told)
    for number, place, fmt, value in (
            (1, 0, '<i', 0), (3, 72, '<f', 90.5), (6, 324, '<i', 7), (8, 324, '<i', 2), (8, 336, '<i', 257),
            (9, 672, '<i', 0)):
        file = patched(volumes.build(THREE), place, fmt, value)
        assert ref.read(file).verdict[1] == number
        yield case(f'refused {number} ahead of all radials: {value} at {place}', file, no(54))


def other_cut_numbers():
    """A cut number that is not that of the blocks: the block behind the last of the task's is read as a radial."""
    for count in 2, 4:
        yield case(f'three cut blocks, cut number {count}', patched(volumes.build(THREE), 336, '<i', count), no(54))


def no_hope():
    """Refused 40: at a cut's block, a radial's and a moment's."""
    def refused_40(name, file, told):
        assert ref.read(file).verdict[1] == 40
        return case(f'refused 40: {name}', file, told)

    built = volumes.build(THREE)
    yield refused_40('the mask of the second cut', patched(built, 672 + ref.PLACE['cut', 'moments mask'], '<Q', 0), no(54))
    for block, told in (
            ('radial 1', no(54)), ('radial 4', Kept(THREE, [3], 2)), ('radial 5', Kept(THREE, [3], 2)),
            ('radial 7', Kept(THREE, [3, 2], 2)), ('radial 8', Kept(THREE, [3, 2, 2], 1))):
        three_moments = with_field(THREE, block, 'moment number', 3)    # of two types; the length is enough for them
        place = radial_ends(THREE)[int(block.split()[1]) - 1] + ref.PLACE['radial', 'length of data']
        yield refused_40(f'{block}, three moments of two types', patched(three_moments, place, '<i', 200), told)
    odd = with_field(THREE, 'moment 4', 'length', 1)                    # leaves an odd number of bytes to a two-byte type
    yield refused_40('the first moment of radial 4', odd, Kept(THREE, [3], 2))


# --------------------------------------------------------------------------
# The command line's output, and the input's end.

def samples():
    """Broken in the second radial of the third cut, so that the first one of it is alone."""
    return {'broken.vol': start_of(three_spec(), 6, 70)}


def command_line():
    spec = three_spec()
    yield case('the sample, for the command line', samples()['broken.vol'], Kept(spec, [3, 2], 2), output=1)
    for name, file, told in (
            ('in the last cut', start_of(THREE, 7, 1), Kept(THREE, [3, 2, 2], 1)),
            ('at the end of the first cut', start_of(THREE, 3), Kept(THREE, [3], 2)),
            ('at the end of a radial of the last cut', start_of(THREE, 7), Kept(THREE, [3, 2, 2], 1)),
            ('an RHI behind a layer', start_of(three_spec(5), 5), Kept(three_spec(5), [3, 2], None)),
            ('complete', volumes.build(THREE), Kept(THREE, [3, 2, 3], None)),
            ('complete, and a byte behind it', volumes.build(THREE) + b'\0', Kept(THREE, [3, 2, 3], None)),
            ('one whole radial', start_of(THREE, 1), no(54))):
        yield case(f'for the command line: {name}', file, told, output=1)
    yield case('for the command line: no room', volumes.build(THREE), no(33), room=100, output=1)


def cut_short():
    """The last, since nothing is read behind it: the input lacks its last byte."""
    yield case('a case that is cut short', volumes.small(), CUT_SHORT)


GROUPS = [every_start, scan_types, last_radials, dropped_cuts, nothing_to_keep, rooms, complete, faults, other_cut_numbers,
          no_hope, command_line, cut_short]


# --------------------------------------------------------------------------
# What is to be told, by another way than the mending's.

def by_hand(kept, length):
    """Of a file of this length."""
    before, after = kept.spec, kept_spec(kept)
    cuts, left = len(before['cuts']), len(kept.radials)
    *_, place, end = radial_ends(before)[:len(radials_of(after)) + 1]
    *_, written, _ = radial_ends(after)
    changes = []
    if left < cuts:
        changes.append(mending.Change('cut number', 336, 336, cuts, left))
    if kept.state is not None:
        closing = 6 if before['task'].get('scan type') in (2, 5) else 4
        changes.append(mending.Change('state', place, written, kept.state, closing))
    return mending.Written(volumes.build(after), mending.Report(changes, left + 1, cuts - left, end, length))


def checksum(room):
    total = 0
    for byte in room:
        total = (31 * total + byte) % 2**32
    return total


def line_of(written, room):
    volume, report = written
    r = ref.read(volume)
    assert r.verdict == 'complete' and r.bytes_read == len(volume) <= room
    fields = [(c.field, c.place, c.written, c.old, c.new) for c in report.changes]
    parts = [('written', len(volume)), *fields, ('cuts', report.first_dropped, report.dropped_cuts),
             ('stretch', report.start, report.end), ('complete', len(r.radials)),
             (checksum(volume + bytes([FILLED]) * (room - len(volume))),)]
    return ' '.join(str(word) for part in parts for word in part)


def told_lines(c, file, told):
    """What is printed of one file. A volume's bytes stand for no line."""
    mended = mending.mend(file, c.room)
    if not isinstance(told, Kept):
        assert mended == told, mended
        if c.output == 1:
            return mending.refusal_words(told)
        return ['refused {} {} {}'.format(*told[1:], checksum(bytes([FILLED]) * c.room))]
    written = by_hand(told, len(file))
    assert mended == written, mended[1]
    if c.output == 1:
        return [*mending.words(written.report), f'written {len(written.volume)}', written.volume]
    return [line_of(written, c.room)]


def lines(c):
    if c.told == CUT_SHORT or c.room > LONGEST_ROOM:
        assert c.told in (CUT_SHORT, TOO_LONG)
        return [c.told]
    starts = range(c.shortest, len(c.file) + 1)
    assert len(starts) == len(c.told)
    return [line for n, told in zip(starts, c.told) for line in told_lines(c, c.file[:n], told)]


def checked():
    """(case, its lines) of every case."""
    met = set()
    for c in itertools.chain.from_iterable(group() for group in GROUPS):
        try:
            yield c, lines(c)
        except AssertionError as wrong:
            raise AssertionError(c.name) from wrong
        if isinstance(c.told, str):
            met.add(c.told)
        else:
            met.update('written' if isinstance(told, Kept) else told[1] for told in c.told)
    assert met == {'written', 54, 33, TOO_LONG, CUT_SHORT}


def case_bytes(c):
    out = struct.pack('<4I', len(c.file), c.shortest, c.room, c.output) + c.file
    return out[:-1] if c.told == CUT_SHORT else out


def printed(told):
    return b''.join(line if isinstance(line, bytes) else line.encode() + b'\n' for line in told)


def main(args):
    if args == ['stdin']:
        for c, _ in checked():
            sys.stdout.buffer.write(case_bytes(c))
    elif args == ['stdout']:
        for _, told in checked():
            sys.stdout.buffer.write(printed(told))
    elif args == ['names']:
        for number, (c, told) in enumerate(checked(), 1):
            print(f'{number}: {c.name}', end='\n' * printed(told).count(b'\n'))      # nothing beside the other starts
    elif len(args) == 1 and args[0] in samples():
        sys.stdout.buffer.write(samples()[args[0]])
    else:
        sys.exit('usage: mending_expected.py stdin|stdout|names|broken.vol')


if __name__ == '__main__':
    main(sys.argv[1:])
