#!/usr/bin/env python3
"""The import of an old SA/SB file, after document 02, #102, and document 003, over the reference writer.

    python3 tools/importing.py RECORDS OLD > VOLUME

RECORDS are our generic, site and task records and the cuts, one after the other; OLD is the old file.
"""
import struct
import sys
from collections import namedtuple

sys.dont_write_bytecode = True
import reference as ref

SIZE = 2432                             # of an old radial
DATA = 129                              # its first byte of data, counted from 1 as document 003 does
MOST_REFLECTIVITY, MOST_DOPPLER = 460, 920
DAY_SECONDS, DAY_MILLISECONDS = 86400, 86400000
CLOSING = 2, 4, 6                       # states of a cut's last radial

# Of an old radial what is looked at: (name, first byte counted from 1, format); old numbers are unsigned.
# The pointers to the data and the old number in the cut are not among them.
FIELDS = [
    ('mark', 15, '<H'), ('milliseconds', 29, '<I'), ('day', 33, '<H'), ('azimuth', 37, '<H'), ('state', 41, '<H'),
    ('elevation', 43, '<H'), ('number', 45, '<H'), ('reflectivity', 55, '<H'), ('doppler', 57, '<H'),
    ('resolution', 71, '<H')]
Old = namedtuple('Old', [name for name, _, _ in FIELDS])
Moment = namedtuple('Moment', 'type scale offset codes')


def unpack(raw):
    return Old(*(struct.unpack_from(fmt, raw, first - 1)[0] for _, first, fmt in FIELDS))


def seconds(old):
    """Since 1 January 1970, which is day 1."""
    return DAY_SECONDS * (old.day - 1) + old.milliseconds // 1000


def broken(old):
    """The number that refuses an old radial, ahead of the writer; None where there is none."""
    if old.mark != 1:
        return 51
    if old.day == 0 or old.milliseconds >= DAY_MILLISECONDS or seconds(old) > ref.INT_MAX:
        return 62
    if old.reflectivity > MOST_REFLECTIVITY or old.doppler > MOST_DOPPLER or old.reflectivity + old.doppler == 0:
        return 52
    if old.resolution not in (2, 4):                    # also where there is no velocity
        return 53
    return None


def moments(old, raw):
    """Those that have gates, with their old codes. They stand back to back, by the gate counts alone."""
    velocity_scale = {2: 2, 4: 1}[old.resolution]       # steps of a half, and of a whole
    out, place = [], DATA - 1
    for t, gates, scale, offset in (
            (2, old.reflectivity, 2, 69), (3, old.doppler, velocity_scale, 132), (4, old.doppler, 2, 132)):
        if gates:
            out.append(Moment(t, scale, offset, raw[place:place + gates]))
        place += gates
    return out


def widened(codes):
    """Two bytes a gate: our codes 2, 3 and 4 are special, so an old value goes past them."""
    return struct.pack(f'<{len(codes)}H', *(v if v < 2 else v + 3 for v in codes))


def degrees(n):
    """n times 180 is below 2**24, so the single is exact."""
    single = struct.unpack('<f', struct.pack('<f', n * 180 / 32768))[0]
    assert single * 32768 == n * 180
    return single


def record(kind, **fields):
    """A block; '_' in a name stands for a space, and a field not given is 0."""
    out = bytearray(ref.SIZES[kind])
    for name, value in fields.items():
        name = name.replace('_', ' ')
        struct.pack_into(ref.FORMAT[kind, name], out, ref.PLACE[kind, name], value)
    return bytes(out)


def radial_blocks(raw, before, in_cut):
    """(kind, block) of all blocks of a radial, with so many radials before it, in the volume and in its cut."""
    old = unpack(raw)
    ours = [(m, widened(m.codes)) for m in moments(old, raw)]
    yield 'radial', record(
        'radial', state=old.state, sequence=before + 1, radial_number=in_cut + 1, elevation_number=old.number,
        azimuth=degrees(old.azimuth), elevation=degrees(old.elevation), seconds=seconds(old),
        microseconds=old.milliseconds % 1000 * 1000,
        length_of_data=sum(32 + len(data) for _, data in ours), moment_number=len(ours))
    for m, data in ours:
        yield 'moment', record('moment', type=m.type, scale=m.scale, offset=m.offset, bin_length=2, length=len(data))
        yield 'data', data


def our_blocks(generic, site, task, cuts):
    """(kind, block) of our records, as many cuts as were given."""
    yield from (('generic', generic), ('site', site), ('task', task))
    whole = len(cuts) // ref.SIZES['cut'] * ref.SIZES['cut']
    for place in range(0, whole, ref.SIZES['cut']):
        yield 'cut', cuts[place:place + ref.SIZES['cut']]
    if cuts[whole:]:
        yield 'data', cuts[whole:]                      # no cut: another kind of block than is due


def steps(generic, site, task, cuts, old):
    """In their order, the blocks to be written as (kind, block) and the refusals that come between them."""
    if len(old) == 0 or len(old) % SIZE:
        yield ref.refused(50)
        return
    yield from our_blocks(generic, site, task, cuts)
    before = in_cut = 0
    for place in range(0, len(old), SIZE):
        raw = old[place:place + SIZE]
        number = broken(unpack(raw))
        if number:
            yield ref.refused(number, place)
            return
        yield from radial_blocks(raw, before, in_cut)
        before += 1
        in_cut = 0 if unpack(raw).state in CLOSING else in_cut + 1


def import_old(generic, site, task, cuts, old, room_length):
    """('taken', the volume's bytes, what reading tells of them), or the first refusal."""
    room, written = bytearray(room_length), 0           # our own, so that a refusal leaves the lent one as it was
    for step in steps(generic, site, task, cuts, old):
        told = step if step[0] == 'refused' else ref.write(written, room, *step)
        if not isinstance(told, int):
            return told
        written = told
    volume = bytes(room[:written])
    return 'taken', volume, ref.read(volume).verdict


def main(args):
    if len(args) != 2:
        sys.exit('usage: importing.py RECORDS OLD')
    records, old = (open(path, 'rb').read() for path in args)
    if len(records) < 416:
        sys.exit('no records')
    told = import_old(records[:32], records[32:160], records[160:416], records[416:], old,
                      len(records) + 2 * len(old))      # long enough: two bytes for each old one
    if told[0] == 'refused':
        sys.exit(' '.join(map(str, told)))
    sys.stdout.buffer.write(told[1])


if __name__ == '__main__':
    main(sys.argv[1:])
