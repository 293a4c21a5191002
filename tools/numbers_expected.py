#!/usr/bin/env python3
"""What the program `numbers` prints: document 01's numbers that are run, the four angles by their bits (document 02, #105), an
RHI of six layers (document 02, #103), and a cloud radar's file.

    (python3 tools/volumes.py layers; python3 tools/cloud.py) > crates/numbers/stdin
    python3 tools/numbers_expected.py > crates/numbers/stdout

A line for each file: a label, the verdict, the bytes read and the whole radials. Of the small volume and of the six
layers, every prefix, and the numbers 0 to 7 in the place of each radial's state, of the six layers in that of the scan
type too: `at`, the place, and the number that stands there. Of the angles of the small volume, in hexadecimal digits: of the
table's bits the four verdicts, and runs of bits of which the same is told, around each place where an answer may turn and
through all patterns.
"""
import itertools
import struct
import sys

sys.dont_write_bytecode = True
import cloud
import reference as ref
import volumes


def told(r):
    return 'complete' if r.verdict == 'complete' else ' '.join(map(str, r.verdict))


def counts(r):
    return f'{r.bytes_read} {len(r.radials)}'


def with_task(**fields):
    spec = volumes.small_spec()
    spec['task'].update({name.replace('_', ' '): value for name, value in fields.items()})
    return volumes.build(spec)


def with_first_radial(**fields):
    spec = volumes.small_spec()
    spec['cuts'][0]['radials'][0]['fields'].update(fields)
    return volumes.build(spec)


def files():
    data = volumes.small()
    wrong = b'\0' + data[1:]
    yield 'empty', b''
    yield 'wrong magic, 31 bytes', wrong[:31]
    yield 'wrong magic, 32 bytes', wrong[:32]
    for n in (50, 51, 256, 257):
        yield f'cut number {n}', with_task(cut_number=n)
    for n, scan_type in (256, 5), (257, 5), (2, 2), (1, 2):
        task = with_task(cut_number=n, scan_type=scan_type)[:416]
        yield f'cut number {n}, scan type {scan_type}', task + data[416:]
    for n in (999999, 1000000):
        yield f'microseconds {n}', with_first_radial(microseconds=n)
    yield 'small volume', data
    yield 'its first 871', data[:871]
    yield 'one byte added', data + b'\0'


def goes_on(a, b):
    """Whether one byte more reads no more, and wants one byte less."""
    return (a.verdict[0] == 'open' and b.verdict == ('open', a.verdict[1] - 1)
            and counts(a) == counts(b))


def runs(data):
    """Every prefix of a volume: (first, last) of each run, with what is told there."""
    tells = [ref.read(data[:n]) for n in range(len(data) + 1)]
    first = 0
    for n in range(len(tells)):
        if n == len(data) or not goes_on(tells[n], tells[n + 1]):
            yield first, n, tells[first], tells[n]
            first = n + 1


def with_each(data, *places):
    """Every state, and every scan type, is among the numbers 0 to 6; 7 is neither."""
    for place in places:
        for value in range(8):
            yield f'at {place} {value}', data[:place] + bytes([value]) + data[place + 1:]


def state_places(data):
    return [radial.place for radial in ref.read(data).radials]


def cloud_files():
    heights = {'antenna_height': 512.0, 'ground_height': 508.0}
    yield 'cloud radar', cloud.cloud()
    yield 'cloud radar, high station', cloud.cloud(**heights)
    yield 'cloud radar, spectra', cloud.cloud(generic_type=3, **heights)


# a NaN is an infinity with digits, and a quiet one has the highest of the 23
QUIET = 2 ** 22


def angle_places():
    """Site and first radial stand at 32 and 672 of the small volume."""
    places = {name: 32 + ref.PLACE['site', name] for name in ('latitude', 'longitude')}
    return places | {name: 672 + ref.PLACE['radial', name] for name in ('azimuth', 'elevation')}


def bits_of(x, steps=0):
    """The bits of a single, or of its neighbour so many steps away from zero."""
    return struct.unpack('<I', struct.pack('<f', x))[0] + steps


def table_bits():
    yield from (bits_of(0.0), bits_of(-0.0), bits_of(0.0, 1), bits_of(-0.0, 1))
    for end in -2.0, 90.0, -90.0, 180.0, -180.0, 360.0:
        yield from (bits_of(end, steps) for steps in (-1, 0, 1))
    infinities = bits_of(float('inf')), bits_of(-float('inf'))
    yield from infinities
    for digits in (1, QUIET - 1), (QUIET, 2 * QUIET - 1):
        yield from (infinity + some for infinity in infinities for some in digits)


def with_bits(data, place, bits):
    return told(ref.read(data[:place] + struct.pack('<I', bits % 2 ** 32) + data[place + 4:]))


def sweeps():
    for ends in (0.0, 90.0, 180.0, 360.0, float('inf')), (-0.0, -2.0, -90.0, -180.0, -float('inf')):
        for centre in *map(bits_of, ends), bits_of(ends[-1], QUIET):
            yield range(centre - 256, centre + 257)
    yield (1048583 * i for i in range(4096))


def show_angles(data):
    print('bits: as ' + ', '.join(angle_places()))
    for bits in table_bits():
        print(f'{bits:08x}: ' + ', '.join(with_bits(data, place, bits) for place in angle_places().values()))
    for name, place in angle_places().items():
        print(name)
        for sweep in sweeps():
            for verdict, run in itertools.groupby(sweep, lambda bits: with_bits(data, place, bits)):
                run = [bits % 2 ** 32 for bits in run]
                print(f'{run[0]:08x} to {run[-1]:08x}: {verdict}')


def show(files):
    for label, data in files:
        r = ref.read(data)
        print(f'{label}: {told(r)} {counts(r)}')


def show_runs(data):
    for first, last, r, s in runs(data):
        print(f'prefixes {first} to {last}: {told(r)} to {told(s)} {counts(s)}')


def main():
    show(files())
    show_runs(volumes.small())
    show(with_each(volumes.small(), *state_places(volumes.small())))
    show_angles(volumes.small())
    layers = volumes.named('layers')
    show([('six layers', layers)])
    show(with_each(layers, 160 + ref.PLACE['task', 'scan type'], *state_places(layers)))
    show_runs(layers)
    show(cloud_files())


if __name__ == '__main__':
    main()
