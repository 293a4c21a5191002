#!/usr/bin/env python3
"""What the program `hoping` reads and prints: files that some bytes would still complete, and
files that none would (document 02, #110), from both sides of each edge.

    python3 tools/hoping_expected.py stdin > crates/hoping/stdin
    python3 tools/hoping_expected.py stdout > crates/hoping/stdout
    python3 tools/hoping_expected.py names       each file's number and what it is, to read beside the output

Standard input is one file after the other, each by how many bytes of the one before it keeps and
how many follow, in four little-endian bytes each, and then these; a line for each: its number,
the verdict, the bytes read and the whole radials.

Each file is given with what is to be told of it: open, or a refusal's number. Behind a file that
is open at a block's end comes the same file with bytes that complete it; where these are more
than MOST, that is tried here alone. Nothing in the output comes from the program.
"""
import os
import struct
import sys

sys.dont_write_bytecode = True
import reference as ref
import volumes
from volumes import mask

MOST = 4096
ALL = 2**64 - 1


def block(kind, **fields):
    """Fields not given hold valid values; '_' in a name stands for a space."""
    return volumes.block(kind, {name.replace('_', ' '): value for name, value in fields.items()})


def front(*cuts, **task):
    """The blocks before the radials; a cut is (mask, size mask)."""
    out = block('generic') + block('site') + block('task', cut_number=len(cuts), **task)
    for types, sizes in cuts:
        out += block('cut', moments_mask=types, size_mask=sizes)
    return out


def head(count, data, **fields):
    """The header of a volume's first radial, of so many moments with so many bytes of data."""
    return block('radial', **{
        'state': 3, 'sequence': 1, 'radial_number': 1, 'elevation_number': 1,
        'length_of_data': 32 * count + data, 'moment_number': count, **fields})


def moment(t, size, length, **fields):
    """A moment's header."""
    return block('moment', **{'type': t, 'bin_length': size, 'length': length, **fields})


def radial(number, **fields):
    """A whole radial of the first cut, with one moment of one gate of type 2."""
    return head(1, 1, sequence=number, radial_number=number, **fields) + moment(2, 1, 1) + b'\7'


def fronts():
    """Blocks that bind nothing yet, and the first radial."""
    whole = front((mask(2), 0))
    for end, name in (0, 'nothing'), (32, 'a generic header'), (160, 'a site'), (416, 'a task'):
        yield name, whole[:end], 'open'
    for scan_type, cuts in (2, 1), (5, 3):
        task = front(*[(1, 0)] * cuts, scan_type=scan_type)[:416]
        yield f'a task of scan type {scan_type}, cuts {cuts}', task, 'open'
    opened = whole + radial(1, state=3)
    yield 'a first radial, without its data', opened[:-1], 'open'
    yield 'a first radial', opened, 'open'
    yield 'a second radial that closes nothing', opened + radial(2, state=1), 'open'


def masks():
    """A cut block whose moments mask has no one."""
    for n, name in enumerate(('the first', 'the second', 'the third')):
        cuts = [(mask(2), 0)] * 3
        cuts[n] = 0, ALL
        data, end = front(*cuts), 416 + 256 * (n + 1)
        yield f'mask 0 in {name} cut of three', data[:end], 40
        yield 'a byte of it missing', data[:end - 1], 'open'
    data = front((0, 0), (0, 0))
    yield 'mask 0 in both cuts of two', data, 40
    yield 'mask 0, radials behind it', front((0, 0)) + radial(1, state=3) + radial(2, state=4), 40
    yield 'no mask 0', front(*[(mask(2), ALL)] * 3), 'open'
    for t in 1, 33, 64:
        for sizes in 0, ALL:
            yield f'mask of type {t} alone, size mask {sizes:x}', front((mask(t), sizes)), 'open'
    task = front((0, 0))[:416]
    for field, value in ('process_mode', 0), ('phase_mode', 4):
        cut = block('cut', moments_mask=0, **{field: value})
        yield f'mask 0, {field.replace("_", " ")} {value}', task + cut, 9


def counts():
    """More moments than types."""
    three = front((mask(2, 5, 64), 0))
    yield 'three types, four moments', three + head(4, 9), 40
    yield 'a byte of the header missing', (three + head(4, 9))[:-1], 'open'
    yield 'three types, three moments', three + head(3, 9), 'open'
    yield 'type 64 alone, two moments', front((mask(64), 0)) + head(2, 2), 40
    yield 'type 64 alone, one moment', front((mask(64), 0)) + head(1, 1), 'open'
    yield '64 types, 64 moments of a gate', front((ALL, 0)) + head(64, 64), 'open'
    yield '63 types, 64 moments', front((ALL - mask(64), 0)) + head(64, 64), 40
    for count, data, number in (2, 4, 40), (1, 1, 'open'):
        others = front((mask(7), ALL - mask(7)))
        yield f'one type, the others in the size mask, moments {count}', others + head(count, data), number
    two = front((mask(2), 0), (mask(1, 2), 0)) + radial(1, state=3) + radial(2, state=2)
    later = {'state': 0, 'sequence': 3, 'elevation_number': 2}
    yield 'two types in the second cut, two moments', two + head(2, 2, **later), 'open'
    yield 'two types in the second cut, three moments', two + head(3, 3, **later), 40
    yield 'one type in the first, two moments', front((mask(2), 0), (mask(1, 2), 0)) + head(2, 2), 40
    for name, number, fields in (
            ('state 1', 10, {'state': 1}), ('microseconds 1000000', 17, {'microseconds': 1000000}),
            ('length of data 0', 18, {'length_of_data': 0}),
            ('length of data one below 33 a moment', 19, {'length_of_data': 131})):
        yield f'three types, four moments, {name}', three + head(4, 9, **fields), number


def bytes_of_data():
    """Bytes that moments of these types cannot have together, and those next to them."""
    wide = front((mask(3, 4), mask(3, 4)))
    for count, data, number in (
            (1, 1, 40), (1, 2, 'open'), (1, 3, 40), (1, 4, 'open'),
            (2, 2, 40), (2, 3, 40), (2, 4, 'open'), (2, 5, 40)):
        yield f'two-byte types alone, moments {count}, bytes {data}', wide + head(count, data), number
    both = front((mask(1, 2, 3, 64), mask(2, 3, 64)))
    for count, data, number in (
            (1, 1, 'open'), (2, 2, 40), (2, 3, 'open'), (3, 4, 40), (3, 5, 'open'), (4, 6, 40), (4, 7, 'open'),
            (4, 8, 'open')):
        yield f'one of four types one-byte, moments {count}, bytes {data}', both + head(count, data), number
    pairs = front((mask(1, 2, 3, 4), mask(3, 4)))
    yield 'two of four types one-byte, moments 2, bytes 1', pairs + head(2, 1), 19
    yield 'two of four types one-byte, moments 2, bytes 2', pairs + head(2, 2), 'open'
    yield 'two of four types one-byte, moments 3, bytes 3', pairs + head(3, 3), 40
    yield 'two of four types one-byte, moments 3, bytes 4', pairs + head(3, 4), 'open'


def too_many_bytes():
    """32,768 bytes are the most for a moment, and 100,000 for a radial."""
    one, two, both = front((mask(1, 2, 3, 4), 0)), front((mask(1, 2, 3, 4), ALL)), front((mask(1, 2, 3), mask(2)))
    for count in 1, 2, 3:
        most = 32768 * count
        yield f'one-byte types, moments {count}, bytes {most}', one + head(count, most), 'open'
        yield f'one-byte types, moments {count}, bytes {most + 1}', one + head(count, most + 1), 40
        yield f'two-byte types, moments {count}, bytes {most}', two + head(count, most), 'open'
        yield f'two-byte types, moments {count}, bytes {most + 2}', two + head(count, most + 2), 40
        yield f'both, moments {count}, bytes {most - 1}', both + head(count, most - 1), 'open'
        yield f'both, moments {count}, bytes {most + 1}', both + head(count, most + 1), 40
    for count, number in (3, 40), (4, 'open'):
        yield f'moments {count}, length of data 100000', one + head(count, 100000 - 32 * count), number
        yield f'moments {count}, length of data 100001', one + head(count, 100001 - 32 * count), 18


def after_moments():
    """What a moment leaves to those after it."""
    both = front((mask(1, 2, 3), mask(2, 3)))           # type 1 has one-byte gates

    def tried(name, count, data, number, *moments):
        """The last of these moments is a header; its data is still to come."""
        file = both + head(count, data)
        for t, size, length in moments:
            file += moment(t, size, length) + bytes(length)
        told = 'two' if count == 2 else 'three'
        label = ', '.join(f'{length} of type {t}' for t, _, length in moments)
        return f'{told} moments, {data} bytes, {label}: {name}', file[:-moments[-1][2]], number

    yield tried('an even rest', 2, 6, 'open', (1, 1, 2))
    yield tried('an odd rest and no one-byte type', 2, 6, 40, (1, 1, 3))
    yield tried('an even rest for the one-byte type', 2, 6, 'open', (2, 2, 2))
    yield tried('an odd rest for the one-byte type', 2, 7, 'open', (2, 2, 4))
    yield tried('two bytes for a two-byte type', 2, 3, 'open', (1, 1, 1))
    yield tried('one byte for a two-byte type', 2, 3, 40, (1, 1, 2))
    yield tried('one byte for the one-byte type', 2, 3, 'open', (2, 2, 2))
    yield tried('an odd rest', 3, 6, 40, (1, 1, 1))
    yield tried('four bytes for two two-byte types', 3, 6, 'open', (1, 1, 2))
    yield tried('two bytes for two two-byte types', 3, 6, 40, (1, 1, 4))
    yield tried('three bytes for both sizes', 3, 5, 'open', (3, 2, 2))
    yield tried('two bytes for both sizes', 3, 6, 40, (3, 2, 4))
    yield tried('two bytes left, a two-byte type', 3, 6, 'open', (2, 2, 2), (1, 1, 2))
    yield tried('one byte left, a two-byte type', 3, 6, 40, (2, 2, 2), (1, 1, 3))
    yield tried('one byte left, the one-byte type', 3, 5, 'open', (2, 2, 2), (3, 2, 2))
    yield tried('the most for one moment left', 2, 32770, 'open', (2, 2, 2))
    yield tried('the most for a two-byte type left', 2, 32769, 'open', (1, 1, 1))
    yield tried('more than the most left', 2, 32771, 40, (2, 2, 2))
    yield tried('more than the most for a two-byte type left', 2, 32772, 40, (1, 1, 2))
    yield tried('the most for two moments left', 3, 65538, 'open', (3, 2, 2))
    yield tried('more than the most for two moments left', 3, 65539, 40, (3, 2, 2))
    used = both + head(2, 3) + moment(1, 1, 2)
    yield 'one byte for a two-byte type, a byte of the header missing', used[:-1], 'open'
    yield 'one byte for a two-byte type, its data behind it', used + b'\5\6', 40
    for name, number, header in (
            ('type 4', 20, moment(4, 1, 2)), ('scale 0', 21, moment(1, 1, 2, scale=0)),
            ('offset 32769', 22, moment(1, 1, 2, offset=32769)), ('bin length 2', 23, moment(1, 2, 2)),
            ('no byte left', 24, moment(1, 1, 3))):
        yield f'one byte for a two-byte type, {name}', both + head(2, 3) + header, number
    again = both + head(3, 6) + moment(2, 2, 2) + bytes(2) + moment(2, 2, 2)
    yield 'a type again', again, 20


def long_cut():
    """999 radials of a cut leave room for one that closes it, 1000 do not. An RHI, with states 5 and 6."""
    cut = front((mask(2), 0), scan_type=5) + radial(1, state=5)
    for number in range(2, 999):
        cut += radial(number, state=1)
    yield '998 radials', cut, 'open'
    cut += radial(999, state=1)
    yield '999 radials', cut, 'open'
    last, closing = radial(1000, state=1), radial(1000, state=6)
    yield 'radial 1000 that closes nothing', cut + last, 40
    yield 'its header alone', cut + last[:64], 40
    yield 'a byte of the header missing', cut + last[:63], 'open'
    yield 'radial 1000 that closes nothing, azimuth 361', cut + radial(1000, state=1, azimuth=361.0), 15
    yield 'radial 1000 that closes the cut, its header alone', cut + closing[:64], 'open'


def files():
    """(name, bytes) of each file."""
    for part in fronts, masks, counts, bytes_of_data, too_many_bytes, after_moments, long_cut:
        for name, data, number in part():
            r = ref.read(data)
            told = 'open' if r.verdict[0] == 'open' else r.verdict[1]
            assert number == told, (name, number, r.verdict)
            yield name, data
            if number == 'open' and r.bytes_read == len(data):
                rest = ref.completion(data)
                assert ref.read(data + rest).verdict == 'complete', name
                if len(rest) <= MOST:
                    yield 'completed', data + rest


def main(args):
    if args == ['stdin']:
        before = b''
        for _, data in files():
            kept = len(os.path.commonprefix([before, data]))
            sys.stdout.buffer.write(struct.pack('<2I', kept, len(data) - kept) + data[kept:])
            before = data
    elif args == ['stdout']:
        for n, (_, data) in enumerate(files(), 1):
            r = ref.read(data)
            told = r.verdict if r.verdict == 'complete' else ' '.join(map(str, r.verdict))
            print(f'{n}: {told} {r.bytes_read} {len(r.radials)}')
    elif args == ['names']:
        for n, (name, _) in enumerate(files(), 1):
            print(f'{n}: {name}')
    else:
        sys.exit('usage: hoping_expected.py stdin|stdout|names')


if __name__ == '__main__':
    main(sys.argv[1:])
