#!/usr/bin/env python3
"""What the program `writing` prints: volumes written one block at a time with their indexes,
and each refusal of the writer and of the index.

    python3 tools/writing_expected.py > crates/writing/stdout

The stored output was worked out here: the volumes are built whole, from field dictionaries,
by volumes.py, and what is told of them, their indexes and the refusals come from the reference
reader and writer, which were written from the document's text alone; nothing in it comes from
the program. For each volume:

    scan type T, moments M: verdict, bytes read, whole radials
    the listing's lines of radials and moments
    room, its checksum
    index LENGTH BYTES, whether it is right, whether it is with one byte changed

M says which moments each radial has: 1 one of one-byte gates, 2 one of two-byte gates, 3 both.
A room is filled with A5 before anything is written, and its checksum covers all of it.

Of a volume of many cuts (document 02, #106) the index by its length, its first five bytes, its
checksum and whether it is right, and the same index in the other form by its checksum and
whether it is right. Of the longest volumes, which are built in no room, the bytes and the whole
radials up to a radial, and whether the volume is over. A line for each refusal: what is tried,
the answer, then, before and after it, the room's checksum and the state's count of bytes.
"""
import struct
import sys

sys.dont_write_bytecode = True
import reference as ref
import volumes


def room_of(size, data=b''):
    return bytearray(data + b'\xa5' * (size - len(data)))


def checksum(room):
    total = 0
    for byte in room:
        total = (31 * total + byte) % 2**32
    return total


def radial(moments, sequence):
    """A radial, with its sequence number's lowest byte in the last gate of each of its moments."""
    narrow = volumes.moment(2, [0, 1, 66, sequence % 256])
    wide = volumes.moment(4, volumes.words(0, 261, 66, 512 + sequence % 256))
    return volumes.radial(*{1: [narrow], 2: [wide], 3: [narrow, wide]}[moments])


def spec(scan_type, moments, counts):
    """A volume of cuts that have these numbers of radials."""
    cuts, sequence = [], 0
    for count in counts:
        radials = [radial(moments, sequence + j) for j in range(1, count + 1)]
        cuts.append(volumes.cut(radials, volumes.mask(2, 4), volumes.mask(4)))
        sequence += count
    out = volumes.volume(cuts, **{'name': b'', 'scan type': scan_type})
    out['site'] = {'code': b'', 'name': b''}
    return out


def told(answer):
    return answer if isinstance(answer, str) else ' '.join(map(str, answer))


def yes(right):
    return 'yes' if right else 'no'


def print_volume(scan_type, moments, counts, size=2500):
    data = volumes.build(spec(scan_type, moments, counts))
    r = ref.read(data)
    print(f'scan type {scan_type}, moments {moments}: {told(r.verdict)} {r.bytes_read} '
          f'{len(r.radials)}')
    print(*ref.listing(data).splitlines()[1:], sep='\n')
    print(f'room {checksum(room_of(size, data))}')
    index = ref.index(data)
    changed = index[:22] + b'\xff' + index[23:]
    print(f'index {len(index)} {index.hex()} {yes(ref.index_right(data, index))} '
          f'{yes(ref.index_right(data, changed))}')


def print_many(count):
    """Document 02, #106: two radials in each of so many cuts."""
    data = volumes.build(spec(0, 1, [2] * count))
    r = ref.read(data)
    print(f'cuts {count}: {told(r.verdict)} {r.bytes_read} {len(r.radials)}')
    print(f'room {checksum(room_of(118000, data))}')
    index = ref.index(data)
    old, new = bytes([count % 256]), ref.new_start(count)
    own, other = (old, new) if count <= 50 else (new, old)
    assert index.startswith(own)
    changed = other + index[len(own):]
    print(f'index {len(index)} {index[:5].hex()}', *(
        f'{checksum(x)} {yes(ref.index_right(data, x))}' for x in (index, changed)))


def show_walk(label, data):
    r = ref.read(data)
    refusal = told(r.verdict) + ' ' if r.verdict[0] == 'refused' else ''
    print(f'{label}: {refusal}{r.bytes_read} {len(r.radials)} {yes(r.verdict == "complete")}')


def patched(block, kind, **fields):
    out = bytearray(block)
    for name, value in fields.items():
        name = name.replace('_', ' ')
        raw = struct.pack(ref.FORMAT[kind, name], value)
        out[ref.PLACE[kind, name]:ref.PLACE[kind, name] + len(raw)] = raw
    return bytes(out)


def print_longest():
    """Document 02, #106: a sequence of 65,536 is the last, and #110: it closes the volume."""
    data = volumes.build(spec(0, 1, [256] * 256))
    last = ref.read(data).radials[-1].place
    show_walk('65535 radials', data[:last])
    show_walk('radial 65536, closing', data)
    show_walk('40, radial 65536', data[:last] + patched(data[last:], 'radial', state=1))
    beyond = patched(data[last:], 'radial', sequence=65537, radial_number=257)
    show_walk('12, radial 65537', data[:last] + beyond)


def print_crowded():
    """Document 02, #110: a cut's radial 1000 closes it, and of 65,536 two are left for each cut to come."""
    counts = [1000] * 65 + [532, 2, 2]
    data = volumes.build(spec(0, 1, counts))
    radials = ref.read(data).radials

    def upto(sequence):
        return data[:radials[sequence - 1].end]

    def open_still(sequence):
        """Up to a radial that closes its cut, in the state of one that does not."""
        place = radials[sequence - 1].place
        return data[:place] + patched(upto(sequence)[place:], 'radial', state=1)

    show_walk('999 radials of a cut', upto(999))
    show_walk('radial 1000, closing', upto(1000))
    show_walk('40, radial 1000', open_still(1000))
    show_walk('65531 radials, in cut 66 of 68', upto(65531))
    for cut, closing in (66, 65532), (67, 65534), (68, 65536):
        if cut > 66:
            show_walk(f'radial {closing - 1}, opening cut {cut}', upto(closing - 1))
        show_walk(f'40, radial {closing}', open_still(closing))
        show_walk(f'radial {closing}, closing cut {cut}', upto(closing))


def print_put(label, written, room, kind, block):
    before = checksum(room)
    answer = ref.write(written, room, kind, block)
    assert answer[0] == 'refused', label
    print(f'{label}: {told(answer)}, room {before} {checksum(room)}, written {written} {written}')


def print_layers():
    """Document 02, #103: type 2 in two layers; type 5 with a layer closed by 2, and one opened by 0."""
    data = volumes.build(spec(2, 1, [2, 2]))
    print_put('8, type 2 in two layers', 160, room_of(1500, data[:160]), 'task', data[160:416])
    data = volumes.build(spec(5, 1, [2, 2]))
    places = [radial.place for radial in ref.read(data).radials]
    for label, n, state in ('10, a layer closed by 2', 1, 2), ('10, a layer opened by 0', 2, 0):
        at = places[n]
        print_put(label, at, room_of(1500, data[:at]), 'radial', bytes([state]) + data[at + 1:at + 64])


def print_hopeless():
    """Document 02, #110: a cut of no type; more moments than types; bytes that the types cannot fill."""
    data = volumes.build(spec(0, 3, [2]))
    cut = patched(data[416:672], 'cut', moments_mask=0)
    header, moment = data[672:736], data[736:768]

    def put(label, length, kind, block):
        """In a room that ends before the block."""
        print_put(label, length, room_of(length, data[:length]), kind, block)

    print_put('34 ahead of 40, a cut of no type before all else', 0, room_of(416), 'cut', cut)
    put('40 ahead of 33, a cut of no type in a room of 416 bytes', 416, 'cut', cut)
    put('9 ahead of 40, a cut of no type and process mode 0', 416, 'cut', patched(cut, 'cut', process_mode=0))
    header = patched(header, 'radial', moment_number=3, length_of_data=132)
    put('40 ahead of 33, three moments of two types', 672, 'radial', header)
    put('11 ahead of 40, three moments of two types and spot blank 2', 672, 'radial',
        patched(header, 'radial', spot_blank=2))
    put('40 ahead of 33, seven bytes for a two-byte type', 736, 'moment', patched(moment, 'moment', length=5))


def print_refusals():
    data = volumes.build(spec(0, 1, [2]))
    blocks = {b.place: data[b.place:b.end] for b in ref.read(data).blocks}
    opening = blocks[672]

    def put(label, size, length, kind, block, written=None):
        """A block after so many bytes of the volume, in a room of a size."""
        print_put(label, length if written is None else written, room_of(size, data[:length]),
                  kind, block)

    put('25, a radial after the end', 1000, 872, 'radial', opening)
    put('34, a radial before all else', 1000, 0, 'radial', opening)
    many = spec(0, 1, [2])
    many['task']['cut number'] = 257
    task = volumes.build(many)[160:416]
    put('34 ahead of 8, 257 cuts before all else', 1000, 0, 'task', task)
    put('8, 257 cuts', 1000, 160, 'task', task)
    put('8 ahead of 33, 257 cuts in a room of 160 bytes', 160, 160, 'task', task)
    print_layers()
    print_hopeless()
    put('35, three bytes of four', 1000, 768, 'data', b'\5\6\7')
    put('33, a room of 735 bytes', 735, 672, 'radial', opening)
    put('37, more bytes than the room has', 1000, 672, 'radial', opening, 1001)
    put('37, the end is inside a block', 1000, 672, 'radial', opening, 600)
    # The reference's state is its count of bytes alone, so what a state says beside it is
    # settled by the table's last line: bytes that are not what the state says of them.
    same = checksum(room_of(1000, data[:672]))
    print(f'37, another number of cuts: {told(ref.refused(37))}, room {same} {same}, '
          'written 672 672')
    print_put('37, another first byte', 672, room_of(1000, b'\0' + data[1:672]), 'radial', opening)
    cut = patched(data[416:672], 'cut', moments_mask=0)
    print_put('37, a cut of no type', 672, room_of(1000, data[:416] + cut), 'radial', opening)

    same = checksum(room_of(22))
    for label, answer in (
            ('36, an index of an open file', ref.index(data[:871], 22)),
            ('33, a room of 22 bytes for an index of 23', ref.index(data, 22))):
        print(f'{label}: {answer[0]} {answer[1]}, room {same} {same}')


def main():
    for scan_type, moments in ((0, 1), (1, 2), (3, 3), (4, 1), (6, 2)):
        print_volume(scan_type, moments, [2])
    for scan_type, moments in ((2, 3), (5, 1)):
        print_volume(scan_type, moments, [3])
    for scan_type, moments in ((0, 3), (1, 1), (3, 2), (4, 3), (6, 1)):
        print_volume(scan_type, moments, [3, 3, 3])
    print_volume(5, 1, [3] * 6, 4000)                   # document 02, #103
    for count in (50, 51, 120, 255, 256):               # document 02, #106
        print_many(count)
    print_longest()
    print_crowded()
    print_refusals()


if __name__ == '__main__':
    main()
