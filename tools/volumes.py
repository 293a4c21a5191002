#!/usr/bin/env python3
"""Volumes to try the reader with, built from field dictionaries.

    python3 tools/volumes.py NAME > file     one of the volumes below
    python3 tools/volumes.py check           document 01's "Numbers to try"

A specification is {'generic': {}, 'site': {}, 'task': {}, 'cuts': [cut...]};
a cut is {'fields': {}, 'radials': [radial...]}, a radial
{'fields': {}, 'moments': [moment...]}, a moment {'fields': {}, 'data': bytes}.
Fields not given hold valid values; numbers that follow from the rest (counts,
states, lengths) are worked out unless they are given.
"""
import copy
import struct
import sys

sys.dont_write_bytecode = True
import reference as ref

DEFAULTS = {
    'generic': {'magic': ref.MAGIC, 'major': 1, 'generic type': 1},
    'site': {'code': b'Z9000', 'name': b'Example', 'latitude': 30.5, 'longitude': 114.25},
    'task': {'name': b'VCP21', 'polarization': 1, 'scan type': 0, 'start time': 1445000000},
    'cut': {'process mode': 1, 'wave form': 0, 'unfold mode': 1, 'log resolution': 250,
            'Doppler resolution': 250, 'phase mode': 1, 'moments mask': 2, 'size mask': 0},
    'radial': {'spot blank': 0, 'azimuth': 0.5, 'elevation': 1.5, 'seconds': 1445000001,
               'microseconds': 0},
    'moment': {'scale': 2, 'offset': 66},
}


def block(kind, fields, fill=None):
    """A block's bytes. Float fields may be given as 4 raw bytes, so that every
    bit pattern can be written. With fill (a number), the fields that have no
    rule hold a pattern of bytes in place of zeros."""
    size = ref.SIZES[kind]
    if fill is None:
        out, base = bytearray(size), DEFAULTS[kind]
    else:
        out = bytearray((fill * 37 + i * 101 + 11) % 256 for i in range(size))
        kept = {rule[1] for rule in ref.RULES[kind]} | {'moments mask', 'size mask'}
        base = {k: v for k, v in DEFAULTS[kind].items() if k in kept}
    for name, value in {**base, **fields}.items():
        place, fmt = ref.PLACE[kind, name], ref.FORMAT[kind, name]
        raw = value if fmt == '<f' and isinstance(value, bytes) else struct.pack(fmt, value)
        out[place:place + len(raw)] = raw
    return bytes(out)


def build(spec):
    """The bytes of a volume."""
    fill = spec.get('fill')
    cuts = spec['cuts']
    task = {'cut number': len(cuts), **spec['task']}
    rhi = ref.is_rhi({**DEFAULTS['task'], **task}['scan type'])
    out = [block('generic', spec['generic'], fill), block('site', spec['site'], fill),
           block('task', task, fill)]
    out += [block('cut', cut['fields'], fill) for cut in cuts]
    sequence = 0
    for c, cut in enumerate(cuts, 1):
        sizes = {**DEFAULTS['cut'], **cut['fields']}['size mask']
        for j, radial in enumerate(cut['radials'], 1):
            sequence += 1
            if j == 1:
                state = 5 if rhi else 3 if c == 1 else 0
            elif j < len(cut['radials']):
                state = 1
            else:
                state = 6 if rhi else 2 if c < len(cuts) else 4
            moments = radial['moments']
            out.append(block('radial', {
                'state': state, 'sequence': sequence, 'radial number': j,
                'elevation number': c, 'moment number': len(moments),
                'length of data': sum(32 + len(m['data']) for m in moments),
                **radial['fields']}, fill))
            for m in moments:
                size = 1 + ref.bit(sizes, m['fields']['type'])
                out.append(block('moment', {'bin length': size, 'length': len(m['data']),
                                            **m['fields']}, fill))
                out.append(m['data'])
    return b''.join(out)


def moment(type, data, **fields):
    return {'fields': {'type': type, **fields}, 'data': bytes(data)}


def words(*codes):
    """Two-byte codes."""
    return struct.pack('<%dH' % len(codes), *codes)


def mask(*types):
    """"Masks": type t is bit t-1."""
    return sum(1 << (t - 1) for t in types)


def volume(cuts, fill=None, **task):
    return {'generic': {}, 'site': {}, 'task': task, 'cuts': cuts, 'fill': fill}


# Parts are copied into the whole, so that a change to one never shows in another.

def cut(radials, mask=2, sizes=0, **fields):
    return {'fields': {'moments mask': mask, 'size mask': sizes, **fields},
            'radials': [copy.deepcopy(r) for r in radials]}


def radial(*moments, **fields):
    return {'fields': {k.replace('_', ' '): v for k, v in fields.items()},
            'moments': [copy.deepcopy(m) for m in moments]}


# --------------------------------------------------------------------------
# The volumes, as specifications.

def small_spec():
    """Document 01's small volume, 872 bytes."""
    return volume([cut([radial(moment(2, [0, 1, 5, 66])), radial(moment(2, [2, 3, 4, 255]))])])


def rich_spec():
    """Scan type 0, three cuts, one- and two-byte gates, all special codes, several
    moments in a radial in changing order, a type that some radials lack, types 1 and
    64 (both ends of the masks), classes in one and two bytes (types 14 and 15) between
    measurements (13 and 16), odd contents in every field that has no rule."""
    one = bytes([0, 1, 2, 3, 4, 5, 66, 129, 130, 131, 255])
    two = words(0, 1, 2, 3, 4, 5, 256, 261, 512, 1024, 32767, 32768, 65535)   # 256: low byte 0
    t1 = moment(1, one)
    t2 = moment(2, two, scale=1, offset=32768)
    t3 = moment(3, one[::-1], scale=16, offset=130)
    first = cut([
        radial(t1, t2, t3, azimuth=b'\0\0\0\x80', elevation=-2.0, microseconds=999999),
        radial(t3, t1, spot_blank=1, azimuth=360.0, elevation=90.0, seconds=0),
        radial(t2, t3, t1, seconds=ref.INT_MAX)], mask(1, 2, 3, 5), mask(2, 9))
    t64 = moment(64, words(65535, 16384, 261, 4, 3, 2, 1, 0), scale=32768, offset=0)
    t63 = moment(63, bytes([99, 100, 101, 2, 0]), scale=8, offset=100)
    second = cut([radial(t64, t63), radial(t63, elevation=b'\0\0\0\x80')],
                 mask(63, 64), mask(62, 64))
    t13, t14 = moment(13, one[:7]), moment(14, one, offset=5)
    t15 = moment(15, words(0, 1, 2, 3, 4, 5, 256, 300, 65535), scale=16, offset=130)
    t16 = moment(16, words(3, 5, 300))
    third = cut([
        radial(moment(3, [0])), radial(moment(3, [2]), moment(4, words(261)), t14, t13),
        radial(moment(4, words(2, 0, 5), scale=100, offset=5), t15, t16, moment(14, [4, 5, 9]))],
        mask(3, 4, 13, 14, 15, 16), mask(4, 15, 16))
    return volume([first, second, third], fill=3)


def rhi_spec(scan_type):
    """One cut, states 5, 1, 6."""
    z = moment(2, [0, 2, 5, 200])
    w = moment(4, words(1, 258, 3))
    radials = [radial(z, w), radial(w, z), radial(z)]
    return volume([cut(radials, mask(2, 4), mask(4))], **{'scan type': scan_type})


def layers_spec(scan_type=5):
    """Document 02, #103: an RHI of six azimuths, a cut for each; states 5 and 6, and between
    them a 1 in the last cut. Each cut has other gates, a second moment every other one."""
    cuts = []
    for k in range(6):
        z = [moment(2, [k, 2, 5 + k, 200])]
        w = [moment(4, words(1, 258 + k))] if k % 2 else []
        at = {'azimuth': 60.0 * k}
        radials = [radial(*z, **at), radial(*w, *z, **at)] + [radial(*z, **at)] * (k == 5)
        cuts.append(cut(radials, mask(2, 4), mask(4), azimuth=60.0 * k))
    return volume(cuts, **{'scan type': scan_type})


def single(bits):
    """The four bytes of the single with these bits."""
    return struct.pack('<I', bits)


# The azimuths of `valley`, in the order of its radials: zero and minus zero, 360, the smallest above zero; the singles next to 12.34
# on both sides; 90, 180; the single at 359.99, which is a little below it, and the next; 359.995, and the last below 360
VALLEY = [0x00000000, 0x80000000, 0x43B40000, 0x00000001, 0x414570A3, 0x414570A4, 0x42B40000, 0x43340000,
          0x43B3FEB8, 0x43B3FEB9, 0x43B3FF5C, 0x43B3FFFF]


def valley_spec():
    """Document 02, #114: two cuts with a radial at each azimuth that a wedge may turn on, each with other gates; every third
    radial of the first cut and all of the second have a spot blank; type 4 only at 12.34 and 180."""
    def radials(cut):
        for k, bits in enumerate(VALLEY, 1):
            z = moment(2, [(k + cut) % 5] * k + [5 + k])
            w = [moment(4, words(2, 261, 0))] if k in (6, 8) else []
            yield radial(*w, z, azimuth=single(bits), spot_blank=int(cut == 2 or k % 3 == 0))
    return volume([cut(radials(c), mask(2, 4), mask(4)) for c in (1, 2)])


def many_cuts_spec(count=ref.MOST_CUTS, scan_type=4):
    """Many cuts, two radials each; from 145 cuts on longer than what the listing program takes."""
    pair = [radial(moment(2, [2])), radial(moment(2, [0]))]
    return volume([cut(pair) for _ in range(count)], **{'scan type': scan_type})


def many_moments_spec():
    """64 moments of one gate each, so 33 times K is the length of data."""
    every = [moment(t, [t]) for t in range(64, 0, -1)]
    return volume([cut([radial(*every), radial(*every[:1])], 2**64 - 1)])


def full_spec():
    """Exactly the 65,536 bytes that the listing program takes; 32,768 is also the
    longest data of a moment."""
    return volume([cut([radial(moment(2, b'\5' * 32768)), radial(moment(2, b'\6' * 31904))])])


def longest_spec():
    """A length of data of 100,000 (over what the listing program takes)."""
    ms = [moment(t, bytes(32768)) for t in (1, 2, 3)] + [moment(4, bytes(1568))]
    return volume([cut([radial(*ms), radial(*ms[3:])], mask(1, 2, 3, 4))])


def long_cut_spec(count=1000):
    """A cut of 1000 radials passes; in a longer one the 1000th does not close it, and is refused 40."""
    return volume([cut([radial(moment(2, [7]))] * count)])


SPECS = {
    'small': small_spec, 'rich': rich_spec,
    'rhi2': lambda: rhi_spec(2), 'rhi5': lambda: rhi_spec(5),
    'valley': valley_spec, 'layers': layers_spec, 'too_many_for_2': lambda: layers_spec(2),
    'cuts_50': lambda: many_cuts_spec(50), 'cuts_51': lambda: many_cuts_spec(51),
    'cuts_120': lambda: many_cuts_spec(120), 'layers_120': lambda: many_cuts_spec(120, 5),
    'many_cuts': many_cuts_spec, 'too_many_cuts': lambda: many_cuts_spec(257),
    'many_layers': lambda: many_cuts_spec(256, 5), 'too_many_layers': lambda: many_cuts_spec(257, 5),
    'many_moments': many_moments_spec, 'full': full_spec, 'longest': longest_spec,
    'long_cut': long_cut_spec, 'too_long_cut': lambda: long_cut_spec(1001),
}


def named(name):
    return build(SPECS[name]())


def small():
    return named('small')


def rich():
    return named('rich')


def rhi(scan_type):
    return build(rhi_spec(scan_type))


# --------------------------------------------------------------------------

def check():
    """Document 01, "Numbers to try", line by line."""
    def value(code, scale, offset):
        g = ref.gate_of(code, scale, offset, 2)
        return g.numerator, g.denominator, g.hundredths

    for code in range(5):
        assert all(ref.gate_of(code, 2, 66, t).kind == code for t in range(1, 65))
    assert value(5, 2, 66) == (-61, 2, -3050) and ref.gate_of(5, 2, 66, 2).value == -30.5
    assert value(66, 2, 66) == (0, 2, 0) and value(255, 2, 66) == (189, 2, 9450)
    assert value(129, 16, 130) == (-1, 16, -6) and value(131, 16, 130) == (1, 16, 6)
    assert value(101, 8, 100)[2] == 13 and value(99, 8, 100)[2] == -13
    assert int.from_bytes(b'\5\1', 'little') == 261
    assert value(5, 1, 32768)[2] == -3276300

    # document 02, #101: classes of types 14 and 15 alone
    for t in range(1, 65):
        class_of = [ref.gate_of(code, 16, 130, t).code for code in (4, 5, 300)]
        assert class_of == ([None, 5, 300] if t in (14, 15) else [None] * 3)
        assert ref.gate_of(5, 16, 130, t).kind == (6 if t in (14, 15) else 5)

    def told(data):
        r = ref.read(data)
        return r.verdict, r.bytes_read, len(r.radials)

    assert told(b'') == (('open', 32), 0, 0)
    assert told(b'\1' * 31) == (('open', 1), 0, 0)
    assert told(b'\1' * 32) == (('refused', 1, 0), 0, 0)
    assert told(named('many_cuts'))[0] == 'complete'
    assert told(named('too_many_cuts')) == (('refused', 8, 336), 160, 0)
    s = small_spec()
    assert small()[:4] == bytes.fromhex('5253544D')
    s['cuts'][0]['radials'][0]['fields']['microseconds'] = 999999
    assert told(build(s))[0] == 'complete'
    s['cuts'][0]['radials'][0]['fields']['microseconds'] = 1000000
    assert told(build(s)) == (('refused', 17, 672 + 32), 672, 0)

    data = small()
    assert len(data) == 872 and told(data) == ('complete', 872, 2)
    assert told(data[:871]) == (('open', 1), 868, 1)
    assert told(data + b'\0') == (('refused', 25, 872), 872, 2)
    assert ref.index(data) == bytes.fromhex(
        '01 0200 02000000 A002000000000000 0403000000000000')
    assert len(ref.index(data)) == 23 and ref.index_right(data, ref.index(data))
    assert ref.index(data[:871]) == ref.refused(36) and ref.index(data, 22) == ref.refused(33)
    assert ref.listing(data) == (
        'verdict complete 872 2\nradial 1 672 3 1\nmoment 2 768 4\n'
        'radial 2 772 4 1\nmoment 2 868 4\n')

    # document 02, #103: type 5 in several cuts, each opened by 5 and closed by 6; type 2 in one
    data = named('layers')
    r = ref.read(data)
    assert (r.verdict, r.bytes_read, len(r.cuts)) == ('complete', len(data), 6)
    assert [q.state for q in r.radials] == [5, 6] * 5 + [5, 1, 6]
    assert told(named('many_layers'))[0] == 'complete'
    for name in 'too_many_for_2', 'too_many_layers':
        assert told(named(name)) == (('refused', 8, 336), 160, 0)
    for n, q in enumerate(r.radials):
        first = n in (0, 2, 4, 6, 8, 10)
        for state in range(8):
            tried = data[:q.place] + bytes([state]) + data[q.place + 1:]
            if state not in ([5] if first else [1, 6]):
                assert told(tried) == (('refused', 10, q.place), q.place, n)

    # document 02, #106: up to 256 cuts; from 51 on the index starts with a 0 byte and the count in two
    for count, start in (50, '32'), (51, '003300'), (120, '007800'), (255, '00ff00'), (256, '000001'):
        data = build(many_cuts_spec(count))
        assert told(data) == ('complete', len(data), 2 * count)
        index, start = ref.index(data), bytes.fromhex(start)
        rest = struct.pack('<H', 2) * count + struct.pack('<I', 2 * count)
        places = range(416 + 256 * count, len(data), 97)
        assert index == start + rest + b''.join(struct.pack('<Q', place) for place in places)
        assert ref.index_right(data, index)
        other = ref.new_start(count) if count <= 50 else bytes([count % 256])
        assert not ref.index_right(data, other + index[len(start):])

    # document 02, #114: wedges by the exact value, 360 as 0, the end left out
    for bits, start, end, lies in (
            (0, 0, 1, 1), (0x80000000, 0, 1, 1), (0x43B40000, 0, 1, 1), (0x43B40000, 35999, 1, 1), (0x43B40000, 35999, 0, 0),
            (1, 0, 1, 1), (1, 1, 0, 0), (0x414570A4, 1234, 1235, 1), (0x414570A3, 1234, 1235, 0), (0x414570A3, 1233, 1234, 1),
            (0x414570A4, 1233, 1234, 0), (0x43B3FEB8, 35999, 0, 0), (0x43B3FEB9, 35999, 0, 1), (0x43B3FF5C, 35999, 0, 1),
            (0x43B3FF5C, 0, 35999, 0), (0x42B40000, 9000, 18000, 1), (0x43340000, 9000, 18000, 0), (0x43340000, 77, 77, 1)):
        assert ref.in_wedge(start, end, struct.unpack('<f', single(bits))[0]) == bool(lies), (hex(bits), start, end)
    r = ref.read(named('valley'))
    whole = r.tally(1, 2)
    assert whole[:4] == (0, 0, 12, 4) and r.tally(2, 2).blanks == 12
    for a, b in (0, 1), (0, 35999), (1234, 1233), (9000, 18000), (35999, 1), (100, 50):
        there, back = r.tally(1, 2, a, b), r.tally(1, 2, b, a)
        kinds = zip(*(x.kinds for x in (there, back) if isinstance(x, ref.Tally)))
        assert [sum(k) for k in kinds] == whole.kinds
    assert r.tally(9, 2, 36000, 0) == r.tally(1, 2, 0, 36000) == r.tally(1, 2, -1, 0) == ref.refused(61)
    assert r.tally(3, 2, 35999, 0) == r.tally(0, 2) == ref.refused(30)
    assert r.tally(1, 4, 0, 1234) == r.tally(1, 2, 100, 200) == ref.refused(31)

    # document 02, #110: what is told open at a block's end can be completed
    for name in 'small', 'rich', 'rhi2', 'layers':
        data = named(name)
        for b in ref.read(data).blocks[:-1]:
            begun = data[:b.end]
            assert told(begun)[0][0] == 'open' and told(begun + ref.completion(begun))[0] == 'complete'
    for place, number in (416 + ref.PLACE['cut', 'moments mask'], 40), (416, 9):    # no type; no process mode either
        data = data[:place] + bytes(8) + data[place + 8:]
        assert told(data) == (('refused', number, 416), 416, 0)

    # the other volumes: valid ones are complete, and written block by block the same
    for name in SPECS:
        data = named(name)
        r = ref.read(data)
        if not name.startswith('too_'):
            assert r.verdict == 'complete', (name, r.verdict)
        if len(r.blocks) < 300 and r.verdict == 'complete':
            room, written = bytearray(len(data)), 0
            for b in r.blocks:
                written = ref.write(written, room, b.kind, data[b.place:b.end])
            assert room == data and written == len(data)
    last = 672 + 999 * 97
    assert told(named('too_long_cut')) == (('refused', 40, last), last, 999)
    assert len(named('full')) == 65536
    print('all numbers agree')


def main(args):
    if args == ['check']:
        check()
    elif len(args) == 1 and args[0] in SPECS:
        sys.stdout.buffer.write(named(args[0]))
    else:
        sys.exit('usage: volumes.py check|' + '|'.join(SPECS))


if __name__ == '__main__':
    main(sys.argv[1:])
