#!/usr/bin/env python3
"""Damaged and edge-case copies of the volumes, each with its expected listing.

    python3 tools/damage.py DIR    writes DIR/NAME and DIR/NAME.expected

The family is the same on every run. Whether a copy is still valid is not said
here: reference.py decides that, and the names only say what was done.
"""
import copy
import os
import struct
import sys

sys.dont_write_bytecode = True
import reference as ref
import volumes

BASES = ('small', 'rich', 'rhi2', 'rhi5', 'layers')


# --------------------------------------------------------------------------
# Lengths of the file: "What reading tells", rule 25.

def lengths():
    for base in BASES:
        data = volumes.named(base)
        if base in ('small', 'layers'):
            wanted = set(range(len(data) + 1))
        else:
            edges = [0] + [b.end for b in ref.read(data).blocks]
            wanted = {e + d for e in edges for d in (-1, 0, 1) if 0 <= e + d <= len(data)}
        for n in sorted(wanted):
            yield f'{base}-prefix-{n:04}', data[:n]
        for label, tail in (('1', b'\0'), ('1ff', b'\xff'), ('31', data[:31]),
                            ('32', data[:32]), ('64', data[-64:]), ('twice', data)):
            yield f'{base}-longer-{label}', data + tail


def wrong_from_the_start():
    """"Slips": a bad magic is not refused before 32 bytes are there."""
    for n in (0, 1, 4, 31, 32, 33, 160, 416):
        yield f'ones-{n}', b'\1' * n
        yield f'zeros-{n}', b'\0' * n
    yield 'magic-turned', b'MTSR' + volumes.small()[4:]


def large():
    """Full counts, and files longer than the listing program takes."""
    for name in ('cuts_50', 'cuts_51', 'cuts_120', 'layers_120', 'many_cuts', 'too_many_cuts', 'many_layers', 'too_many_layers', 'too_many_for_2',
                 'many_moments', 'full', 'longest', 'long_cut', 'too_long_cut'):
        data = volumes.named(name)
        yield name, data
        yield f'{name}-longer-1', data + b'\0'
        yield f'{name}-shorter-1', data[:-1]


# --------------------------------------------------------------------------
# One field at a time: every rule of the table, both sides of every edge.

def float_bits(x):
    return struct.unpack('<I', struct.pack('<f', x))[0]


def float_values(lo, hi):
    """(label, 4 bytes): one step up in the bits is one float further from zero."""
    bits = {0x7FC00000, 0xFFC00000, 0x7F800001, 0xFF800001,     # NaN quiet, signalling
            0x7FFFFFFF, 0x7F800000, 0xFF800000,                 # NaN, infinities
            0x7F7FFFFF, 0xFF7FFFFF,                             # largest
            0x80000000, 0, 0x80000001, 1}                       # zeros, smallest
    for edge in (lo, hi, -lo, -hi):
        b = float_bits(edge)
        bits |= {b, b + 1}
        if edge:
            bits.add(b - 1)
    for b in sorted(bits):
        yield f'{b:08x}', struct.pack('<I', b)


def whole_values(fmt, lo, hi, now):
    """(label, bytes): edges, neighbours of the present value, signs, and values that
    look right when only the low bytes are read."""
    width = 8 * struct.calcsize(fmt)
    limit = 1 << (width - 1)
    values = {lo - 1, lo, hi, hi + 1, -lo, -hi, now - 2, now - 1, now + 1, now + 2, -now,
              0, 1, -1, now - limit, lo - limit, hi - limit, -limit, limit - 1,
              now + 256, lo + 256, now + 65536, lo + 65536}
    if hi - lo <= 6:
        values |= set(range(lo, hi + 1))
    for v in sorted(values):
        if v != now and -limit <= v < limit:
            yield (f'{v}' if v >= 0 else f'm{-v}'), struct.pack(fmt, v)


def field_values(kind, rule, block):
    _, name, lo, hi, _ = rule
    fmt = ref.FORMAT[kind, name]
    if fmt == '<f':
        return float_values(lo, hi)
    return whole_values(fmt, lo, hi, ref.unpack(kind, block)[name])


def patched(data, place, raw):
    return data[:place] + raw + data[place + len(raw):]


def fields():
    for base in BASES:
        data = volumes.named(base)
        for nth, (kind, place, end) in enumerate(ref.read(data).blocks):
            for rule in ref.RULES[kind]:
                at = place + ref.PLACE[kind, rule[1]]
                for label, raw in field_values(kind, rule, data[place:end]):
                    name = f'{base}-{nth:02}-{kind}-{rule[1]}-{label}'.replace(' ', '_')
                    yield name, patched(data, at, raw)


def orders():
    """"the first bad field gives the number": each field bad together with all after
    it in its block; then the file cut at the block's end (refused) and one byte
    before (open)."""
    for base in BASES:
        data = volumes.named(base)
        for nth, (kind, place, end) in enumerate(ref.read(data).blocks):
            bad = data
            for rule in reversed(ref.RULES[kind]):
                at = place + ref.PLACE[kind, rule[1]]
                bad = patched(bad, at, b'\xff' * struct.calcsize(ref.FORMAT[kind, rule[1]]))
                name = f'{base}-{nth:02}-{kind}-all_from-{rule[1]}'.replace(' ', '_')
                yield name, bad
            if kind != 'data':
                yield f'{base}-{nth:02}-{kind}-all_bad-whole', bad[:end]
                yield f'{base}-{nth:02}-{kind}-all_bad-less_1', bad[:end - 1]


def anything():
    """"A field not named may hold anything": all bytes without a rule set alike (the
    masks, which rules read, are left), and data of every kind of byte."""
    for base in BASES:
        data = volumes.named(base)
        for nth, (kind, place, end) in enumerate(ref.read(data).blocks):
            ruled = {rule[1] for rule in ref.RULES[kind]} | {'moments mask', 'size mask'}
            for byte in (0x00, 0x7F, 0x80, 0xFF):
                out = patched(data, place, bytes([byte]) * (end - place))
                for name, p, fmt in ref.FIELDS.get(kind, []):
                    if name in ruled:
                        size = struct.calcsize('<' + fmt)
                        out = patched(out, place + p, data[place + p:place + p + size])
                yield f'{base}-{nth:02}-{kind}-anything-{byte:02x}', out


# --------------------------------------------------------------------------
# Structure: radials and moments that do not fit together.

def radial_order():
    """Whole radials left out, doubled or exchanged (rules 10, 12, 13, 14)."""
    for base in BASES:
        data = volumes.named(base)
        radials = ref.read(data).radials
        for n, r in enumerate(radials, 1):
            one = data[r.place:r.end]
            yield f'{base}-radial{n}-left_out', data[:r.place] + data[r.end:]
            yield f'{base}-radial{n}-doubled', data[:r.end] + data[r.place:]
            if n < len(radials):
                s = radials[n]
                two = data[s.place:s.end]
                yield f'{base}-radial{n}-exchanged', data[:r.place] + two + one + data[s.end:]


def changed(spec, change, c, j=None, m=None):
    """A built copy of the specification after change(part) on a cut, radial or moment."""
    spec = copy.deepcopy(spec)
    part = spec['cuts'][c]
    if j is not None:
        part = part['radials'][j]
    if m is not None:
        part = part['moments'][m]
    change(part)
    return volumes.build(spec)


def setting(**given):
    """A change that sets fields ('_' in a name stands for a space)."""
    return lambda part: part['fields'].update(
        {name.replace('_', ' '): value for name, value in given.items()})


def radial_structure():
    for base in BASES:
        spec = volumes.SPECS[base]()
        sequence = 0
        for c, cut in enumerate(spec['cuts']):
            for j, radial in enumerate(cut['radials']):
                sequence += 1
                k = len(radial['moments'])
                length = sum(32 + len(m['data']) for m in radial['moments'])
                first = radial['moments'][0]
                name = f'{base}-radial{sequence}'
                changes = [
                    # 12, 13, 14: counts that start elsewhere than they should
                    ('sequence_from_0', setting(sequence=sequence - 1)),
                    ('sequence_in_cut', setting(sequence=j + 1)),
                    ('number_from_0', setting(radial_number=j)),
                    ('number_in_volume', setting(radial_number=sequence)),
                    ('elevation_from_0', setting(elevation_number=c)),
                    ('elevation_next', setting(elevation_number=c + 2)),
                    # 19: 33 K against the length, from either side
                    ('K_most', setting(moment_number=length // 33)),
                    ('K_over', setting(moment_number=length // 33 + 1)),
                    ('K_less', setting(moment_number=k - 1)),
                    ('K_more', setting(moment_number=k + 1)),
                    ('length_33K', setting(length_of_data=33 * k)),
                    ('length_below_33K', setting(length_of_data=33 * k - 1)),
                    ('K64_length_2112', setting(moment_number=64, length_of_data=2112)),
                    ('K64_length_2111', setting(moment_number=64, length_of_data=2111)),
                    ('K65_length_2145', setting(moment_number=65, length_of_data=2145)),
                    # "Slips": the length of data taken to include the header
                    ('length_with_header', setting(length_of_data=length + 64)),
                    ('length_less_header', setting(length_of_data=length - 64)),
                    ('length_without_moment_headers', setting(length_of_data=length - 32 * k)),
                    # 20: a type that comes again after its moment
                    ('type_again', lambda r: r['moments'].append(copy.deepcopy(first))),
                ]
                for label, change in changes:
                    yield f'{name}-{label}', changed(spec, change, c, j)
                for d in (-33, -32, -2, -1, 1, 2, 32, 33):      # "Tiling"
                    sign = 'm' if d < 0 else 'p'
                    yield (f'{name}-length_{sign}{abs(d)}',
                           changed(spec, setting(length_of_data=length + d), c, j))
                # left out with all numbers made right: a cut has at least two radials
                yield (f'{name}-left_out_renumbered',
                       changed(spec, lambda part, j=j: part['radials'].pop(j), c))


def moment_structure():
    for base in BASES:
        spec = volumes.SPECS[base]()
        sequence = 0
        for c, cut in enumerate(spec['cuts']):
            sizes = cut['fields']['size mask']
            for j, radial in enumerate(cut['radials']):
                sequence += 1
                moments = radial['moments']
                total = left = sum(32 + len(m['data']) for m in moments)
                for m, moment in enumerate(moments):
                    name = f'{base}-radial{sequence}-moment{m + 1}'
                    t, data = moment['fields']['type'], moment['data']
                    size = 1 + ref.bit(sizes, t)
                    after = len(moments) - 1 - m
                    most = left - 32 - 33 * after           # "Tiling", not the last
                    changes = [
                        ('data_more', lambda x: x.update(data=x['data'] + b'\7')),
                        ('data_less', lambda x: x.update(data=x['data'][:-1])),
                        ('data_more_2', lambda x: x.update(data=x['data'] + b'\7\1')),
                        ('data_less_2', lambda x: x.update(data=x['data'][:-2])),
                        ('data_none', lambda x: x.update(data=b'')),
                        ('data_one_gate', lambda x: x.update(data=x['data'][:size])),
                        ('bin_other', setting(bin_length=3 - size)),
                        ('tight', setting(length=most)),
                        ('tight_less', setting(length=most - 1)),
                        ('tight_over', setting(length=most + 1)),
                        ('tight_over_33', setting(length=most + 33)),
                        ('takes_all', setting(length=left - 32)),
                        ('takes_too_much', setting(length=left)),
                        ('gates_for_length', setting(length=len(data) // size)),
                        ('length_with_header', setting(length=len(data) + 32)),
                    ]
                    changes += [(f'type_as_{n + 1}', setting(type=other['fields']['type']))
                                for n, other in enumerate(moments) if n != m]
                    for label, change in changes:
                        yield f'{name}-{label}', changed(spec, change, c, j, m)
                    for v in range(32766, 32771):           # 24: the tiling right, the range not
                        def long(r):
                            r['moments'][m]['fields']['length'] = v
                            r['fields']['length of data'] = total - len(data) + v
                        yield f'{name}-length_{v}_that_fits', changed(spec, long, c, j)
                    left -= 32 + len(data)


def masks():
    """"Masks" and rules 20, 23, for each type that a cut's radials carry. The bytes of
    the cut alone are changed, the radials stay as they were."""
    for base in BASES:
        spec = volumes.SPECS[base]()
        data = volumes.build(spec)
        for c, cut in enumerate(spec['cuts']):
            place = 416 + 256 * c
            mask, sizes = cut['fields']['moments mask'], cut['fields']['size mask']
            types = {m['fields']['type'] for r in cut['radials'] for m in r['moments']}
            tries = {('mask_none', 'moments mask', 0),
                     ('mask_all', 'moments mask', 2**64 - 1),
                     ('mask_left', 'moments mask', mask << 1),      # type t as bit t
                     ('mask_right', 'moments mask', mask >> 1),
                     ('mask_high', 'moments mask', mask << 32),     # halves exchanged
                     ('mask_low', 'moments mask', mask >> 32),
                     ('sizes_none', 'size mask', 0),
                     ('sizes_all', 'size mask', 2**64 - 1),
                     ('sizes_left', 'size mask', sizes << 1),
                     ('sizes_right', 'size mask', sizes >> 1),
                     ('sizes_others', 'size mask', ~mask | sizes),  # only types not carried
                     ('sizes_as_mask', 'size mask', mask)}
            for t in types:
                b, n = 1 << (t - 1), b_next(t)
                tries |= {(f'mask_less_{t}', 'moments mask', mask & ~b),
                          (f'mask_only_{t}', 'moments mask', b),
                          (f'mask_but_{t}', 'moments mask', ~b),
                          (f'mask_{t}_as_bit_{t}', 'moments mask', mask & ~b | n),
                          (f'sizes_other_{t}', 'size mask', sizes ^ b),
                          (f'sizes_{t}_as_bit_{t}', 'size mask', sizes ^ n)}
            for label, field, value in sorted(tries):
                raw = struct.pack('<Q', value & 2**64 - 1)
                yield (f'{base}-cut{c + 1}-{label}',
                       patched(data, place + ref.PLACE['cut', field], raw))
            # size mask and bin length changed together, so that only the length can be wrong
            for t in sorted(types):
                other = copy.deepcopy(spec)
                other['cuts'][c]['fields']['size mask'] = sizes ^ 1 << (t - 1)
                yield f'{base}-cut{c + 1}-gates_other_size_{t}', volumes.build(other)


def b_next(t):
    """Bit t, which a reader that counts the bits from 0 would take for type t."""
    return 1 << t & 2**64 - 1


def cut_structure():
    """Rule 8 and "States" against the number of cuts that are really there."""
    for base in BASES:
        for scan in range(7):
            for cuts in (1, 2, 3):
                spec = volumes.SPECS[base]()
                spec['cuts'] = [copy.deepcopy(spec['cuts'][0]) for _ in range(cuts)]
                spec['task']['scan type'] = scan
                yield f'{base}-scan{scan}-cuts{cuts}', volumes.build(spec)
        for count in (0, 1, 2, 4, 50, 51, 256, 257):
            spec = volumes.SPECS[base]()
            spec['task']['cut number'] = count
            yield f'{base}-cut_number_{count}', volumes.build(spec)


# --------------------------------------------------------------------------
# Document 02, #110: files that end behind a block which may have ended hope, and where it
# has not, the same files completed.

def ended(name, data):
    r = ref.read(data)
    yield name, data
    if r.verdict[0] == 'open' and r.bytes_read == len(data):
        whole = data + ref.completion(data)
        if len(whole) <= ref.LISTING_TAKES:
            yield f'{name}-completed', whole


def hopes():
    for base in BASES:
        data = volumes.named(base)
        r = ref.read(data)
        for c, cut in enumerate(r.cuts):
            end = 416 + 256 * (c + 1)
            for t in 0, 1, 64:                          # 0: no type
                raw = struct.pack('<Q', volumes.mask(t) if t else 0)
                place = end - 256 + ref.PLACE['cut', 'moments mask']
                yield from ended(f'{base}-cut{c + 1}-hope-type_{t}', patched(data, place, raw)[:end])
        for n, radial in enumerate(r.radials, 1):
            cut = r.cuts[radial.cut - 1]
            types = bin(cut.mask).count('1')
            ones = bin(cut.mask & ~cut.sizes).count('1')
            for k in range(1, types + 2):               # more moments than types, too
                edges = {k, 2 * k - min(ones, k), 32768 * k}
                for total in sorted({e + d for e in edges for d in (-1, 0, 1, 2)}):
                    raw = struct.pack('<2i', 32 * k + total, k)
                    place = radial.place + ref.PLACE['radial', 'length of data']
                    yield from ended(f'{base}-radial{n}-hope-K{k}-{total}_bytes',
                                     patched(data, place, raw)[:radial.place + 64])
            for m, moment in enumerate(radial.moments[:-1], 1):
                place = moment.header_place + ref.PLACE['moment', 'length']
                for length in range(1, moment.length + 9):
                    yield from ended(f'{base}-radial{n}-moment{m}-hope-{length}_bytes',
                                     patched(data, place, struct.pack('<i', length))[:moment.place])


def family():
    """All (name, bytes); bytes that came before under another name are left out."""
    before = set()
    for part in (lengths, wrong_from_the_start, large, fields, orders, anything,
                 radial_order, radial_structure, moment_structure, masks, cut_structure, hopes):
        for name, data in part():
            if data not in before:
                before.add(data)
                yield name, data


def main(args):
    if len(args) != 1:
        sys.exit('usage: damage.py DIR')
    os.makedirs(args[0], exist_ok=True)
    names = set()
    for name, data in family():
        assert name not in names, name
        names.add(name)
        path = os.path.join(args[0], name)
        with open(path, 'wb') as f:
            f.write(data)
        with open(path + '.expected', 'w', newline='\n') as f:
            f.write(ref.listing(data))
    print(len(names), 'files')


if __name__ == '__main__':
    main(sys.argv[1:])
