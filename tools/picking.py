#!/usr/bin/env python3
"""A volume with the moments of the wanted types only, after document 02, #111, over the reference reader.

    python3 tools/picking.py FILE TYPE... > VOLUME      (or - for standard input)

The volume goes to standard output and a refusal, with its words, to standard error, as `./knot pick` has them.
"""
import struct
import sys

sys.dont_write_bytecode = True
import reference as ref

REFUSALS = {36: 'the file is not complete', 60: 'the radial there would have no moment left',
            33: 'the room is too short for the volume'}


def set_anew(kind, block, **fields):
    """The block's bytes with these fields set anew ('_' in a name stands for a space), all others unchanged."""
    out = bytearray(block)
    for name, value in fields.items():
        field = kind, name.replace('_', ' ')
        struct.pack_into(ref.FORMAT[field], out, ref.PLACE[field], value)
    return bytes(out)


def picked_cut(block, wanted):
    """A cut whose moments mask is cut down to the wanted bits."""
    return set_anew('cut', block, moments_mask=ref.unpack('cut', block)['moments mask'] & wanted)


def kept_moments(radial, wanted):
    """Those moments of the radial whose types are wanted, in their order."""
    return [m for m in radial.moments if ref.bit(wanted, m.type)]


def picked_radial(data, radial, wanted):
    """A radial with those moments only, its length of data and moment number set anew."""
    kept = kept_moments(radial, wanted)
    moments = b''.join(data[m.header_place:m.place + m.length] for m in kept)
    header = data[radial.place:radial.place + ref.SIZES['radial']]
    return set_anew('radial', header, length_of_data=len(moments), moment_number=len(kept)) + moments


def pick(data, wanted, room_length):
    """Given a complete volume and a mask of wanted types, a volume with those moments only. Order: 36, 60, 33."""
    r = ref.read(data)
    if r.verdict != 'complete':
        return ref.refused(36)
    for radial in r.radials:
        if not kept_moments(radial, wanted):            # a radial would have no moment left
            return ref.refused(60, radial.place)
    cuts = [b for b in r.blocks if b.kind == 'cut']
    out = r.data[:cuts[0].place]                        # generic, site and task stay as they are
    out += b''.join(picked_cut(r.data[b.place:b.end], wanted) for b in cuts)
    out += b''.join(picked_radial(r.data, radial, wanted) for radial in r.radials)
    return ref.refused(33) if room_length < len(out) else out


def refusal_words(told):
    return ['refused {} {}'.format(*told[1:]), REFUSALS[told[1]]]


def main(args):
    if len(args) < 2 or not all(t.isdecimal() and 1 <= int(t) <= 64 for t in args[1:]):
        sys.exit('usage: picking.py FILE|- TYPE...')
    if args[0] == '-':
        data = sys.stdin.buffer.read()
    else:
        with open(args[0], 'rb') as file:
            data = file.read()
    wanted = sum(1 << t - 1 for t in set(map(int, args[1:])))
    told = pick(data, wanted, len(data))                # long enough: nothing is added
    if not isinstance(told, bytes):
        print('\n'.join(refusal_words(told)), file=sys.stderr)
        sys.exit(2)
    sys.stdout.buffer.write(told)


if __name__ == '__main__':
    main(sys.argv[1:])
