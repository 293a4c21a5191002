#!/usr/bin/env python3
"""A broken volume closed, after document 02, #107, over the reference reader.

    python3 tools/mending.py FILE > VOLUME      (or - for standard input)

The volume goes to standard output and the report, in words, to standard error, as `./knot mend` has them.
"""
import struct
import sys
from collections import namedtuple

sys.dont_write_bytecode = True
import reference as ref

CUTS_START = 416                        # behind the generic header, the site and the task

# A changed field: its place in the given file and in the written one, its old and its new contents
Change = namedtuple('Change', 'field place written old new')
# The changed fields; the dropped cuts, from this one so many; the dropped stretch of the given file, from here up to there
Report = namedtuple('Report', 'changes first_dropped dropped_cuts start end')
Written = namedtuple('Written', 'volume report')
REFUSALS = {54: 'no cut has two whole radials', 33: 'the room is too short for the volume'}


def behind_cuts(cuts):
    return CUTS_START + cuts * ref.SIZES['cut']


def task_field(data, name):
    """(place, contents) of a field of the task, which stands behind the generic header and the site."""
    place = ref.SIZES['generic'] + ref.SIZES['site'] + ref.PLACE['task', name]
    return place, struct.unpack_from('<i', data, place)[0]


def put(data, place, value):
    return data[:place] + struct.pack('<i', value) + data[place + 4:]


def closed_by(r, last):
    """What would be written if this whole radial were the last: nothing more than the request names is changed."""
    data, gap = r.data, behind_cuts(len(r.cuts)) - behind_cuts(last.cut)
    number_place, number = task_field(data, 'cut number')
    _, scan_type = task_field(data, 'scan type')
    closing = 6 if ref.is_rhi(scan_type) else 4
    fields = [Change('cut number', number_place, number_place, number, last.cut),
              Change('state', last.place, last.place - gap, last.state, closing)]
    volume = data[:behind_cuts(last.cut)] + data[behind_cuts(len(r.cuts)):last.end]
    for f in fields:
        volume = put(volume, f.written, f.new)
    return Written(volume, Report(
        [f for f in fields if f.old != f.new], last.cut + 1, number - last.cut, last.end, len(data)))


def longest(r):
    """The longest complete volume of leading whole radials, tried from all of them down; None where there is none."""
    for last in reversed(r.radials):
        written = closed_by(r, last)
        if ref.read(written.volume).verdict == 'complete':
            return written
    return None


def mend(data, room_length):
    """What is written, or a refusal. Order: 54, 33."""
    r = ref.read(data)
    written = longest(r)
    in_cuts = [radial.cut for radial in r.radials]
    assert (written is None) == all(in_cuts.count(c) < 2 for c in set(in_cuts))     # the words of 54
    if written is None:
        return ref.refused(54)
    if len(written.volume) > room_length:
        return ref.refused(33)
    if r.verdict == 'complete':                         # "handed back unchanged"
        assert written.volume == data and unchanged(written.report)
    return written


def unchanged(report):
    return not report.changes and report.dropped_cuts == 0 and report.start == report.end


def words(report):
    """The report, a line for each part of it."""
    if unchanged(report):
        return ['nothing changed: the file is complete']
    names = {'cut number': 'cut number', 'state': 'state of the last radial kept'}
    lines = [f'{names[c.field]}: was {c.old} at byte {c.place} of the file, is {c.new} at byte {c.written} of the volume'
             for c in report.changes]
    cuts = f'{report.dropped_cuts}, from cut {report.first_dropped} on' if report.dropped_cuts else 'none'
    stretch = f'from byte {report.start} up to the end of the file at byte {report.end}'
    return lines + [f'dropped cuts: {cuts}', 'dropped stretch: ' + (stretch if report.start < report.end else 'none')]


def refusal_words(told):
    return ['refused {} {}'.format(*told[1:]), REFUSALS[told[1]]]


def main(args):
    if len(args) != 1:
        sys.exit('usage: mending.py FILE|-')
    if args == ['-']:
        data = sys.stdin.buffer.read()
    else:
        with open(args[0], 'rb') as file:
            data = file.read()
    told = mend(data, len(data))                        # long enough: nothing is added
    written = isinstance(told, Written)
    print('\n'.join(words(told.report) if written else refusal_words(told)), file=sys.stderr)
    if not written:
        sys.exit(2)
    sys.stdout.buffer.write(told.volume)


if __name__ == '__main__':
    main(sys.argv[1:])
