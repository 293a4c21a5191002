#!/usr/bin/env python3
"""Reference reader and writer of base data volumes, after documents 01 and 02.

Written from the text alone, to work out what the library and the listing
program must answer. Slow and plain on purpose.

    python3 tools/reference.py list FILE      (or - for standard input)

Every refusal has one shape: ('refused', number, place).
"""
import struct
import sys
from collections import namedtuple
from fractions import Fraction
from functools import lru_cache
from itertools import zip_longest

MAGIC = 0x4D545352
LISTING_TAKES = 65536          # "Numbers to try": the listing's part of the input
INT_MAX = 2**31 - 1
MOST_CUTS, MOST_SEQUENCE = 256, 65536    # document 02, #106
MOST_IN_CUT = 1000                       # 13
MOST_LENGTH, MOST_DATA = 100000, 32768   # 18, of a radial; 24, of a moment

# --------------------------------------------------------------------------
# "Blocks, with byte places inside each": (name, place, struct format).
# i = INT, h = SHORT, f = FLOAT, Q = LONG carried as 64 bits (both are masks),
# Ns = N bytes of text or reserved.
SIZES = {'generic': 32, 'site': 128, 'task': 256, 'cut': 256, 'radial': 64, 'moment': 32}

FIELDS = {
    'generic': [                                        # table 2-2
        ('magic', 0, 'i'), ('major', 4, 'h'), ('minor', 6, 'h'),
        ('generic type', 8, 'i'), ('product type', 12, 'i'), ('reserved', 16, '16s')],
    'site': [                                           # table 2-3
        ('code', 0, '8s'), ('name', 8, '32s'), ('latitude', 40, 'f'),
        ('longitude', 44, 'f'), ('antenna height', 48, 'i'), ('ground height', 52, 'i'),
        ('frequency', 56, 'f'), ('beam width H', 60, 'f'), ('beam width V', 64, 'f'),
        ('RDA version', 68, 'i'), ('radar type', 72, 'h'), ('reserved', 74, '54s')],
    'task': [                                           # table 2-4
        ('name', 0, '32s'), ('description', 32, '128s'), ('polarization', 160, 'i'),
        ('scan type', 164, 'i'), ('pulse width', 168, 'i'), ('start time', 172, 'i'),
        ('cut number', 176, 'i'), ('noise H', 180, 'f'), ('noise V', 184, 'f'),
        ('calibration H', 188, 'f'), ('calibration V', 192, 'f'),
        ('noise temperature H', 196, 'f'), ('noise temperature V', 200, 'f'),
        ('ZDR', 204, 'f'), ('phase', 208, 'f'), ('LDR', 212, 'f'),
        ('reserved', 216, '40s')],
    'cut': [                                            # table 2-5, in its order
        ('process mode', 0, 'i'), ('wave form', 4, 'i'), ('PRF 1', 8, 'f'),
        ('PRF 2', 12, 'f'), ('unfold mode', 16, 'i'), ('azimuth', 20, 'f'),
        ('elevation', 24, 'f'), ('start angle', 28, 'f'), ('end angle', 32, 'f'),
        ('angular resolution', 36, 'f'), ('scan speed', 40, 'f'),
        ('log resolution', 44, 'i'), ('Doppler resolution', 48, 'i'),
        ('maximum range 1', 52, 'i'), ('maximum range 2', 56, 'i'),
        ('start range', 60, 'i'), ('sample 1', 64, 'i'), ('sample 2', 68, 'i'),
        ('phase mode', 72, 'i'), ('atmospheric loss', 76, 'f'),
        ('Nyquist speed', 80, 'f'), ('moments mask', 84, 'Q'), ('size mask', 92, 'Q'),
        ('filter mask', 100, 'i'), ('SQI threshold', 104, 'f'),
        ('SIG threshold', 108, 'f'), ('CSR threshold', 112, 'f'),
        ('LOG threshold', 116, 'f'), ('CPA threshold', 120, 'f'),
        ('PMI threshold', 124, 'f'), ('DPLOG threshold', 128, 'f'),
        ('thresholds reserved', 132, '4s'), ('dBT mask', 136, 'i'),
        ('dBZ mask', 140, 'i'), ('velocity mask', 144, 'i'),
        ('spectrum width mask', 148, 'i'), ('DP mask', 152, 'i'),
        ('mask reserved', 156, '12s'), ('scan sync', 168, 'i'), ('direction', 172, 'i'),
        ('clutter classifier', 176, 'h'), ('clutter filter', 178, 'h'),
        ('clutter notch width', 180, 'h'), ('clutter window', 182, 'h'),
        ('reserved', 184, '72s')],
    'radial': [                                         # table 3-1
        ('state', 0, 'i'), ('spot blank', 4, 'i'), ('sequence', 8, 'i'),
        ('radial number', 12, 'i'), ('elevation number', 16, 'i'),
        ('azimuth', 20, 'f'), ('elevation', 24, 'f'), ('seconds', 28, 'i'),
        ('microseconds', 32, 'i'), ('length of data', 36, 'i'),
        ('moment number', 40, 'i'), ('reserved', 44, '20s')],
    'moment': [                                         # table 3-2
        ('type', 0, 'i'), ('scale', 4, 'i'), ('offset', 8, 'i'),
        ('bin length', 12, 'h'), ('flags', 14, 'h'), ('length', 16, 'i'),
        ('reserved', 20, '12s')],
}
PLACE = {(kind, name): place for kind, fields in FIELDS.items() for name, place, _ in fields}
FORMAT = {(kind, name): '<' + fmt for kind, fields in FIELDS.items() for name, _, fmt in fields}

for _kind, _fields in FIELDS.items():                   # every byte belongs to one field
    _end = 0
    for _name, _place, _fmt in _fields:
        assert _place == _end, (_kind, _name)
        _end += struct.calcsize('<' + _fmt)
    assert _end == SIZES[_kind], _kind


def unpack(kind, block):
    """The record of a block: field name -> value."""
    return {name: struct.unpack_from('<' + fmt, block, place)[0]
            for name, place, fmt in FIELDS[kind]}


# --------------------------------------------------------------------------
# "Field rules and refusal numbers", the table. A rule is all that the table says of a
# field: its clauses, a line for each, in the table's order. A clause says what is broken
# (document 02, #104, cites it so) and what keeps it: the field's range, or a condition that
# gets the value, the block's own record and Where it stands in the volume. Where no clause
# is about the range, it follows from the conditions, and says which values are worth a try.
# NaN is in no range and minus zero is zero, as Python compares floats.
Rule = namedtuple('Rule', 'number field lowest highest clauses')
Clause = namedtuple('Clause', 'broken keeps')
IN_RANGE = None


class Where:
    """What the rules need to know of the blocks before."""
    rhi = False          # scan type is 2 or 5
    cuts = 0             # cut number of the task
    cut = 0              # number of the cut that the radial is in, from 1
    before = 0           # whole radials before, in the volume
    in_cut = 0           # whole radials before, in the cut
    mask = sizes = 0     # the cut's moments mask and size mask
    left = 0             # bytes of the length of data not yet used by moments
    after = 0            # moments after this one in the radial
    seen = ()            # types before this one in the radial


def is_rhi(scan_type):
    return scan_type in (2, 5)


def bit(mask, t):
    """"Masks": type t is bit t-1."""
    return mask >> (t - 1) & 1


def state_ok(v, f, at):                                 # 10, "States"
    if at.rhi:                                          # #103: each cut opened by 5, closed by 6
        return v == 5 if at.in_cut == 0 else v in (1, 6)
    if at.in_cut == 0:
        return v == (3 if at.cut == 1 else 0)
    return v == 1 or v == (2 if at.cut < at.cuts else 4)


def tiles(v, f, at):                                    # 24, "Tiling"
    left = at.left - 32 - v
    return left == 0 if at.after == 0 else left >= 33 * at.after


def size_bit(f, at):                                    # 23
    return bit(at.sizes, f['type'])


def rule(number, field, lowest, highest, *clauses):
    """A clause is given by its words alone where it is the range, else with what keeps it."""
    return Rule(number, field, lowest, highest, [
        Clause(c, IN_RANGE) if isinstance(c, str) else Clause(*c) for c in clauses])


RULES = {
    'generic': [
        rule(1, 'magic', MAGIC, MAGIC,
             'it differs from the magic, bytes 52 53 54 4D'),
        rule(2, 'generic type', 1, 1,
             'it is not 1')],
    'site': [
        rule(3, 'latitude', -90, 90,
             'it is not in -90..90'),
        rule(4, 'longitude', -180, 180,
             'it is not in -180..180')],
    'task': [
        rule(5, 'polarization', 1, 4,
             'it is not 1..4'),
        rule(6, 'scan type', 0, 6,
             'it is not 0..6'),
        rule(7, 'start time', 0, INT_MAX,
             'it is below 0'),
        rule(8, 'cut number', 1, MOST_CUTS,
             'it is not 1..256',
             ('it is not 1, while scan type is 2',      # #103: of type 2 alone
              lambda v, f, at: v == 1 or f['scan type'] != 2))],
    'cut': [
        rule(9, 'process mode', 1, 2,
             'it is not 1..2'),
        rule(9, 'wave form', 0, 6,
             'it is not 0..6'),
        rule(9, 'unfold mode', 1, 4,
             'it is not 1..4'),
        rule(9, 'log resolution', 1, 5000,
             'it is not 1..5000'),
        rule(9, 'Doppler resolution', 1, 5000,
             'it is not 1..5000'),
        rule(9, 'phase mode', 1, 3,
             'it is not 1..3')],
    'radial': [
        rule(10, 'state', 0, 6,
             ('this state is not allowed here', state_ok)),
        rule(11, 'spot blank', 0, 1,
             'it is not 0..1'),
        rule(12, 'sequence', 1, MOST_SEQUENCE,
             ('it is not 1 more than the radials before it', lambda v, f, at: v == at.before + 1),
             'it would pass 65,536'),
        rule(13, 'radial number', 1, MOST_IN_CUT,
             ("it is not the radial's count in its cut, from 1", lambda v, f, at: v == at.in_cut + 1),
             'the count is over 1000'),
        rule(14, 'elevation number', 1, MOST_CUTS,
             ("it is not the cut's number", lambda v, f, at: v == at.cut)),
        rule(15, 'azimuth', 0, 360,
             'it is not in 0..360'),
        rule(16, 'elevation', -2, 90,
             'it is not in -2..90'),
        rule(17, 'seconds', 0, INT_MAX,
             'it is below 0'),
        rule(17, 'microseconds', 0, 999999,
             'it is not 0..999,999'),
        rule(18, 'length of data', 1, MOST_LENGTH,
             'it is not 1..100,000'),
        rule(19, 'moment number', 1, 64,
             'it is not 1..64',
             ('33 times it is over the length of data', lambda v, f, at: 33 * v <= f['length of data']))],
    'moment': [
        rule(20, 'type', 1, 64,
             'it is not 1..64',
             ('it was seen before in this radial', lambda v, f, at: v not in at.seen),
             ("its bit in the cut's moments mask is 0", lambda v, f, at: bit(at.mask, v) == 1)),
        rule(21, 'scale', 1, 32768,
             'it is not 1..32,768'),
        rule(22, 'offset', 0, 32768,
             'it is not 0..32,768'),
        rule(23, 'bin length', 1, 2,
             ("it is not 1, while the type's bit in the cut's size mask is 0",
              lambda v, f, at: v == 1 or size_bit(f, at) == 1),
             ("it is not 2, while the type's bit in the cut's size mask is 1",
              lambda v, f, at: v == 2 or size_bit(f, at) == 0)),
        rule(24, 'length', 1, MOST_DATA,
             'it is not 1..32,768',
             ('it is not a multiple of bin length', lambda v, f, at: v % f['bin length'] == 0),
             ('it is wrong for the tiling: the last moment leaves no byte, any other 33 for each after it',
              tiles))],
    'data': [],
}
for _kind, _rules in RULES.items():                     # fields in byte order
    _places = [PLACE[_kind, _rule.field] for _rule in _rules]
    assert _places == sorted(set(_places)), _kind


def keeps(rule, clause, record, at):
    v = record[rule.field]
    if clause.keeps is IN_RANGE:
        return rule.lowest <= v <= rule.highest
    return clause.keeps(v, record, at)


def first_broken(kind, record, at):
    """The rule of the first bad field and the first clause of it that is broken, or None."""
    for rule in RULES[kind]:
        for clause in rule.clauses:
            if not keeps(rule, clause, record, at):
                return rule, clause
        assert rule.lowest <= record[rule.field] <= rule.highest
    return None


# --------------------------------------------------------------------------
# Document 02, #110, number 40: a block that breaks no rule, and behind which no bytes
# complete the volume. Of the blocks still to come only counts and lengths are bound by
# what was read: the types and lengths of a radial's moments, and the numbers of radials.

def raised(numbers, step, times):
    """Every number raised by step, by 2 step ... and by times step. A set of numbers is one
    whole number here: bit n is set where n is among them."""
    out, done = numbers << step, 1
    while done < times:
        more = min(done, times - done)
        out |= out << more * step
        done += more
    return out & (1 << MOST_LENGTH + 1) - 1


@lru_cache(maxsize=None)
def totals(ones, twos):
    """What the data of so many one-byte and two-byte moments can have for bytes."""
    if ones:
        return raised(totals(ones - 1, twos), 1, MOST_DATA)
    if twos:
        return raised(totals(0, twos - 1), 2, MOST_DATA // 2)
    return 1                                            # no moment: 0 bytes


@lru_cache(maxsize=None)
def some_fill(count, data, ones, twos):
    """Whether so many moments, of different types out of so many one-byte and two-byte
    ones, can have so many bytes of data."""
    return data >= 0 and any(
        totals(some, count - some) >> data & 1
        for some in range(count + 1) if some <= ones and count - some <= twos)


def moments_fill(count, left, mask, sizes):
    """Whether so many moments of different types of the mask can fill what is left."""
    return some_fill(count, left - 32 * count,
                     bin(mask & ~sizes).count('1'), bin(mask & sizes).count('1'))


def less(mask, t):
    return mask & ~(1 << t - 1)


def types_left(at):
    mask = at.mask
    for t in at.seen:
        mask = less(mask, t)
    return mask


def radials_follow(f, at):
    """Whether the radials that must come after this one keep 12 and 13: the one that closes
    its cut, unless it does, and an opening and a closing one of each later cut."""
    number, sequence = f['radial number'], f['sequence']
    if f['state'] not in (2, 4, 6):
        number, sequence = number + 1, sequence + 1
    for _ in range(at.cut, at.cuts):
        sequence += 2
    return number <= MOST_IN_CUT and sequence <= MOST_SEQUENCE


def hope(kind, f, at):
    """Whether some bytes behind this block complete the volume."""
    if kind == 'cut':                                   # each of its radials has a moment
        return f['moments mask'] != 0
    if kind == 'radial':
        return radials_follow(f, at) and moments_fill(
            f['moment number'], f['length of data'], at.mask, at.sizes)
    if kind == 'moment':
        mask = less(types_left(at), f['type'])
        return moments_fill(at.after, at.left - 32 - f['length'], mask, at.sizes)
    return True                                         # nothing in it binds what follows


# --------------------------------------------------------------------------
# Reading: "What reading tells".
Cut = namedtuple('Cut', 'mask sizes')
Block = namedtuple('Block', 'kind place end')
Radial = namedtuple('Radial', 'sequence place end state cut moments')
Moment = namedtuple('Moment', 'type header_place place length bin_length scale offset')
# kind 0 below threshold, 1 range folded, 2 not scanned, 3 unknown, 4 reserved;
# 5 is a value: float, exact fraction (not reduced), hundredths; 6 is a class: its raw code
Gate = namedtuple('Gate', 'kind value numerator denominator hundredths code', defaults=[None] * 5)
# the wedge as it was asked; in it the radials, those with spot blank 1, and the gates by their kinds
Tally = namedtuple('Tally', 'start end radials blanks kinds')


class End(Exception):
    """Reading ends here with this verdict."""


def refused(number, place=0):
    return ('refused', number, place)


class Reading:
    def __init__(self, data):
        self.data = data
        self.verdict = None    # 'complete', ('open', missing), ('refused', number, place)
        self.bytes_read = 0    # end of the last accepted block
        self.radials = []      # whole radials
        self.cuts = []         # accepted cuts
        self.blocks = []       # accepted blocks
        self.due = 'generic'   # kind of the block that is due (None when complete)
        self.at = Where()      # where that block stands

    def take(self, kind, at, size=None):
        """Accept the block that is due and give its record, or end the reading."""
        place, size = self.bytes_read, SIZES.get(kind, size)
        self.due = kind
        missing = place + size - len(self.data)
        if missing > 0:                                 # checked only when all is there
            raise End(('open', missing))
        record = {} if kind == 'data' else unpack(kind, self.data[place:place + size])
        broken = first_broken(kind, record, at)
        if broken:
            rule, _ = broken
            raise End(refused(rule.number, place + PLACE[kind, rule.field]))
        if not hope(kind, record, at):
            raise End(refused(40, place))
        self.bytes_read = place + size
        self.blocks.append(Block(kind, place, place + size))
        return record

    def walk(self):
        at = self.at
        self.take('generic', at)
        self.take('site', at)
        task = self.take('task', at)
        at.rhi, at.cuts = is_rhi(task['scan type']), task['cut number']
        for _ in range(at.cuts):
            record = self.take('cut', at)
            self.cuts.append(Cut(record['moments mask'], record['size mask']))
        for at.cut in range(1, at.cuts + 1):
            at.mask, at.sizes = self.cuts[at.cut - 1]
            at.in_cut = 0
            while self.radial_taken(at) not in (2, 4, 6):   # a closing state ends the cut
                pass
        self.due = None
        if len(self.data) > self.bytes_read:
            raise End(refused(25, self.bytes_read))
        raise End('complete')

    def radial_taken(self, at):
        """One radial, header to last data byte; gives its state."""
        place = self.bytes_read
        head = self.take('radial', at)
        # "Tiling": the length of data excludes the radial header
        at.left, at.seen, moments = head['length of data'], set(), []
        for at.after in reversed(range(head['moment number'])):
            header_place = self.bytes_read
            m = self.take('moment', at)
            moments.append(Moment(m['type'], header_place, self.bytes_read, m['length'],
                                  m['bin length'], m['scale'], m['offset']))
            self.take('data', at, m['length'])
            at.left -= 32 + m['length']
            at.seen.add(m['type'])
        at.before += 1
        at.in_cut += 1
        self.radials.append(Radial(head['sequence'], place, self.bytes_read,
                                   head['state'], at.cut, moments))
        return head['state']

    # Questions, on whole radials whichever verdict is told. Order: 30, 31, 32.

    def radial(self, n):
        """(record's bytes, place) of radial n, from 1."""
        if not 1 <= n <= len(self.radials):
            return refused(30)
        place = self.radials[n - 1].place
        return self.data[place:place + 64], place

    def find(self, n, t):
        """The Moment of type t in radial n."""
        if not 1 <= n <= len(self.radials):
            return refused(30)
        for m in self.radials[n - 1].moments:
            if m.type == t:
                return m
        return refused(31)

    def moment(self, n, t):
        """(header's bytes, place of the data, the data)."""
        m = self.find(n, t)
        if not isinstance(m, Moment):
            return m
        return (self.data[m.header_place:m.header_place + 32], m.place,
                self.data[m.place:m.place + m.length])

    def gate(self, n, t, i):
        """Gate i, from 0."""
        m = self.find(n, t)
        if not isinstance(m, Moment):
            return m
        if not 0 <= i < m.length // m.bin_length:
            return refused(32)
        start = m.place + i * m.bin_length
        code = int.from_bytes(self.data[start:start + m.bin_length], 'little')
        return gate_of(code, m.scale, m.offset, m.type)

    def gates(self, n, t):
        """All gates of a moment that is there."""
        m = self.find(n, t)
        return [self.gate(n, t, i) for i in range(m.length // m.bin_length)]

    def row(self, n, t, kinds, hundredths):
        """Fill two lent lists; the number of gates. Order: 30, 31, 33."""
        m = self.find(n, t)
        if not isinstance(m, Moment):
            return m
        gates = self.gates(n, t)
        if min(len(kinds), len(hundredths)) < len(gates):
            return refused(33)
        for i, g in enumerate(gates):                   # places past these keep their contents
            kinds[i] = g.kind
            hundredths[i] = g.hundredths if g.kind == 5 else 0
        return len(gates)

    def check_row(self, n, t, kinds, hundredths):
        """Document 02, #112: 'same' where both lists are the row's, else ('differs', gate), the first
        gate at which one is not; the end of one before the others is a difference. Order: 30, 31."""
        m = self.find(n, t)
        if not isinstance(m, Moment):
            return m
        gates = m.length // m.bin_length
        row = [None] * gates, [None] * gates
        assert self.row(n, t, *row) == gates
        given = kinds, hundredths
        for gate, entries in enumerate(zip_longest(*row, *given)):      # None past an end
            if entries[:2] != entries[2:]:
                return ('differs', gate)
        return 'same'

    def tally(self, cut, t, start=0, end=0):
        """Whole radials of the cut, in a wedge, that carry the type, and their seven kinds of gate.
        Order: 61, 30, 31."""
        if not (0 <= start <= 35999 and 0 <= end <= 35999):
            return refused(61)
        if not 1 <= cut <= len(self.cuts):
            return refused(30)
        radials, blanks, kinds = 0, 0, [0] * 7
        for r in self.radials:
            head = unpack('radial', self.data[r.place:r.place + 64])
            if r.cut == cut and any(m.type == t for m in r.moments) and in_wedge(start, end, head['azimuth']):
                radials += 1
                blanks += head['spot blank'] == 1
                for g in self.gates(r.sequence, t):
                    kinds[g.kind] += 1
        return Tally(start, end, radials, blanks, kinds) if radials else refused(31)


def in_wedge(start, end, azimuth):
    """Document 02, #114: start and end in hundredths of a degree, the azimuth by its exact value."""
    exact = Fraction(azimuth)
    if exact == 360:
        exact = Fraction(0)
    since = (exact - Fraction(start, 100)) % 360        # how far past the start, going round
    width = Fraction(end - start, 100) % 360 or 360     # equal ends: all round
    return since < width


CLASSES = (14, 15)             # document 02, #101: HCL and CF are classes and flags


def gate_of(code, scale, offset, type):
    """What a code says: five special codes, a class for two types, else a value."""
    if code < 5:
        return Gate(code)
    if type in CLASSES:
        return Gate(6, code=code)
    n = code - offset
    if scale == 0:             # which no file has; document 02, #105: nothing is divided
        return Gate(5, 0.0, n, 0, 0)
    return Gate(5, float(n) / float(scale), n, scale, hundredths_of(n, scale))


def hundredths_of(n, d):
    """100 n / d to nearest, halves away from zero, in whole numbers."""
    size = (2 * 100 * abs(n) + d) // (2 * d)
    return -size if n < 0 else size


def read(data):
    r = Reading(bytes(data))
    try:
        r.walk()
    except End as end:
        r.verdict = end.args[0]
    return r


# --------------------------------------------------------------------------
# Document 02, #104: why a file is refused, and why a gate is as it is.
# A block that is cited: which one of its kind, from 1, and of a moment also its radial.
CitedBlock = namedtuple('CitedBlock', 'kind nth radial place', defaults=[None] * 3)
# a field that is cited, or a gate's code: what stands in it, as bytes and as a number
Cited = namedtuple('Cited', 'name place size bytes value')
# number and place as reading tells them; which clause of the field's rule, from 1, and its words
Why = namedtuple('Why', 'number place block field clause broken')
# the five that give a gate's answer, and the answer
WhyGate = namedtuple('WhyGate', 'type scale offset bin_length code gate')
# a question refused, with what there is: 30 the whole radials, 31 the radial's place, 32 the moment's gates
NoGate = namedtuple('NoGate', 'number place there_is')

TRAILING = 'bytes follow the volume that this radial closes'            # 25
NO_HOPE = 'no further bytes would make the file complete'               # 40


def cited(data, kind, place, name):
    """A field of the block that stands at this place."""
    start, fmt = place + PLACE[kind, name], FORMAT[kind, name]
    raw = data[start:start + struct.calcsize(fmt)]
    return Cited(name, start, len(raw), raw, struct.unpack(fmt, raw)[0])


def due_block(r):
    """The block at which reading ended. A radial goes by its sequence, whatever its own field says."""
    sequence = r.at.before + 1
    return {'cut': CitedBlock('cut', len(r.cuts) + 1),
            'radial': CitedBlock('radial', sequence),
            'moment': CitedBlock('moment', len(r.at.seen) + 1, sequence),
            }.get(r.due, CitedBlock(r.due))._replace(place=r.bytes_read)


def why_trailing(r):
    """"Trailing bytes cite the closing radial", which is the last whole one."""
    last = r.radials[-1]
    assert last.state in (4, 6) and last.end == r.bytes_read
    block = CitedBlock('radial', last.sequence, place=last.place)
    return Why(25, last.end, block, cited(r.data, 'radial', last.place, 'state'), 1, TRAILING)


def why_broken(r):
    """The first broken clause of the block that is due."""
    block = due_block(r)
    end = block.place + SIZES[block.kind]
    rule, clause = first_broken(block.kind, unpack(block.kind, r.data[block.place:end]), r.at)
    field = cited(r.data, block.kind, block.place, rule.field)
    return Why(rule.number, field.place, block, field, rule.clauses.index(clause) + 1, clause.broken)


def why(data):
    """The verdict where nothing is refused, else the block, its field, what was found and the clause."""
    r = read(data)
    if r.verdict == 'complete' or r.verdict[0] == 'open':
        return r.verdict
    number = r.verdict[1]
    if number == 25:
        told = why_trailing(r)
    elif number == 40:                                  # "cites that block without a field"
        told = Why(40, r.bytes_read, due_block(r), None, 1, NO_HOPE)
    else:
        told = why_broken(r)
    assert refused(told.number, told.place) == r.verdict
    return told


def gate_by(type, scale, offset, bin_length, code):
    """The gate that the cited bytes give, by the formula and without a look at the file."""
    type, scale, offset, bin_length = (
        int.from_bytes(raw, 'little', signed=True) for raw in (type, scale, offset, bin_length))
    assert len(code) == bin_length
    return gate_of(int.from_bytes(code, 'little'), scale, offset, type)


def why_no_gate(r, answer, n, t):
    _, number, place = answer
    if number == 30:
        return NoGate(number, place, len(r.radials))
    if number == 31:
        return NoGate(number, place, r.radials[n - 1].place)
    return NoGate(number, place, len(r.gates(n, t)))


def why_gate(data, n, t, i):
    """What is cited for gate i, from 0, and the gate as that alone gives it."""
    r = read(data)
    answer = r.gate(n, t, i)
    if not isinstance(answer, Gate):
        return why_no_gate(r, answer, n, t)
    m = r.find(n, t)
    fields = [cited(r.data, 'moment', m.header_place, name) for name in ('type', 'scale', 'offset', 'bin length')]
    place = m.place + i * m.bin_length
    code = r.data[place:place + m.bin_length]
    fields.append(Cited('code', place, len(code), code, int.from_bytes(code, 'little')))
    given = gate_by(*(field.bytes for field in fields))
    assert given == answer                              # what the gate question answers
    return WhyGate(*fields, given)


# --------------------------------------------------------------------------
# Document 02, #110: what completes a file that is told open at a block's end.

def lowest(kind, **given):
    """A block in which each field that has a rule holds the lowest of its range, unless
    it is given ('_' in a name stands for a space); every other byte is 0."""
    out = bytearray(SIZES[kind])
    fields = {rule.field: rule.lowest for rule in RULES[kind]}
    fields |= {name.replace('_', ' '): value for name, value in given.items()}
    for name, value in fields.items():
        struct.pack_into(FORMAT[kind, name], out, PLACE[kind, name], value)
    return bytes(out)


def shortest_moment(at):
    """(type, size, length) of a moment with which the radial can go on."""
    mask = types_left(at)
    of_size = {1 + bit(at.sizes, t): t for t in range(64, 0, -1) if bit(mask, t)}
    return next((t, size, length)
                for length in range(1, MOST_DATA + 1) for size, t in of_size.items()
                if length % size == 0
                and moments_fill(at.after, at.left - 32 - length, less(mask, t), at.sizes))


def next_block(r):
    """A block that can be the next: a new radial has one moment of one gate, and closes its cut
    where it may."""
    at, kind = r.at, r.due
    if kind == 'data':
        return bytes(r.verdict[1])
    if kind == 'cut':
        return lowest(kind, moments_mask=1)
    if kind == 'radial':
        if at.in_cut == 0:
            state = 5 if at.rhi else 3 if at.cut == 1 else 0
        else:
            state = 6 if at.rhi else 2 if at.cut < at.cuts else 4
        gate = 2 if at.mask & at.sizes == at.mask else 1    # one byte where a type has it
        return lowest(kind, state=state, sequence=at.before + 1, radial_number=at.in_cut + 1,
                      elevation_number=at.cut, length_of_data=32 + gate)
    if kind == 'moment':
        t, size, length = shortest_moment(at)
        return lowest(kind, type=t, bin_length=size, length=length)
    return lowest(kind)


def completion(data):
    """Bytes behind which the file is complete. It is open and ends at a block's end."""
    rest, r = b'', read(data)
    assert r.bytes_read == len(data)
    while r.verdict != 'complete':
        rest += next_block(r)
        r = read(data + rest)
    return rest


# --------------------------------------------------------------------------
# "The house index".

def old_start(cuts):
    return struct.pack('<B', cuts)


def new_start(cuts):                                    # document 02, #106
    return b'\0' + struct.pack('<H', cuts)


def index(data, room=None):
    """The index's bytes; with a room (its length), 33 where it is too short."""
    r = read(data)
    if r.verdict != 'complete':
        return refused(36)
    per_cut = [sum(q.cut == c for q in r.radials) for c in range(1, len(r.cuts) + 1)]
    out = (old_start if len(per_cut) <= 50 else new_start)(len(per_cut))
    out += b''.join(struct.pack('<H', n) for n in per_cut)
    out += struct.pack('<I', len(r.radials))
    out += b''.join(struct.pack('<Q', q.place) for q in r.radials)
    return refused(33) if room is not None and room < len(out) else out


def index_right(data, idx):
    """Right exactly when the file is complete and the bytes are its index."""
    return read(data).verdict == 'complete' and bytes(idx) == index(data)


# --------------------------------------------------------------------------
# "Writing". The state here is only the count of bytes written.

def write(written, room, kind, block):
    """Store a block in room (a bytearray); the new count, or a refusal.
    Order: 37, 25, 34, the table's checks, 40, 35, 33."""
    if not 0 <= written <= len(room):
        return refused(37)
    r = read(room[:written])
    if r.bytes_read != written or r.verdict[0] == 'refused':
        return refused(37)                              # neither complete nor at a block's end
    if r.verdict == 'complete':
        return refused(25, written)
    if kind != r.due:
        return refused(34, written)
    if kind == 'data':                                  # no table check concerns data, nor does 40
        if len(block) != r.verdict[1]:
            return refused(35, written)
    else:
        assert len(block) == SIZES[kind]
        told = read(r.data + block).verdict
        if told[0] == 'refused':
            return told
    if written + len(block) > len(room):
        return refused(33, written)
    room[written:written + len(block)] = block
    return written + len(block)


# --------------------------------------------------------------------------
# The listing program ("Numbers to try", at the end).

def listing(data):
    r = read(data[:LISTING_TAKES])
    words = (r.verdict,) if r.verdict == 'complete' else r.verdict
    lines = [('verdict',) + words + (r.bytes_read, len(r.radials))]
    for q in r.radials:
        lines.append(('radial', q.sequence, q.place, q.state, q.cut))
        for m in q.moments:
            lines.append(('moment', m.type, m.place, m.length // m.bin_length))
    return ''.join(' '.join(map(str, line)) + '\n' for line in lines)


def main(args):
    if len(args) != 2 or args[0] != 'list':
        sys.exit('usage: reference.py list FILE|-')
    if args[1] == '-':
        data = sys.stdin.buffer.read(LISTING_TAKES)
    else:
        with open(args[1], 'rb') as f:
            data = f.read(LISTING_TAKES)
    sys.stdout.write(listing(data))


if __name__ == '__main__':
    main(sys.argv[1:])
