#!/usr/bin/env python3
"""What the program `asking` reads and prints: whole lists of questions answered by the index (document 02, #109).

    python3 tools/asking_expected.py stdin > crates/asking/stdin
    python3 tools/asking_expected.py stdout > crates/asking/stdout
    python3 tools/asking_expected.py names          each case's number and what it is, beside its lines of the output

Standard input is one group after the other. A group begins with four numbers: what is wanted (0, 1 or 2), how many bytes the
volume has, how many the index has, and how many lists of questions follow; then the volume's bytes, the index's and the lists.
A list begins with five numbers: how many radials, types and gates there are, and how many entries the rooms of kinds and of
hundredths have; then the radials with eight bytes each, the types with four and the gates with eight. Every other number has
four bytes, and all are little-endian. Both rooms are filled with AA before, and their checksums cover all of them:

    filled QUESTIONS KINDS HUNDREDTHS
    refused NUMBER 0 KINDS HUNDREDTHS
    too long                            for a list, where one of its five numbers is over 65,536
    cut short                           where the input ends in a group; nothing follows

Wanted 1 is for the command line, and has no checksum:

    refused NUMBER 0                    and a second line that says it in words
    answered QUESTIONS                  and behind it a line for each question, its kind and its hundredths

Wanted 2 is the index itself, and the group has neither an index nor lists. The index's number is how long the room is:

    refused NUMBER 0                    and a second line that says it in words
    written BYTES                       and behind that line the index's bytes as they are, with no line behind them
    too long                            where the room would be longer than any index

Each list is given with what is to be told of it: a refusal, or an entry for each question, worked out from the codes that the
volume is specified with. The index, too, is put together from the specification. The answers by the index written from the text
have to tell all of that, and so has the reference reader's gate question. Nothing in the output comes from the program.
"""
import itertools
import random
import struct
import sys
from collections import namedtuple

sys.dont_write_bytecode = True
import asking
import reference as ref
import volumes
from checking_expected import halves_spec, rows_of
from mending_expected import (
    CUT_SHORT, FILLED, TOO_LONG, checksum, patched, printed, radial_ends, radials_of, start_of, tiny_spec, with_field)
from picking_expected import every_type_spec
from volumes import cut, mask, moment, radial, words

FILLED_WORD = 0xAAAAAAAA - 2**32                        # a signed number of four bytes
MOST_ENTRIES = 65536
LONGEST_INDEX = 3 + 2 * 256 + 4 + 8 * 65536
LAST = 2**64 - 1                                        # of radials and gates, in eight bytes

# A volume by its specification: its bytes, its index, how many radials it has, and (radial, type) -> the row's kinds and hundredths
Known = namedtuple('Known', 'file index radials rows')
# A list of questions, as three lists, and how long both rooms are. told has (kind, hundredths) for each question, or is a refusal
# or one of TOO_LONG and CUT_SHORT
Asked = namedtuple('Asked', 'name radials types gates kinds hundredths told')
Group = namedtuple('Group', 'name wanted file index asked')
# Wanted 2: told is the index, a refusal or TOO_LONG
Writing = namedtuple('Writing', 'name file room told')

no = ref.refused


# --------------------------------------------------------------------------
# What is to be told, by another way than the index's: of a volume's specification.

def index_of(spec):
    """From where its radials begin. The count of cuts has one byte, or two behind a 0."""
    counts, (*places, _) = [len(c['radials']) for c in spec['cuts']], radial_ends(spec)
    start = struct.pack('<B', len(counts)) if len(counts) <= 50 else struct.pack('<BH', 0, len(counts))
    return start + struct.pack(f'<{len(counts)}HI{len(places)}Q', *counts, len(places), *places)


def known(spec):
    return Known(volumes.build(spec), index_of(spec), len(radials_of(spec)), rows_of(spec))


def entry(v, n, t, i):
    if not 1 <= n <= v.radials:
        return 30, 0
    if (n, t) not in v.rows:
        return 31, 0
    kinds, hundredths = v.rows[n, t]
    return (kinds[i], hundredths[i]) if i < len(kinds) else (32, 0)


def by_the_walk(r, question):
    """What the plain walk answers."""
    answer = r.gate(*question)
    if not isinstance(answer, ref.Gate):
        return answer[1], 0
    return answer.kind, answer.hundredths if answer.kind == 5 else 0


# --------------------------------------------------------------------------
# Lists of questions. The rooms are as long as there are questions, if they are not given.

def asked(v, name, questions, kinds=None, hundredths=None, told=None):
    """Three lists of one length. What is told is the entry of each question, if it is not given."""
    questions = list(questions)
    kinds, hundredths = (len(questions) if room is None else room for room in (kinds, hundredths))
    told = [entry(v, *question) for question in questions] if told is None else told
    return Asked(name, *([question[part] for question in questions] for part in range(3)), kinds, hundredths, told)


def each_alone(v, questions):
    for n, t, i in questions:
        yield asked(v, f'radial {n}, type {t}, gate {i}', [(n, t, i)])


def gates_of(v, n, t):
    return len(v.rows[n, t][0])


def types_of(v, n):
    return [t for of, t in v.rows if of == n]


def every_gate(v, radials):
    """Of these radials every gate."""
    return [(n, t, i) for n in radials for t in types_of(v, n) for i in range(gates_of(v, n, t))]


def ends(v, radials):
    """Of these radials the first gate of each moment, the last, and one past it."""
    for n in radials:
        for t in types_of(v, n):
            last = gates_of(v, n, t) - 1
            yield from ((n, t, 0), (n, t, last), (n, t, last + 1))


def group(name, v, lists, wanted=0):
    """Of a volume and its own index."""
    return Group(name, wanted, v.file, v.index, list(lists))


# --------------------------------------------------------------------------
# Volumes to ask.

def random_codes(rng, top):
    """Special codes, the ends of what is none, and any."""
    return [rng.choice((rng.randrange(5), 5, rng.randrange(5, top), rng.randrange(90, 140), top - 1))
            for _ in range(rng.randrange(1, 5))]


def random_moment(rng, t, two):
    """The scales 8, 16 and 200 give halves, on both sides of zero."""
    codes = random_codes(rng, 65536 if two else 256)
    return moment(t, words(*codes) if two else codes, scale=rng.choice((1, 2, 3, 8, 16, 200, 32768)),
                  offset=rng.choice((0, 5, 66, 100, 130, 32768)))


def random_cut(rng, radials, moments):
    """So many radials with one moment or up to so many, of types that are often classes."""
    types = rng.sample([*range(1, 14), *range(16, 65)], 4) + [14, 15]
    two = rng.sample(types, 3)
    return cut([radial(*(random_moment(rng, t, t in two) for t in rng.sample(types, rng.randrange(1, moments + 1))))
                for _ in range(radials)], mask(*types), mask(*two))


def random_volume(seed, counts, moments, scan_type=0):
    """Of cuts with so many radials."""
    rng = random.Random(seed)
    spec = volumes.volume([random_cut(rng, count, moments) for count in counts], **{'scan type': scan_type})
    return known({**spec, 'fill': len(counts)})


def long_cut_spec(count):
    """One cut of many radials, each with other gates than its neighbours."""
    return volumes.volume([cut([radial(moment(2, [k % 7, k % 251])) for k in range(count)])])


SMALL, RICH, HALVES = (known(spec()) for spec in (volumes.small_spec, volumes.rich_spec, halves_spec))
FIFTY = random_volume(50, [2] * 50, 2)
FIFTY_ONE = random_volume(51, [2] * 51, 2)
TINY_51 = known(tiny_spec(*[2] * 51))                   # as short as a volume with an index of the new form can be


# --------------------------------------------------------------------------
# Numbers beyond what there is.

def far_radials(v, t, i):
    """Also such as would be a radial's number, or stand where its place does, if their upper bits were lost."""
    last = v.radials
    yield from each_alone(v, [(n, t, i) for n in (
        0, 1, last, last + 1, last + 2, 2**8 + 1, 2**16 + 1, 2**29 + 1, 2**31, 2**31 + last, 2**32 - 1, 2**32, 2**32 + 1,
        2**32 + last, 2**61, 2**61 + 1, 2**61 + last, 2**63, 2**63 + 1, LAST - last, LAST - 1, LAST)])


def far_types(v, n, t, i):
    yield from each_alone(v, [(n, other, i) for other in (
        0, 1, 63, 64, 65, t + 32, t + 64, t + 2**8, t + 2**16, 2**31, 2**31 + t, 2**32 - t, 2**32 - 2, 2**32 - 1)])


def first_refusals(v, n, t):
    """30 before 31 before 32."""
    yield from each_alone(v, [(0, 0, LAST), (v.radials + 1, 65, LAST), (LAST, 2**32 - 1, LAST), (LAST, t, 0), (n, 65, LAST)])


def far_gates(v, n, t):
    """Those that, twofold or from where the data stands, would come back to a byte of the file in 32 or 64 bits."""
    place, gates = ref.read(v.file).find(n, t).place, gates_of(v, n, t)
    wrapping = (2**31 - place // 2, 2**32 - place, 2**64 - place, 2**64 - place + 1, 2**64 - place + 400,
                2**64 - place // 2, 2**63 - place // 2, 2**63 - place // 2 + 200, 2**64 - 32, 2**64 - 96)
    yield from each_alone(v, [(n, t, i) for i in (
        0, gates - 1, gates, gates + 1, 2 * gates - 1, 2**8, 2**15, 2**16, 2**16 + 1, 2**31, 2**31 + 1, 2**32 - 1, 2**32,
        2**32 + 1, 2**33, 2**62, 2**63 - 1, 2**63, 2**63 + 1, LAST - 1, LAST, *wrapping)])


def far_numbers(v, n, types):
    """Of one radial of the volume: beyond the radials and types by its first type, beyond the gates by each of them."""
    yield from (*far_radials(v, types[0], 0), *far_types(v, n, types[0], 0), *first_refusals(v, n, types[0]))
    for t in types:
        yield from far_gates(v, n, t)


# --------------------------------------------------------------------------
# Every radial of small volumes, and orders.

def small_volumes():
    for name, v in (
            ('small', SMALL), ('rich', RICH), ('halves', HALVES), ('an RHI of one cut', known(volumes.rhi_spec(2))),
            ('an RHI of six cuts', known(volumes.layers_spec())), ('64 types', known(every_type_spec()))):
        radials = range(1, v.radials + 1)
        lists = [asked(v, f'every gate of radial {n}, and past it', [*every_gate(v, [n]), *ends(v, [n])]) for n in radials]
        types = sorted({t for _, t in v.rows})
        around = [(n, t, 0) for n in range(v.radials + 2) for t in (0, *types, types[-1] + 1)]
        yield group(name, v, [*lists, asked(v, 'every type in every radial and around', around)])


def orders(v):
    """The same questions in other orders, and the same many times."""
    gates = every_gate(v, range(1, v.radials + 1))
    rising = [(0, 2, 0), *gates[::len(gates) // 100 or 1], (v.radials + 1, 2, 0)]
    mixed = random.Random(len(rising)).sample(rising, len(rising))
    yield from (asked(v, 'rising', rising), asked(v, 'falling', rising[::-1]), asked(v, 'mixed', mixed),
                asked(v, 'from both ends', [question for both in zip(rising, rising[::-1]) for question in both]))
    for question in rising[::20] + rising[-1:]:
        yield asked(v, 'radial {}, type {}, gate {} 60 times'.format(*question), [question] * 60)


# --------------------------------------------------------------------------
# Lists and rooms of other lengths.

SIX = [(1, 1, 5), (4, 63, 0), (7, 14, 5), (1, 2, 12), (2, 2, 0), (1, 1, 2)]         # of `rich`
SIX_BY_HAND = [(5, -3050), (5, -13), (6, 0), (5, 3276700), (31, 0), (2, 0)]


def uneven(sizes, count, rooms):
    """The first radials, types and gates of the six questions, so many of each."""
    radials, types, gates = ([question[part] for question in SIX[:size]] for part, size in enumerate(sizes))
    told = SIX_BY_HAND[:count] if min(rooms) >= count else no(33)
    return Asked('{} radials, {} types, {} gates, rooms of {} and {}'.format(*sizes, *rooms), radials, types, gates, *rooms, told)


def lengths():
    """(lengths of the lists, how many questions there are): each list shorter by one, by more and empty, and so two of them."""
    for sizes, count in (
            ((5, 6, 6), 5), ((6, 5, 6), 5), ((6, 6, 5), 5), ((3, 6, 6), 3), ((6, 3, 6), 3), ((6, 6, 3), 3), ((1, 6, 6), 1),
            ((6, 1, 6), 1), ((6, 6, 1), 1), ((0, 6, 6), 0), ((6, 0, 6), 0), ((6, 6, 0), 0), ((6, 5, 4), 4), ((4, 6, 5), 4),
            ((5, 4, 6), 4), ((2, 2, 6), 2), ((2, 6, 2), 2), ((6, 2, 2), 2), ((0, 0, 6), 0), ((0, 6, 0), 0), ((6, 0, 0), 0),
            ((0, 0, 0), 0), ((6, 6, 6), 6)):
        rooms = [(count, count), (6, 6), (count + 9, count + 2)]
        if count:
            rooms += [(count - 1, 9), (9, count - 1)]
        for pair in rooms:
            yield uneven(sizes, count, pair)


def both_rooms():
    """Each length beside each, with six questions, with one and with none."""
    for count, around in (6, (0, 1, 5, 6, 7, 60)), (1, (0, 1, 2)), (0, (0, 1, 2)):
        for pair in itertools.product(around, repeat=2):
            yield uneven((count,) * 3, count, pair)


def rooms_for(v, questions):
    count = len(questions)
    for kinds, hundredths, told in (
            (count, count, None), (count - 1, count, no(33)), (count, count - 1, no(33)), (0, 0, no(33)), (count + 1, count, None),
            (count, count + 40, None)):
        yield asked(v, f'{count} questions, rooms of {kinds} and {hundredths}', questions, kinds, hundredths, told)


# --------------------------------------------------------------------------
# 59: an index that is not right for the file.

def not_right(name, file, index, v=SMALL):
    """59 for questions that the whole volume answers, for none, and where a room is short."""
    questions = [(1, 2, 0), (v.radials, 2, 0)]
    return Group(f'59: {name}', 0, file, index, [
        asked(v, 'two questions', questions, 3, 2, told=no(59)), asked(v, 'no question', [], told=no(59)),
        asked(v, 'no room', questions, 0, 0, told=no(59)), asked(v, 'a room too short', questions, 2, 1, told=no(59))])


def changed(raw, place, bits):
    return patched(raw, place, '<B', raw[place] ^ bits)


def swapped(index, start, places):
    """Two of the places that start there changed over."""
    one, other = (start + 8 * place for place in places)
    out = bytearray(index)
    out[one:one + 8], out[other:other + 8] = index[other:other + 8], index[one:one + 8]
    return bytes(out)


def changed_bytes():
    """Each byte of the small volume's index, and some of the new form, which takes a volume of 51 cuts each."""
    for place, bits in itertools.product(range(len(SMALL.index)), (1, 0x80)):
        yield not_right(f'byte {place} of the index with bits {bits:x} turned', SMALL.file, changed(SMALL.index, place, bits))
    for place, what in (
            (0, 'the 0 byte'), (1, 'the count of cuts'), (2, 'its higher byte'), (104, "the last cut's radials"), (
            108, 'the highest byte of the radials'), (116, 'the highest byte of the first place')):
        yield not_right(f'51 cuts, {what}, with a bit turned', TINY_51.file, changed(TINY_51.index, place, 1), TINY_51)


def other_lengths():
    index = SMALL.index
    for size in range(len(index)):
        yield not_right(f'{size} bytes of the index', SMALL.file, index[:size])
    for name, more in ('a 0 byte', b'\0'), ('a byte', b'\xa0'), ('a place', index[-8:]), ('the index again', index):
        yield not_right(f'{name} behind the index', SMALL.file, index + more)
    yield not_right('51 cuts, a byte behind the index', TINY_51.file, TINY_51.index + b'\0', TINY_51)
    yield not_right('51 cuts, the index without its last byte', TINY_51.file, TINY_51.index[:-1], TINY_51)


def other_indexes():
    yield not_right('the new form', SMALL.file, b'\0\1\0' + SMALL.index[1:])
    yield not_right('50 cuts, the new form', FIFTY.file, b'\0\x32\0' + FIFTY.index[1:], FIFTY)
    yield not_right('51 cuts, the old form', TINY_51.file, b'\x33' + TINY_51.index[3:], TINY_51)
    yield not_right('no cut', SMALL.file, bytes(23))
    yield not_right('places changed over', SMALL.file, swapped(SMALL.index, 7, (0, 1)))
    yield not_right('51 cuts, places changed over', TINY_51.file, swapped(TINY_51.index, 109, (0, 101)), TINY_51)
    yield not_right('the same place twice', SMALL.file, SMALL.index[:15] + SMALL.index[7:15])
    for name, other in ('rich', RICH), ('51 cuts', TINY_51), ('halves', HALVES):
        yield not_right(f'the index of another volume, {name}', SMALL.file, other.index)
    yield not_right('the file for the index', SMALL.file, SMALL.file)
    yield not_right('the index for the file', SMALL.index, SMALL.index)
    for name, place in ('a byte ahead', -1), ('a byte behind', 1), ('by the data', 96):
        moved = patched(SMALL.index, 7, '<Q', 672 + place)
        yield not_right(f'the first place {name}', SMALL.file, moved)
    for name, count in ('one', 1), ('three', 3), ('none', 0):
        yield not_right(f'{name} instead of two radials', SMALL.file, patched(SMALL.index, 3, '<I', count))
    yield not_right('one radial', SMALL.file, struct.pack('<BHIQ', 1, 1, 1, 672))


def files_not_complete():
    """With the index that the whole volume has, and with one of the radials that are whole."""
    spec, file, index = volumes.small_spec(), SMALL.file, SMALL.index
    for name, other in (
            ('empty', b''), ('one byte', file[:1]), ('cut by a byte', file[:-1]), ('grown by a byte', file + b'\0'), (
            'there twice', file + file), ('up to the cut', start_of(spec, 0)), ('one whole radial', start_of(spec, 1)), (
            'one whole radial and a header', start_of(spec, 1, 64)), (
            'no closing state', with_field(spec, 'radial 2', 'state', 1))):
        yield not_right(f'the file: {name}', other, index)
    for number, block, field, value in (
            (10, 'radial 2', 'state', 2), (12, 'radial 1', 'sequence', 2), (18, 'radial 2', 'length of data', 0), (
            20, 'moment 2', 'type', 3), (21, 'moment 1', 'scale', 0), (24, 'moment 2', 'length', 3)):
        damaged = with_field(spec, block, field, value)
        assert ref.read(damaged).verdict[1] == number
        yield not_right(f'the file is refused {number}', damaged, index)
    for number, place in (1, 0), (2, 8), (8, 336), (9, 416):
        damaged = patched(file, place, '<i', 0)
        assert ref.read(damaged).verdict[1] == number
        yield not_right(f'the file is refused {number}', damaged, index)
    yield not_right('one whole radial, and its index', start_of(spec, 1), struct.pack('<BHIQ', 1, 1, 1, 672))
    yield not_right('no radial, and its index', start_of(spec, 0), struct.pack('<BHI', 1, 0, 0))
    yield not_right('an empty file, an empty index', b'', b'')
    yield not_right('an empty file, an index without cuts', b'', bytes(5))


def right_after_all():
    """An index is right for every complete file whose radials stand at its places; and a group without a list has no line."""
    spec = volumes.small_spec()
    spec['cuts'][0]['radials'][0]['moments'][0] = moment(2, [9, 0, 1, 2], scale=8, offset=100)
    other = known(spec)
    assert other.index == SMALL.index and other.file != SMALL.file
    lists = [asked(other, 'every gate and past it', [*every_gate(other, (1, 2)), *ends(other, (1, 2))])]
    yield Group('another file with the same places', 0, other.file, SMALL.index, lists)
    yield group('no list', SMALL, [])
    yield Group('no list, an empty index', 0, SMALL.file, b'', [])
    yield group('small', SMALL, [asked(SMALL, 'no question, no room', []), asked(SMALL, 'no question, rooms', [], 3, 2)])


# --------------------------------------------------------------------------
# Random questions, and volumes of which more is asked.

def random_question(rng, v):
    """Mostly one that has an answer; else another radial, type or gate, past the end, with upper bits or anywhere."""
    n = rng.randrange(1, v.radials + 1)
    t = rng.choice(types_of(v, n))
    i = rng.randrange(gates_of(v, n, t))
    slip = rng.randrange(12)
    if slip == 0:
        n = rng.choice((0, v.radials + 1, n + 2**32, rng.getrandbits(64)))
    elif slip == 1:
        t = rng.choice((rng.randrange(66), t + 64, rng.getrandbits(32)))
    elif slip == 2:
        i = rng.choice((gates_of(v, n, t), i + 2**32, i + 2**63, rng.getrandbits(64)))
    return n, t, i


def random_lists(seed, v, count):
    """So many lists of up to 80 questions, in rooms that are often longer and seldom too short."""
    rng = random.Random(seed)
    for number in range(1, count + 1):
        questions = [random_question(rng, v) for _ in range(rng.randrange(1, 81))]
        most = len(questions)
        kinds, hundredths = (most + rng.choice((0, 0, 1, 7)) for _ in range(2))
        if rng.randrange(20) == 0:
            yield asked(v, f'random list {number}, a short room', questions, kinds, most - 1, told=no(33))
        else:
            yield asked(v, f'random list {number}', questions, kinds, hundredths)


def rich():
    """All that is asked of one volume, and the gates of classes too."""
    lists = [*orders(RICH), *lengths(), *both_rooms(), *far_numbers(RICH, 1, [2, 1]), *random_lists(1, RICH, 20)]
    for n, t in (7, 14), (8, 15), (8, 16):
        lists += far_gates(RICH, n, t)
    yield group('rich', RICH, lists)


def fifty_one_cuts():
    """An index of the new form."""
    v, last = FIFTY_ONE, FIFTY_ONE.radials
    yield group('51 cuts', v, [
        asked(v, 'the ends of every radial', ends(v, range(1, last + 1))), *orders(v), *rooms_for(v, [*ends(v, range(1, last, 9))]),
        *far_numbers(v, last, types_of(v, last)), *random_lists(2, v, 40)])


def most_radials_in_a_cut():
    """Around the numbers at which a byte is full, and at the ends."""
    v = known(long_cut_spec(ref.MOST_IN_CUT))
    numbers = [*range(1, 4), *range(254, 259), *range(510, 515), *range(766, 771), *range(997, 1003)]
    yield group('one cut of 1000 radials', v, [
        asked(v, 'every radial', [(n, 2, 1) for n in range(1, 1001)]), *each_alone(v, [(n, 2, 1) for n in numbers]),
        *random_lists(3, v, 10)])


def most_cuts():
    """The count of cuts has a 0 for its lower byte."""
    v = random_volume(256, [2] * ref.MOST_CUTS, 1)
    assert v.index[:3] == b'\0\0\1'
    around = 0, 1, 2, 127, 128, 254, 255, 256, 257, 258, 510, 511, 512, 513, 2**32 + 1
    yield group('256 cuts', v, [
        *(asked(v, f'radial {n}, every gate and past it', [*ends(v, [n]), (n, 14, 0), *every_gate(v, [n])]) for n in around),
        *random_lists(4, v, 40)])


def random_volumes():
    for seed, name, v in (
            (5, '50 cuts', FIFTY), (6, 'one cut', random_volume(1, [4], 6)), (7, 'three cuts', random_volume(3, [5, 2, 9], 5)),
            (8, 'an RHI of four cuts', random_volume(4, [3, 4, 2, 5], 6, 5)),
            (9, 'an RHI of 52 cuts', random_volume(52, [2, 3] * 26, 1, 5))):
        yield group(name, v, random_lists(seed, v, 40))


# --------------------------------------------------------------------------
# Lists that are too long for the program.

def longest():
    """Rooms as long as may be, and by one entry longer, with questions to skip; and too many types, which of the three lists
    take the fewest bytes."""
    lists = [
        uneven((6, 6, 6), 6, (MOST_ENTRIES, 6)), uneven((6, 6, 6), 6, (6, MOST_ENTRIES)),
        uneven((6, 5, 4), 4, (MOST_ENTRIES + 1, 6))._replace(told=TOO_LONG), uneven((5, 6, 6), 5, (5, 5)),
        uneven((4, 6, 5), 4, (6, MOST_ENTRIES + 1))._replace(told=TOO_LONG), uneven((6, 5, 6), 5, (5, 5)),
        uneven((0, 0, 0), 0, (MOST_ENTRIES + 1, 0))._replace(told=TOO_LONG),
        uneven((0, 0, 0), 0, (2**32 - 1, 2**32 - 1))._replace(told=TOO_LONG), uneven((6, 6, 5), 5, (5, 5)),
        Asked('65,537 types', [1], [1] * (MOST_ENTRIES + 1), [5], 1, 1, TOO_LONG), uneven((6, 6, 6), 6, (6, 6))]
    yield group('rich', RICH, lists)
    too_long = [a._replace(told=no(59) if a.told != TOO_LONG else TOO_LONG) for a in lists[2:4]]
    yield Group('59: too long all the same', 0, RICH.file, SMALL.index, too_long)


# --------------------------------------------------------------------------
# The command line's output, the index itself, and the input's end.

def command_line():
    v = RICH
    lists = [asked(v, 'every gate of radial 4 and past it', [*every_gate(v, [4]), *ends(v, [4])]), uneven((6, 6, 6), 6, (6, 6)),
             uneven((6, 6, 3), 3, (3, 4)), uneven((6, 6, 6), 6, (5, 6)), uneven((0, 0, 0), 0, (0, 0)),
             uneven((6, 6, 6), 6, (6, MOST_ENTRIES + 1))._replace(told=TOO_LONG),
             *each_alone(v, [(LAST, 2**32 - 1, LAST), (7, 14, 9)])]
    yield group('for the command line: rich', v, lists, wanted=1)
    v = TINY_51
    yield group('for the command line: 51 cuts', v, [asked(v, 'first and last', [(1, 2, 0), (102, 2, 0), (103, 2, 0)])], wanted=1)
    for name, file, index in (
            ('another index', SMALL.file, RICH.index), ('a byte behind the index', SMALL.file, SMALL.index + b'\0'),
            ('an open file', SMALL.file[:-1], SMALL.index), ('an empty file', b'', b'')):
        yield not_right(f'for the command line: {name}', file, index)._replace(wanted=1)


def indexes():
    for name, v in ('small', SMALL), ('rich', RICH), ('51 cuts', TINY_51):
        size = len(v.index)
        yield Writing(f'{name}, a room that is long enough', v.file, size, v.index)
        yield Writing(f'{name}, a room that is a byte short', v.file, size - 1, no(33))
    yield Writing('50 cuts, a room that is long enough', FIFTY.file, len(FIFTY.index), FIFTY.index)
    for room, told in (24, SMALL.index), (100, SMALL.index), (0, no(33)), (1, no(33)), (LONGEST_INDEX, SMALL.index), (
            LONGEST_INDEX + 1, TOO_LONG), (2**32 - 1, TOO_LONG):
        yield Writing(f'small, a room of {room}', SMALL.file, room, told)
    for name, file in (
            ('cut by a byte', SMALL.file[:-1]), ('grown by a byte', SMALL.file + b'\0'), ('empty', b''), (
            'no volume', b'\1' * 500), ('up to the cut', SMALL.file[:672])):
        for room in 23, 0:
            yield Writing(f'the file: {name}, a room of {room}', file, room, no(36))


def cut_short():
    """The last, since nothing is read behind it: the input lacks the last byte of the second list's gates."""
    yield group('cut short', RICH, [uneven((6, 6, 6), 6, (6, 6)), uneven((6, 6, 6), 6, (6, 6))._replace(told=CUT_SHORT)])


GROUPS = [small_volumes, rich, fifty_one_cuts, changed_bytes, other_lengths, other_indexes, files_not_complete, right_after_all,
          most_radials_in_a_cut, most_cuts, random_volumes, longest, command_line, indexes, cut_short]


# --------------------------------------------------------------------------
# The lines, and that the answers by the index written from the text are the same.

def sizes(a):
    return len(a.radials), len(a.types), len(a.gates), a.kinds, a.hundredths


def filled(head, kinds, hundredths):
    return f'{head} {checksum(kinds)} {checksum(h % 2**32 for h in hundredths)}'


def told_lines(g, a, r):
    """What is printed of one list, on a volume that was read so."""
    assert (a.told == TOO_LONG) == (max(sizes(a)) > MOST_ENTRIES)
    if a.told in (TOO_LONG, CUT_SHORT):
        return [a.told]
    before = [FILLED] * a.kinds, [FILLED_WORD] * a.hundredths
    lists = a.radials, a.types, a.gates
    answer = asking.answers(g.file, g.index, *lists, *before)
    if isinstance(a.told, tuple):
        assert answer == (a.told, *before), answer
        return asking.refusal_words(a.told) if g.wanted == 1 else [filled('refused {} {}'.format(*a.told[1:]), *before)]
    count = len(a.told)
    kinds, hundredths = ([e[part] for e in a.told] + before[part][count:] for part in range(2))
    assert answer == (count, kinds, hundredths), answer
    assert [by_the_walk(r, question) for question in zip(*lists)] == a.told
    if g.wanted == 1:
        return [f'answered {count}', *(f'{kind} {h}' for kind, h in a.told)]
    return [filled(f'filled {count}', kinds, hundredths)]


def written_lines(w):
    """What is printed where the index itself is wanted. Its bytes stand for no line."""
    if w.told == TOO_LONG:
        assert w.room > LONGEST_INDEX
        return [TOO_LONG]
    assert w.room <= LONGEST_INDEX and ref.index(w.file, w.room) == w.told
    return [f'written {len(w.told)}', w.told] if isinstance(w.told, bytes) else asking.refusal_words(w.told)


def cases(g):
    """(name, what is told, its lines) of each case: a list, or an index that is wanted."""
    if isinstance(g, Writing):
        yield f'the index: {g.name}', g.told, written_lines(g)
    else:
        r = ref.read(g.file)
        for a in g.asked:
            try:
                yield f'{g.name}: {a.name}', a.told, told_lines(g, a, r)
            except AssertionError as wrong:
                raise AssertionError(g.name, a.name) from wrong


def met_by(told):
    """What a case shows: the index, a refusal, a word, or kinds and the signs of hundredths."""
    if isinstance(told, list):
        return {(kind, (h > 0) - (h < 0)) for kind, h in told}
    return {'index' if isinstance(told, bytes) else told}


def checked():
    """(group, [(name, lines) of each case]) of every group."""
    met = set()
    for g in itertools.chain.from_iterable(part() for part in GROUPS):
        told = [*cases(g)]
        met.update(*(met_by(what) for _, what, _ in told))
        yield g, [(name, lines) for name, _, lines in told]
    zeros = {(kind, 0) for kind in (*range(7), 30, 31, 32)}
    assert met == zeros | {(5, -1), (5, 1), no(59), no(33), no(36), 'index', TOO_LONG, CUT_SHORT}


def list_bytes(a):
    radials, types, gates, *_ = sizes(a)
    return struct.pack(f'<5I{radials}Q{types}I{gates}Q', *sizes(a), *a.radials, *a.types, *a.gates)


def group_bytes(g):
    if isinstance(g, Writing):
        return struct.pack('<4I', 2, len(g.file), g.room, 0) + g.file
    out = struct.pack('<4I', g.wanted, len(g.file), len(g.index), len(g.asked)) + g.file + g.index
    out += b''.join(map(list_bytes, g.asked))
    return out[:-1] if any(a.told == CUT_SHORT for a in g.asked) else out


def main(args):
    if args == ['stdin']:
        for g, _ in checked():
            sys.stdout.buffer.write(group_bytes(g))
    elif args == ['stdout']:
        for _, told in checked():
            for _, lines in told:
                sys.stdout.buffer.write(printed(lines))
    elif args == ['names']:
        number = itertools.count(1)
        for _, told in checked():
            for name, lines in told:
                print(f'{next(number)}: {name}', end='\n' * printed(lines).count(b'\n'))    # nothing beside its other lines
    else:
        sys.exit('usage: asking_expected.py stdin|stdout|names')


if __name__ == '__main__':
    main(sys.argv[1:])
