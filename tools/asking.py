#!/usr/bin/env python3
"""Answers by the index, after document 02, #109, over the reference reader.

    python3 tools/asking.py FILE INDEX QUESTIONS
    python3 tools/asking.py index FILE > INDEX

QUESTIONS is a text with a line `RADIAL TYPE GATE` for each question. The table of the answers goes to standard output, parted
by tabs, and a refusal, with its words, to standard error.
"""
import struct
import sys

sys.dont_write_bytecode = True
import reference as ref

NO_RADIAL, NO_MOMENT, NO_GATE = 30, 31, 32
VALUE = 5                                               # the only kind that has hundredths
COLUMNS = 'radial', 'type', 'gate', 'kind', 'hundredths'
REFUSALS = {59: 'the index is not right for the file', 36: 'the file is not complete', 33: 'no room'}


# --------------------------------------------------------------------------
# The index, whose bytes alone say how many radials there are and where each stands.

def behind_first_count(index):
    """(cuts, where the radials per cut begin): the count of cuts has a byte or, behind a 0 byte, two (#106)."""
    if index[0] == 0:
        return struct.unpack_from('<H', index, 1)[0], 3
    return index[0], 1


def second_section(index):
    """(radials, where their places begin): behind two bytes for each cut, and the radials' own count of four."""
    cuts, start = behind_first_count(index)
    count_place = start + 2 * cuts
    return struct.unpack_from('<I', index, count_place)[0], count_place + 4


def place_of(index, n):
    """Where radial n, from 1, stands in the file; None where the index has no such radial."""
    radials, places = second_section(index)
    if not 1 <= n <= radials:
        return None
    return struct.unpack_from('<Q', index, places + 8 * (n - 1))[0]


# --------------------------------------------------------------------------
# One question, on the radial that stands at a place of a complete file.

def moment_at(file, place, t):
    """(header's record, place of the data) of the moment of type t, from one header of the radial to the next; None where it
    has no such moment."""
    header_place = place + ref.SIZES['radial']
    for _ in range(ref.unpack('radial', file[place:header_place])['moment number']):
        data_place = header_place + ref.SIZES['moment']
        header = ref.unpack('moment', file[header_place:data_place])
        if header['type'] == t:
            return header, data_place
        header_place = data_place + header['length']
    return None


def entry(file, index, n, t, i):
    """(kind, hundredths) for a question. Order: 30, 31, 32."""
    place = place_of(index, n)
    if place is None:
        return NO_RADIAL, 0
    found = moment_at(file, place, t)
    if found is None:
        return NO_MOMENT, 0
    header, data_place = found
    size = header['bin length']
    if not 0 <= i < header['length'] // size:
        return NO_GATE, 0
    start = data_place + i * size
    gate = ref.gate_of(int.from_bytes(file[start:start + size], 'little'), header['scale'], header['offset'], t)
    return gate.kind, gate.hundredths if gate.kind == VALUE else 0


# --------------------------------------------------------------------------

def answers(file, index, radials, types, gates, kinds, hundredths):
    """(the number of questions or a refusal, the kinds after, the hundredths after). The lists that are given stay as they are.
    Order: 59, 33."""
    kinds, hundredths = list(kinds), list(hundredths)
    if not ref.index_right(file, index):
        return ref.refused(59), kinds, hundredths
    questions = list(zip(radials, types, gates))        # as many as the shortest has entries
    if min(len(kinds), len(hundredths)) < len(questions):
        return ref.refused(33), kinds, hundredths
    for place, question in enumerate(questions):        # places past these keep their contents
        kinds[place], hundredths[place] = entry(file, index, *question)
    return len(questions), kinds, hundredths


def refusal_words(told):
    return ['refused {} {}'.format(*told[1:]), REFUSALS[told[1]]]


def stop(told):
    print('\n'.join(refusal_words(told)), file=sys.stderr)
    sys.exit(2)


def bytes_of(path):
    with open(path, 'rb') as file:
        return file.read()


def questions_of(path):
    """A question for each line of a text."""
    out = []
    with open(path) as text:
        for number, line in enumerate(text, 1):
            words = line.split()
            if len(words) != 3 or not all(word.isdecimal() for word in words):
                sys.exit(f'line {number} of {path} is no question: RADIAL TYPE GATE')
            out.append(tuple(map(int, words)))
    return out


def print_table(questions, kinds, hundredths):
    print(*COLUMNS, sep='\t')
    for question, kind, h in zip(questions, kinds, hundredths):
        print(*question, kind, h, sep='\t')


def main(args):
    if len(args) == 2 and args[0] == 'index':
        told = ref.index(bytes_of(args[1]))
        if not isinstance(told, bytes):
            stop(told)
        sys.stdout.buffer.write(told)
    elif len(args) == 3:
        file, index, questions = bytes_of(args[0]), bytes_of(args[1]), questions_of(args[2])
        lists = [[question[part] for question in questions] for part in range(3)]
        room = [0] * len(questions)                     # long enough for both
        told, kinds, hundredths = answers(file, index, *lists, room, room)
        if told != len(questions):
            stop(told)
        print_table(questions, kinds, hundredths)
    else:
        sys.exit('usage: asking.py FILE INDEX QUESTIONS, or asking.py index FILE')


if __name__ == '__main__':
    main(sys.argv[1:])
