#!/usr/bin/env python3
"""The sheets of crates/check_listings and the lines that it must print, which come from second/facts.py.

  listings.py                 writes crates/check_listings/stdin and crates/check_listings/stdout
  listings.py --check         ends with 1 where the two files are not what would be written
  listings.py --rust ORACLE   ends with 1 where the oracle's command facts lists a sheet otherwise

A case is the length of its name and that of its sheet (32-bit each, little-endian), the name and the sheet. Printed are the
name and the sheet's listing. crates/facts/stdin and crates/facts/stdout, document 01's own, are checked too.
"""
import os
import subprocess
import sys

from corners import ONE_OF_EACH, TOP, goes, line, packed, resized, settle, sheet, stored
import facts

HERE = os.path.dirname(os.path.abspath(__file__))
EXAMPLES = os.path.join(HERE, '..', 'examples')
LONGEST, MOST_CODE, MOST_LOCALS, MOST_TRACKED = 65536, 256, 4096, 32


def load(slot, value):
    """LoadInt, which writes the slot."""
    return line(facts.LOAD_INT, slot, value % 65536, value // 65536 % 65536, ranges=[(slot, 1)])


def constant(slot, number):
    """LoadConst, which writes the slot."""
    return line(facts.LOAD_CONST, slot, number, ranges=[(slot, 1)])


def check(index, length):
    return line(facts.INDEX_CHECK, index, length)


def made(op, slot, note):
    """MapNew or QueueNew, which writes the slot; its types lie from slot 10 up."""
    return line(op, slot, 10, note=note, ranges=[(slot, 1)])


RETURN = line(facts.RETURN)
NOTHING = line()


def locals_of(count):
    return count, 0, 0, 0


# Refusals

def refusals():
    whole = sheet(**ONE_OF_EACH)
    yield 'refused 1, no byte', b''
    yield 'refused 1, 39 bytes', bytes(39)
    yield 'refused 2, n 4,097', resized(bytes(40), 0, 4097)
    yield 'refused 2, closure flag 2', resized(bytes(40), 9, 2)
    yield 'refused 2, 65,536 times 255', b'\xff' * LONGEST
    yield 'refused 3, one byte short', whole[:-1]
    yield 'refused 3, one byte long', whole + b'\0'
    yield 'refused 3, n 257 and too short', resized(bytes(40), 0, MOST_CODE + 1)
    yield 'refused 4, write counts', sheet(**ONE_OF_EACH, counts=[2])
    yield 'refused 4, layout lengths', sheet(**ONE_OF_EACH, lengths=[2])
    yield 'refused 5, note kind 4', sheet([line(note=(4, 0, 0))])
    yield 'refused 5, constant kind 2', sheet(constants=[(2, 0)])
    yield 'refused 5, parameter kind 3', sheet(params=[(0, 3, 0, 0)])
    yield 'refused 5, slot kind 6', sheet(layouts=[[6]])
    yield 'refused 5, layout 1 of 1', sheet([line(note=(2, 1, 0))], layouts=[[]])
    yield 'refused 5, L 4,097 and note kind 4', sheet([line(note=(4, 0, 0))], slots=locals_of(MOST_LOCALS + 1))


# Limits

def padded(length):
    """A sheet of this length, with constants, ranges, parameters and layouts as padding."""
    code = [constant(0, 4095), check(1, 0), made(facts.QUEUE_NEW, 2, (2, 1023, 0)), line(3, ranges=[(9, 1)] * 1700), RETURN]
    given = dict(constants=[(1, value - 4095) for value in range(4096)], params=[(0, 0, TOP, TOP)] * 256, slots=locals_of(12))
    short = sheet(code, layouts=[[]] * 1024, **given)
    filling = [each % 6 for each in range(length - len(short))]
    whole = sheet(code, layouts=[[]] * 1023 + [filling], **given)
    assert len(whole) == length
    return whole


def tracking(constants, indexes, containers, n=0):
    """A sheet in which the analyses track this many slots. Where n is given, instructions 4 to n - 5 are jumped over."""
    code = [check(100, slot) for slot in range(constants)] + [line(facts.SLOT_GET, 200, 0, slot) for slot in range(indexes)]
    code += [line(facts.QUEUE_CLOSE, slot) for slot in range(containers)]
    if n:
        code = [load(0, -7), load(31, 5), check(5, 31), goes(facts.JUMP, n - 7), *code, *[NOTHING] * n][:n - 4] + [NOTHING] * 4
    return sheet(code, slots=locals_of(201))


def short(constants, indexes, containers):
    """The same in a sheet of which only the first four instructions are reached, so that its listing is short: it writes the first and the last slot."""
    most = max(constants, indexes, containers)
    code = [load(0, -7), load(most - 1, 5), check(most - 1, 0), RETURN, *[check(100, slot) for slot in range(1, constants)]]
    code += [line(facts.SLOT_GET, 200, 0, slot) for slot in range(indexes)] + [line(facts.QUEUE_CLOSE, slot) for slot in range(containers)]
    return sheet(code, slots=locals_of(201))


def widths():
    """Every width of a row from 9 to 32."""
    for s in range(9, MOST_TRACKED + 1):
        yield 's %d of constants' % s, short(s, 0, 0)
    for s in (9, 16, 31, MOST_TRACKED):
        yield 's %d of indexes' % s, short(1, s, 0)
        yield 's %d of containers' % s, short(1, 0, s)
        yield 's %d of each' % s, short(s, s, s)


def spent():
    """4,096 instructions that use up all work before the first closure: with them a call answers 7."""
    return sheet([line(facts.COPY_N, 1, 0, TOP)] * 4095 + [check(0, 1)], slots=locals_of(2))


def limits():
    yield '65,536 bytes', padded(LONGEST)
    yield '65,537 bytes', padded(LONGEST + 1)
    yield 'too large, 65,537 times 255', b'\xff' * (LONGEST + 1)
    yield 'n 256', sheet([check(0, 1)] + [RETURN] * 255, slots=locals_of(2))
    yield 'n 257', sheet([check(0, 1)] + [RETURN] * 256, slots=locals_of(2))
    yield 'n 4,096, and no work left', spent()
    yield 'L 4,096', sheet([load(4095, 1), check(0, 4095), RETURN], slots=locals_of(MOST_LOCALS))
    yield 'L 4,097', sheet([load(4096, 1), check(0, 4096), RETURN], slots=locals_of(MOST_LOCALS + 1))
    yield 'L 65,535 and n 0', sheet(slots=locals_of(TOP))
    most = MOST_TRACKED
    yield 's 32 of each, n 256', tracking(most, most, most, MOST_CODE)
    yield from widths()
    yield 's 33 of constants', tracking(most + 1, 0, 0)
    yield 's 33 of indexes', tracking(0, most + 1, 0)
    yield 's 33 of containers', tracking(most, most, most + 1)


# Facts

def constants():
    values = [0, 1, -1, 2 ** 31 - 1, -2 ** 31, 2 ** 63 - 1, -2 ** 63]
    code = [constant(slot, slot) for slot in range(len(values))] + [check(20, slot) for slot in range(len(values))]
    yield 'constants, negative and largest', sheet([*code, RETURN], constants=[(1, value) for value in values], slots=locals_of(21))
    fold = [load(0, 1), load(1, 63), line(facts.SHL, 2, 0, 1, ranges=[(2, 1)]), constant(3, 0),
            line(facts.OR, 4, 2, 3, ranges=[(4, 1)]), check(20, 4), check(20, 3)]
    yield 'constants, 2^64 - 1 by Shl and Or', sheet([*fold, RETURN], constants=[(1, 2 ** 63 - 1)], slots=locals_of(21))
    both = [goes(facts.JUMP_IF, 3), load(0, 7), goes(facts.JUMP, 2), load(0, 9), check(1, 0), line(3, 2, 0, ranges=[(2, 1)]), check(1, 2), RETURN]
    yield 'constants, conflict and unknown', sheet(both, slots=locals_of(4))
    other = [constant(0, 0), constant(1, 1), check(2, 0), check(2, 1), RETURN]
    yield 'constants, one of another kind and one past the table', sheet(other, constants=[(0, 5)], slots=locals_of(3))


def indexes():
    for length in (0, 4, 65535, 65536, -1):
        code = [load(0, length), check(1, 0), line(facts.SLOT_GET, 5, 2, 1, ranges=[(5, 1)]), line(facts.SLOT_SET, 1, 1), NOTHING, RETURN]
        yield 'index checked against %d' % length, sheet(code, slots=locals_of(6))
    loop = [load(0, 4), check(1, 0), line(facts.SLOT_GET, 5, 2, 1), line(1, 1, 3, ranges=[(1, 1)]), goes(facts.FOR_LOOP, -4), RETURN]
    yield 'index in a loop', sheet(loop, slots=locals_of(6))


LAYOUTS = [[0, 1], [5], [0, 1], [], [5], []]


def containers():
    maps = [made(facts.MAP_NEW, 0, (1, 2, 4)), line(facts.MAP_ITER_INIT, 1, 0, ranges=[(1, 7)]),
            line(facts.MAP_ITER_NEXT, 20, 1, ranges=[(1, 9)]), line(facts.MAP_LEN, 20, 7), line(facts.MAP_LEN, 20, 8), RETURN]
    yield 'map and iterator, layouts 2 and 4 equal to 0 and 1', sheet(maps, layouts=LAYOUTS, slots=locals_of(21))
    queue = [made(facts.QUEUE_NEW, 0, (2, 5, 0)), line(facts.QUEUE_SEND, 0, 1), RETURN]
    yield 'queue, layout 5 equal to 3', sheet(queue, layouts=LAYOUTS, slots=locals_of(12))
    for name, second in (('equal', (1, 0, 4)), ('different', (1, 0, 3))):
        code = [goes(facts.JUMP_IF, 3), made(facts.MAP_NEW, 0, (1, 2, 1)), goes(facts.JUMP, 2), made(facts.MAP_NEW, 0, second),
                line(facts.MAP_GET, 1, 0), RETURN]
        yield 'maps of %s layouts joined' % name, sheet(code, layouts=LAYOUTS, slots=locals_of(12))
    params = [(1, 1, 2, 4), (2, 0, 0, 0), (1, 2, 4, TOP)]
    code = [line(facts.MAP_LEN, 9, 1), line(facts.QUEUE_LEN, 9, 4), line(facts.COPY, 5, 4, ranges=[(5, 1)]), line(facts.QUEUE_CAP, 9, 5), RETURN]
    yield 'map and queue as parameters behind a receiver', sheet(code, params=params, layouts=LAYOUTS, slots=(10, 5, 1, 0))


def few():
    yield 'n 0 and L 0', sheet()
    yield 'n 0 and L 3', sheet(params=[(1, 1, 0, 0)], layouts=[[1]], slots=(3, 1, 0, 0))
    yield 'n 1 and nothing tracked', sheet([RETURN], slots=locals_of(1))
    yield 'n 1 and one slot tracked', sheet([check(0, 0)], slots=locals_of(1))
    yield 'an unreachable instruction', sheet([load(0, 3), goes(facts.JUMP, 2), check(1, 0), check(1, 0), RETURN], slots=locals_of(2))


def examples():
    for name in ('worked', 'chute', 'trays', 'flights', 'bags'):
        yield 'example ' + name, stored(os.path.join(EXAMPLES, name + '.sheet'))


# Cases and lines

def cases():
    for group in (refusals, limits, constants, indexes, containers, few, examples):
        yield from group()


def covered(lines):
    """Every kind of line is there."""
    words = ['unknown', 'conflict', '-9223372036854775808', '9223372036854775807', '18446744073709551615', 'checked 65535', 'map 0 1',
             'iter 0 1', 'queue 1', 'queue 3']
    whole = ['refused %d' % number for number in range(1, 6)] + ['too large', 'constant 0 0 0', 'index 256 32 8', 'container 256 32 8']
    return [word for word in words if not any(each.endswith(' ' + word) for each in lines)] + [each for each in whole if each not in lines]


def files():
    given = list(cases())
    listed = ''.join('%s:\n%s' % (name, facts.listing(data)) for name, data in given)
    missing = covered(listed.splitlines())
    assert not missing, missing
    worked = stored(os.path.join(EXAMPLES, 'worked.sheet'))
    return {
        os.path.join('check_listings', 'stdin'): b''.join(packed('I', (len(name), len(data))) + name.encode() + data for name, data in given),
        os.path.join('check_listings', 'stdout'): listed.encode(),
        os.path.join('facts', 'stdin'): worked,
        os.path.join('facts', 'stdout'): facts.listing(worked).encode(),
    }


def compare_with(oracle):
    differ = 0
    for name, data in cases():
        said = subprocess.run([oracle, 'facts'], input=data, capture_output=True, check=True).stdout.decode()
        if said != facts.listing(data):
            print('listings: the oracle lists %s otherwise' % name)
            differ = 1
    return differ


def main(words):
    if words[:1] == ['--rust']:
        return compare_with(*words[1:])
    return settle('listings', words, __doc__, files())


if __name__ == '__main__':
    sys.exit(main(sys.argv[1:]))
