#!/usr/bin/env python3
"""The cases of crates/check_corners and the lines that it must print, which come from second/facts.py.

  corners.py           writes crates/check_corners/stdin and crates/check_corners/stdout
  corners.py --check   ends with 1 where the two files are not what would be written
  corners.py --rust    writes the lines that the oracle can answer too: no length beyond 16 bits

A case is a head of 8 bytes (length of the name, 0; number of questions, 16-bit; length of the sheet, 32-bit), the name,
the sheet, and questions of 16 bytes each (what is asked, kind of a fact; instruction, slot, 0, 16-bit each; value of the
fact, 64-bit). Numbers are little-endian.
"""
import os
import struct
import sys

HERE = os.path.dirname(os.path.abspath(__file__))
sys.dont_write_bytecode = True
sys.path.insert(0, os.path.join(HERE, 'second'))
import facts

CRATES = os.path.join(HERE, '..', 'crates')
SUCCESSORS, WRITES, INDEX_WRITES = 1, 2, 3
TOP = 65535
SIZES = ('n', 'w', 'k', 'p', 'y', 'q', 'L', 'parameter slots', 'receiver slots', 'closure flag')


# Sheets

def line(op=0, a=0, b=0, c=0, flags=0, note=(0, 0, 0), ranges=()):
    """An instruction with its note and its write ranges; None stands for an erring visitor."""
    return op, flags, a, b, c, note, ranges


def goes(op, offset):
    """A jump whose imm32 the offset is; ForLoop, whose c it is."""
    if op == facts.FOR_LOOP:
        return line(op, c=offset % 65536)
    return line(op, b=offset % 65536, c=offset // 65536 % 65536)


def sheet(code=(), constants=(), params=(), layouts=(), slots=(0, 0, 0, 0), counts=None, lengths=None):
    """counts and lengths stand in for the write counts and the layout lengths that the rest gives."""
    ranges = [each for *_, own in code for each in own or ()]
    kinds = bytes(kind for layout in layouts for kind in layout)
    counts = counts or [TOP if own is None else len(own) for *_, own in code]
    lengths = lengths or [len(layout) for layout in layouts]
    out = [packed('I', (len(code), len(ranges), len(constants), len(params), len(lengths), len(kinds), *slots))]
    out += [struct.pack('<BBHHH', *each[:5]) for each in code]
    out += [packed(letter, [each[5][i] for each in code]) for i, letter in enumerate('BHH')]
    out += [packed('H', counts)] + [packed(letter, [each[i] for each in ranges]) for i, letter in enumerate('HI')]
    out += [packed(letter, [each[i] for each in constants]) for i, letter in enumerate('Bq')]
    out += [packed(letter, [each[i] for each in params]) for i, letter in enumerate('HBHH')]
    return b''.join(out) + packed('H', lengths) + kinds


def packed(letter, values):
    return struct.pack('<%d%s' % (len(values), letter), *values)


def resized(data, number, size):
    return data[:4 * number] + packed('I', [size]) + data[4 * number + 4:]


# Questions 1 to 5

ONE_OF_EACH = dict(
    code=[line(1, 0, 7, note=(3, 0, 0), ranges=[(0, 1)])], constants=[(1, -1)], params=[(1, 2, 0, 0)], layouts=[[5]],
    slots=(2, 1, 0, 0))


def question_1():
    for length in (0, 1, 39, 40):
        yield 'zeros', bytes(length), ()
    yield '39 times 255', b'\xff' * 39, ()


def question_2():
    for number, (size, limit) in enumerate(zip(SIZES, facts.LIMITS)):
        for value, text in ((limit, 'at its limit'), (limit + 1, 'one past it'), (4294967295, 'of 32 ones')):
            yield '%s %s' % (size, text), resized(bytes(40), number, value), ()
    yield '40 times 255', b'\xff' * 40, ()
    yield 'n one past its limit in a sheet one short', resized(sheet(**ONE_OF_EACH), 0, 4097)[:-1], ()
    yield 'w 16,384', sheet([line(ranges=[(TOP, 1)] * 16384)], slots=(1, 0, 0, 0)), ((WRITES, 0, TOP), (WRITES, 0, 0))
    yield 'k 4,096', sheet(constants=[(1, -1)] * 4096), ()
    yield 'p 256', sheet(params=[(TOP, 0, 0, 0)] * 256), ()
    yield 'y 1,024', sheet(layouts=[[]] * 1024), ()
    code = [line(facts.SLOT_SET_N, 1, note=(3, 0, 0))]
    asked = asked_under(0, 1, 16384, [(2, length) for length in (0, 1, 3, 4, TOP, 2 ** 50)])
    yield 'q 16,384', sheet(code, layouts=[[5] * 16384]), asked


def question_3():
    whole = sheet(**ONE_OF_EACH)
    for name, data in (('one of each', whole), ('one short', whole[:-1]), ('one long', whole + b'\0')):
        yield name, data, ()
    for number, size in enumerate(SIZES[:6]):
        yield '%s one less' % size, resized(whole, number, 0), ()
        yield '%s one more' % size, resized(whole, number, 2), ()
    yield 'one long, and sums that differ', sheet(**ONE_OF_EACH, counts=[0]) + b'\0', ()


def question_4():
    ranges = [(0, 1), (1, 1)]
    for counts in ([1, 0], [0, 2], [1, 1], [2, 1], [TOP, 2], [2, TOP], [TOP, TOP], [TOP, 1], [65534, 4], [65534, 0]):
        code = [line(ranges=ranges), line()]
        yield 'write counts %d and %d of 2' % tuple(counts), sheet(code, counts=counts), ()
    for lengths in ([1, 0], [0, 2], [1, 1], [2, 1], [TOP, 2], [TOP, 3], [65534, 4], [TOP, 0]):
        yield 'layout lengths %d and %d of 2' % tuple(lengths), sheet(layouts=[[0], [0]], lengths=lengths), ()
    yield 'write counts match, layout lengths do not', sheet(**ONE_OF_EACH, lengths=[2]), ()
    yield 'layout lengths match, write counts do not', sheet(**ONE_OF_EACH, counts=[2]), ()
    yield 'sums that differ, and note kind 4', sheet([line(note=(4, 0, 0))], counts=[1]), ()


def question_5():
    for kind in (0, 1, 2, 3, 4, 255):
        yield 'last note kind %d' % kind, sheet([line(), line(note=(kind, 0, 0))], layouts=[[]]), ()
    for kind in (0, 1, 2, 255):
        yield 'last constant kind %d' % kind, sheet(constants=[(0, 0), (kind, 0)]), ()
    for kind in (0, 1, 2, 3, 255):
        yield 'last parameter kind %d' % kind, sheet(params=[(0, 0, 0, 0), (0, kind, 0, 0)], layouts=[[]]), ()
    for kind in (0, 5, 6, 255):
        yield 'last slot kind %d' % kind, sheet(layouts=[[0], [0, kind]]), ()
        yield 'first slot kind %d' % kind, sheet(layouts=[[kind, 0], [0]]), ()
    for kind in (0, 1, 2, 3):
        for a, b in ((1, 1), (2, 1), (1, 2), (2, 2), (TOP, 0), (0, TOP)):
            name = 'kind %d with layouts %d and %d of 2' % (kind, a, b)
            yield 'note ' + name, sheet([line(note=(kind, a, b))], layouts=[[], [1]]), ()
            if kind < 3:
                yield 'parameter ' + name, sheet(params=[(1, kind, a, b)], layouts=[[], [1]]), ()
        yield 'note kind %d without layouts' % kind, sheet([line(note=(kind, 0, 0))]), ()


# Successors

BRANCHES = (('Jump', facts.JUMP), ('JumpIf', facts.JUMP_IF), ('JumpIfNot', facts.JUMP_IF_NOT), ('ForLoop', facts.FOR_LOOP))


def all_successors(n):
    return [(SUCCESSORS, pc, 0) for pc in range(n)]


def successors():
    for n in (1, 2, 5):
        for name, op in BRANCHES:
            base = 1 if op == facts.FOR_LOOP else 0
            for target in (-1, 0, n - 1, n):
                code = [goes(op, target - pc - base) for pc in range(n)]
                yield '%s to %d of %d' % (name, target, n), sheet(code), all_successors(n)
            for step in (-1, 0, 1, 2):
                yield '%s by %+d of %d' % (name, step, n), sheet([goes(op, step - base)] * n), all_successors(n)
    for name, op in BRANCHES:
        for offset in (32767, 32768, TOP, -65536, 65536, 2147483647, -2147483648):
            yield '%s with offset %d of 5' % (name, offset), sheet([goes(op, offset)] * 5), all_successors(5)
    yield 'every opcode byte', sheet([line(op) for op in range(256)]), all_successors(256)
    yield from ends_of_the_longest()


def ends_of_the_longest():
    first = [goes(facts.JUMP_IF, 4095), goes(facts.JUMP, 4095), goes(facts.JUMP_IF_NOT, 4094), goes(facts.FOR_LOOP, 4091),
             goes(facts.FOR_LOOP, 4091), goes(facts.JUMP, -5), goes(facts.JUMP, -7), goes(facts.FOR_LOOP, -8)]
    last = [goes(facts.FOR_LOOP, -4089), goes(facts.FOR_LOOP, -4091), goes(facts.JUMP, 5), goes(facts.JUMP, 5),
            goes(facts.FOR_LOOP, 2), goes(facts.FOR_LOOP, 2), goes(facts.FOR_LOOP, 0), goes(facts.JUMP_IF, -4095)]
    asked = [(SUCCESSORS, pc, 0) for pc in (*range(8), *range(4088, 4096))]
    yield 'n 4,096', sheet([*first, *[line()] * 4080, *last]), asked


# Written slots

def asked_writes(pc, *slots):
    return [(WRITES, pc, slot) for slot in sorted({slot for slot in slots if 0 <= slot <= TOP})]


def slot_set():
    for a in (0, 1, 65534, TOP):
        for note, ranges in (((0, 0, 0), ()), ((3, 0, 0), ()), ((0, 0, 0), [(0, 1)]), ((0, 0, 0), None)):
            data = sheet([line(facts.SLOT_SET, a, note=note, ranges=ranges)], layouts=[[]], slots=(TOP, 0, 0, 0))
            name = 'SlotSet from %d, note %d, %s' % (a, note[0], visited(ranges))
            yield name, data, asked_writes(0, 0, 1, a - 1, a, a + 1, 65534, TOP)


def visited(ranges):
    return 'erring' if ranges is None else '%d ranges' % len(ranges)


def slot_set_n():
    for kind in (0, 1, 2, 3):
        for layout in (0, 1, 2):
            for ranges in ((), [(0, 4294967295)], None):
                code = [line(facts.SLOT_SET_N, 2, flags=9, note=(kind, layout, 0), ranges=ranges)]
                data = sheet(code, layouts=[[], [0], [1, 2]], slots=(4, 0, 0, 0))
                name = 'SlotSetN from 2, note %d, layout %d, %s' % (kind, layout, visited(ranges))
                yield name, data, asked_writes(0, 0, 1, 2, 3, TOP)


def ranges():
    for start, length in ((0, 0), (0, 1), (3, 0), (3, 1), (3, 2), (0, TOP), (0, 65536), (2, 65533), (2, 65534), (2, TOP), (TOP, 0),
                          (TOP, 1), (TOP, 2), (TOP, 65536), (0, 4294967295), (TOP, 4294967295), (1, 4294901760)):
        end = start + length
        asked = asked_writes(0, 0, start - 1, start, end - 1, end, end % 65536, 4, TOP)
        yield 'range from %d of %d' % (start, length), sheet([line(1, ranges=[(start, length)])], slots=(5, 0, 0, 0)), asked
    code = [line(3, ranges=[(7, 0), (9, 2), (TOP, 9)]), line(3), line(3, ranges=None), line(facts.SLOT_SET, 8, ranges=[(0, 3)]),
            line(facts.SLOT_SET_N, 8, ranges=[(1, 3)]), line(facts.RETURN, ranges=[(5, 1), (4, 1)]), line(255, ranges=[(0, 1)])]
    asked = [(WRITES, pc, slot) for pc in range(len(code)) for slot in (0, 1, 3, 4, 5, 6, 7, 8, 9, 10, 11, 65534, TOP)]
    yield 'ranges of several instructions, L 12', sheet(code, slots=(12, 0, 0, 0)), asked
    code = [line(op, ranges=None) for op in (0, 1, facts.JUMP, facts.RETURN, facts.INDEX_CHECK, facts.FOR_LOOP, 255)]
    asked = [(WRITES, pc, slot) for pc in range(len(code)) for slot in (0, 11, TOP)]
    yield 'erring visitors, L 12', sheet(code, slots=(12, 0, 0, 0)), asked


# The index analysis

LENGTHS = (0, 1, 2, 255, 65534, TOP, 65536, 4294967296, 2 ** 63, 2 ** 64 - 1)


def index_slot_set():
    for a in (0, 3, TOP):
        asked = asked_under(0, a, 1, [(0, 0), (1, 0), *((2, length) for length in LENGTHS)])
        yield 'SlotSet from %d by the fact in b' % a, sheet([line(facts.SLOT_SET, a, flags=7)], slots=(5, 0, 0, 0)), asked


def index_slot_set_n():
    for flags, note, width in ((0, (0, 1, 0), 0), (1, (0, 1, 0), 1), (255, (0, 1, 0), 255), (255, (1, 1, 0), 255), (255, (2, 1, 0), 255),
                               (255, (3, 0, 0), 0), (255, (3, 1, 0), 1), (255, (3, 2, 0), 3)):
        data = sheet([line(facts.SLOT_SET_N, 3, flags=flags, note=note)], layouts=[[], [0], [1, 2, 3]], slots=(5, 0, 0, 0))
        asked = asked_under(0, 3, width, [(0, 0), (1, 0), *((2, length) for length in (0, 1, 257, 21845, TOP, 2 ** 64 - 1))])
        yield 'SlotSetN from 3, flags %d, note %d, layout %d, by the fact in b' % (flags, *note[:2]), data, asked


def index_others():
    code = [line(facts.INDEX_CHECK, 0, ranges=[(1, 2)]), line(facts.COPY, 3, ranges=None), line(facts.SLOT_GET, 3)]
    asked = [(INDEX_WRITES, pc, slot, fact) for pc in range(3) for fact in ((0, 0), (1, 0), (2, 1)) for slot in (0, 1, 2, 3, TOP)]
    yield 'others in the index analysis', sheet(code, slots=(4, 0, 0, 0)), asked


def asked_under(pc, a, width, before):
    """At both ends of what would be written, of all slots, and below a."""
    for fact in before:
        end = a + fact[1] * width
        slots = {0, a - 1, a, end - 1, end, end % 65536, TOP}
        yield from ((INDEX_WRITES, pc, slot, fact) for slot in sorted(slots) if 0 <= slot <= TOP)


# Cases and lines

def cases():
    for group in (question_1, question_2, question_3, question_4, question_5, successors, slot_set, slot_set_n, ranges,
                  index_slot_set, index_slot_set_n, index_others):
        for name, data, questions in group():
            yield name.encode(), data, list(questions)


def case_bytes(name, data, questions):
    out = struct.pack('<BBHI', len(name), 0, len(questions), len(data)) + name + data
    for asks, pc, slot, *fact in questions:
        kind, value = fact[0] if fact else (0, 0)
        out += struct.pack('<BBHHHQ', asks, kind, pc, slot, 0, value)
    return out


def case_lines(name, data, questions):
    try:
        read = facts.read_sheet(data)
    except facts.Stop as stop:
        assert not questions
        return '%s: refused %d\n' % (name.decode(), stop.number)
    counts = (read.n, len(read.ranges), len(read.constants), len(read.params), len(read.layouts), len(read.slot_kinds))
    sizes = (*counts, read.locals, read.param_slots, read.receiver, read.closure)
    flow = facts.successors(read)
    lines = [answer(read, flow, *question) for question in questions]
    return ''.join(['%s: accepted %s\n' % (name.decode(), ' '.join(map(str, sizes))), *lines])


def answer(read, flow, asks, pc, slot, before=(0, 0)):
    if asks == SUCCESSORS:
        return 'successors %d: %d %d %d\n' % (pc, len(flow[pc]), *[*flow[pc], 0, 0][:2])
    spans = facts.spans_at(read, pc)
    if asks == WRITES:
        return 'writes %d %d: %s\n' % (pc, slot, yes_or_no(facts.holds(spans, slot)))
    spans = facts.checked_span(read, pc, before) or spans
    return 'index writes %d %d %d %d: %s\n' % (pc, *before, slot, yes_or_no(facts.holds(spans, slot)))


def yes_or_no(is_so):
    return 'yes' if is_so else 'no'


def main(words):
    if words == ['--rust']:
        for name, data, questions in cases():
            sys.stdout.write(case_lines(name, data, [each for each in questions if len(each) < 4 or each[3][1] <= TOP]))
        return 0
    return settle('corners', words, __doc__, {
        os.path.join('check_corners', 'stdin'): b''.join(case_bytes(*case) for case in cases()),
        os.path.join('check_corners', 'stdout'): ''.join(case_lines(*case) for case in cases()).encode(),
    })


# Stored files

def settle(maker, words, usage, files):
    """Writes the files of crates/ that differ, or with --check says which do."""
    differ = [name for name, text in files.items() if text != stored(os.path.join(CRATES, name))]
    if words == ['--check']:
        for name in differ:
            print('crates/%s is not what oracle/%s.py gives' % (name, maker))
        return 1 if differ else 0
    assert not words, usage
    for name in differ:
        with open(os.path.join(CRATES, name), 'wb') as file:
            file.write(files[name])
    return 0


def stored(path):
    if not os.path.exists(path):
        return None
    with open(path, 'rb') as file:
        return file.read()


if __name__ == '__main__':
    sys.exit(main(sys.argv[1:]))
