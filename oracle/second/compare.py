"""Compares the oracle's answers with those of facts.py, whole or with one line changed.

  agree < BATCH             every record and listing of a batch; prints the number compared
  mutants [SHARE] < BATCH   each mistake of mutants.txt is told apart by the batch, but those marked as never, which
                            are tried on the first SHARE records
  coverage < RECORDS        what these answers cover
"""
import collections
import os
import struct
import sys
import types

HERE = os.path.dirname(os.path.abspath(__file__))
SOURCE = os.path.join(HERE, 'facts.py')

Record = collections.namedtuple('Record', 'sheet bytes work answer')


def load(text, name):
    module = types.ModuleType(name)
    exec(compile(text, name, 'exec'), module.__dict__)
    return module


def read_record(stream):
    """The next record, or None at the end."""
    head = stream.read(4)
    if not head:
        return None
    body = stream.read(struct.unpack('<I', head)[0])
    (length,) = struct.unpack_from('<I', body)
    at = 4 + length
    bytes_left, work_left = struct.unpack_from('<QQ', body, at)
    return Record(body[4:at], bytes_left, work_left, body[at + 16:])


def read_batch(stream):
    """Each record with its listing."""
    while (record := read_record(stream)) is not None:
        (length,) = struct.unpack('<I', stream.read(4))
        yield record, stream.read(length).decode()


def same_answer(facts, record, _):
    return facts.answer(record.sheet, record.bytes, record.work) == record.answer


def same_listing(facts, record, listing):
    return facts.listing(record.sheet) == listing


def agree():
    facts = load(open(SOURCE).read(), 'facts')
    different, compared = [], 0
    for record, listing in read_batch(sys.stdin.buffer):
        compared += 1
        if not (same_answer(facts, record, listing) and same_listing(facts, record, listing)):
            different.append((record, listing))
    if not different:
        print('%d sheets with budgets: both implementations agree' % compared)
        return 0
    record, listing = min(different, key=lambda each: len(each[0].sheet))
    print('%d of %d sheets differ; the shortest:' % (len(different), compared))
    print('sheet', record.sheet.hex(), 'bytes', record.bytes, 'work', record.work)
    print('oracle', record.answer.hex(), listing, sep='\n')
    print('second', facts.answer(record.sheet, record.bytes, record.work).hex(), facts.listing(record.sheet), sep='\n')
    return 1


def read_mutants():
    """Blocks of lines: what is mistaken, the line as it is, the line changed; "never: why" where no sheet can tell."""
    blocks = open(os.path.join(HERE, 'mutants.txt')).read().split('\n\n')
    for block in blocks:
        lines = [line for line in block.split('\n') if line and not line.startswith('#')]
        if lines:
            yield lines[0], lines[1], lines[2], lines[3] if len(lines) > 3 else None


def mutated(source, old, new):
    """The source with one line changed: the only one that reads so, in the function named before "::" if any."""
    lines = source.split('\n')
    inside, _, old = old.rpartition(' :: ')
    first, last = body(lines, inside) if inside else (0, len(lines))
    places = [i for i in range(first, last) if lines[i].strip() == old]
    if len(places) != 1 or old == new:
        sys.exit('mutants.txt: %d lines read %r' % (len(places), old))
    indent = len(lines[places[0]]) - len(lines[places[0]].lstrip())
    lines[places[0]] = ' ' * indent + new
    return '\n'.join(lines)


def body(lines, function):
    first = next(i for i, line in enumerate(lines) if line.lstrip().startswith('def %s(' % function))
    last = next((i for i in range(first + 1, len(lines)) if lines[i][:1].strip()), len(lines))
    return first, last


def told_apart(facts, batch):
    """The number of a record that tells this implementation from the oracle, or None; answers are asked first."""
    for same in (same_answer, same_listing):
        for number, (record, listing) in enumerate(batch):
            try:
                if not same(facts, record, listing):
                    return number
            except (ArithmeticError, AssertionError, LookupError, TypeError, ValueError, struct.error):
                return number
    return None


def mutants(share=None):
    source, batch = open(SOURCE).read(), list(read_batch(sys.stdin.buffer))
    changed = [(name, mutated(source, old, new), reason) for name, old, new, reason in read_mutants()]
    told, never, wrong = 0, 0, 0
    for name, text, reason in changed:
        number = told_apart(load(text, name), batch[:int(share)] if reason and share else batch)
        told, never = told + (number is not None), never + (number is None)
        if (number is None) != (reason is not None):
            wrong += 1
            print('not told apart:' if number is None else 'told apart after all, by record %d:' % number, name)
    print('%d mistakes told apart by %d sheets, %d that no sheet can tell apart' % (told, len(batch), never))
    return 1 if wrong else 0


def coverage():
    answers, stages, largest = collections.Counter(), collections.Counter(), [0, 0, 0, 0]
    total = 0
    while (record := read_record(sys.stdin.buffer)) is not None:
        total += 1
        answers[record.answer[0]] += 1
        if record.answer[0] == 7:
            stages[record.answer[17]] += 1
        largest = list(map(max, largest, sizes_of(record)))
    print('records %d; answers %s; stages of 7 %s' % (total, sorted(answers.items()), sorted(stages.items())))
    print('largest sheet %d, n %d, s %d, answer %d bytes' % tuple(largest))
    covered = total >= 3000 and all(answers[number] for number in (0, 1, 2, 3, 4, 5, 7))
    return 0 if covered and all(stages[stage] >= 50 for stage in range(1, 6)) else 1


def sizes_of(record):
    accepted = record.answer[0] in (0, 7)
    n = struct.unpack_from('<I', record.sheet)[0] if accepted else 0
    at = 34 if record.answer[0] == 7 else 17
    closed = [struct.unpack_from('<H', record.answer, at + 1 + 18 * i)[0] for i in range(record.answer[at])]
    return len(record.sheet), n, max(closed, default=0), len(record.answer)


if __name__ == '__main__':
    sys.exit({'agree': agree, 'mutants': mutants, 'coverage': coverage}[sys.argv[1]](*sys.argv[2:]))
