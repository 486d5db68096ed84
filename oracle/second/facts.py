"""Document 01 implemented a second time, from its text and for comparison alone.

It shares nothing with the oracle but the bytes of a sheet. A fact is a pair (kind, value) as in "Tables", a written
slot a span of whole numbers. mutants.txt changes one line at a time.
"""
import struct

LIMITS = (4096, 16384, 4096, 256, 1024, 16384, 65535, 65535, 65535, 1)
FRESH = 268435456
TOP = 65535
ABOVE = 65536  # no slot is this high
UNKNOWN, CONFLICT = (0, 0), (1, 0)

LOAD_INT, LOAD_CONST, COPY, COPY_N = 1, 2, 3, 4
SLOT_GET, SLOT_SET, SLOT_GET_N, SLOT_SET_N = 5, 6, 7, 8
PTR_NEW, OR, SHL, JUMP, JUMP_IF, JUMP_IF_NOT, RETURN = 13, 49, 53, 57, 58, 59, 64
ARRAY_NEW, SLICE_NEW, SLICE_APPEND = 77, 81, 87
MAP_NEW, MAP_GET, MAP_SET, MAP_DELETE, MAP_LEN, MAP_ITER_INIT, MAP_ITER_NEXT = range(89, 96)
QUEUE_NEW, QUEUE_SEND, QUEUE_RECV, QUEUE_CLOSE, QUEUE_LEN, QUEUE_CAP = range(96, 102)
SELECT_SEND, SELECT_RECV, PANIC, INDEX_CHECK, FOR_LOOP = 103, 104, 111, 121, 124
NO_NOTE, MAP_NEW_NOTE, QUEUE_NOTE, SLOT_NOTE = 0, 1, 2, 3
MAP, ITERATOR, QUEUE = 2, 3, 4


class Stop(Exception):
    def __init__(self, number, stage=0, requested=0, remaining=0):
        self.number, self.stage, self.requested, self.remaining = number, stage, requested, remaining


# The sheet

class Sheet:
    pass


class Reader:
    def __init__(self, data):
        self.data, self.at = data, 40

    def take(self, letter, count):
        values = struct.unpack_from('<%d%s' % (count, letter), self.data, self.at)
        self.at += count * struct.calcsize('<' + letter)
        return values


def read_sheet(data):
    if len(data) < 40:
        raise Stop(1)
    sizes = struct.unpack_from('<10I', data)
    if any(size > limit for size, limit in zip(sizes, LIMITS)):
        raise Stop(2)
    n, w, k, p, y, q = sizes[:6]
    if len(data) != 40 + 15 * n + 6 * w + 9 * k + 7 * p + 2 * y + q:
        raise Stop(3)
    sheet = fields(data, sizes)
    if sum(count for count in sheet.write_counts if count != 65535) != w:
        raise Stop(4)
    if sum(sheet.layout_lengths) != q:
        raise Stop(4)
    ask_kinds(sheet, y)
    sheet.spans = spans_by_ranges(sheet)
    sheet.layouts = layout_contents(sheet)
    return sheet


def fields(data, sizes):
    n, w, k, p, y, q = sizes[:6]
    sheet, reader = Sheet(), Reader(data)
    sheet.n, (sheet.locals, sheet.param_slots, sheet.receiver, sheet.closure) = n, sizes[6:]
    code = reader.take('B', 8 * n)
    halves = struct.unpack_from('<%dH' % (4 * n), data, 40)
    sheet.code = [(code[8 * i], code[8 * i + 1], *halves[4 * i + 1:4 * i + 4]) for i in range(n)]
    kinds, first, second = reader.take('B', n), reader.take('H', n), reader.take('H', n)
    sheet.notes = list(zip(kinds, first, second))
    sheet.write_counts = reader.take('H', n)
    starts, lengths = reader.take('H', w), reader.take('I', w)
    sheet.ranges = list(zip(starts, lengths))
    kinds, values = reader.take('B', k), reader.take('q', k)
    sheet.constants = list(zip(kinds, values))
    widths, kinds = reader.take('H', p), reader.take('B', p)
    first, second = reader.take('H', p), reader.take('H', p)
    sheet.params = list(zip(widths, kinds, first, second))
    sheet.layout_lengths = reader.take('H', y)
    sheet.slot_kinds = data[reader.at:]
    return sheet


def ask_kinds(sheet, y):
    """Question 5."""
    if any(kind > 3 for kind, _, _ in sheet.notes):
        raise Stop(5)
    if any(kind > 1 for kind, _ in sheet.constants):
        raise Stop(5)
    if any(kind > 2 for _, kind, _, _ in sheet.params):
        raise Stop(5)
    if any(kind > 5 for kind in sheet.slot_kinds):
        raise Stop(5)
    for kind, first, second in sheet.notes:
        if kind != 0 and first >= y or kind == 1 and second >= y:
            raise Stop(5)
    for _, kind, first, second in sheet.params:
        if kind != 0 and first >= y or kind == 1 and second >= y:
            raise Stop(5)


def layout_contents(sheet):
    contents, at = [], 0
    for length in sheet.layout_lengths:
        contents.append(sheet.slot_kinds[at:at + length])
        at += length
    return contents


# Successors

def imm32(b, c):
    value = b + 65536 * c
    return value - 4294967296 if value >= 2147483648 else value


def targets(pc, instruction):
    op, _, _, b, c = instruction
    if op == JUMP:
        return [pc + imm32(b, c)]
    if op in (JUMP_IF, JUMP_IF_NOT):
        return [pc + 1, pc + imm32(b, c)]
    if op == FOR_LOOP:
        return [pc + 1, pc + 1 + (c - 65536 if c >= 32768 else c)]
    if op in (RETURN, PANIC):
        return []
    return [pc + 1]


def successors(sheet):
    # "Targets outside 0..n−1 are dropped, an equal second one too."
    flow = []
    for pc, instruction in enumerate(sheet.code):
        inside = [target for target in targets(pc, instruction) if 0 <= target < sheet.n]
        if len(inside) == 2 and inside[0] == inside[1]:
            inside = inside[:1]
        flow.append(inside)
    return flow


# Written slots: spans (start, end) without their end

def spans_by_ranges(sheet):
    spans, at = [], 0
    for count in sheet.write_counts:
        if count == 65535:
            spans.append([(0, ABOVE)])
        else:
            spans.append([(start, start + length) for start, length in sheet.ranges[at:at + count]])
            at += count
    return spans


def spans_at(sheet, pc):
    op, _, a, _, _ = sheet.code[pc]
    if op == SLOT_SET:
        return [(a, ABOVE)]
    if op == SLOT_SET_N:
        kind, layout, _ = sheet.notes[pc]
        return [(a, ABOVE)] if kind == SLOT_NOTE and len(sheet.layouts[layout]) > 0 else []
    return sheet.spans[pc]


def checked_span(sheet, pc, fact):
    # "SlotSet and SlotSetN whose b is Checked len write exactly a up to a + len × e"; None for all else.
    op, flags, a, _, _ = sheet.code[pc]
    if op not in (SLOT_SET, SLOT_SET_N) or fact[0] != 2:
        return None
    note, layout, _ = sheet.notes[pc]
    width = 1
    if op == SLOT_SET_N:
        width = len(sheet.layouts[layout]) if note == SLOT_NOTE else flags
    return [(a, a + fact[1] * width)]


def holds(spans, slot):
    return any(start <= slot < end for start, end in spans)


# Budget and closure

class Budget:
    def __init__(self, bytes_left, work_left):
        self.bytes, self.work, self.stage = bytes_left, work_left, 0

    def take_bytes(self, amount):
        if amount > self.bytes:
            raise Stop(7, self.stage, amount, self.bytes)
        self.bytes -= amount

    def take_work(self, amount):
        if amount > self.work:
            raise Stop(7, self.stage, amount, self.work)
        self.work -= amount


def charge_flow(sheet, budget):
    budget.take_bytes(24 * sheet.n)
    budget.take_work(sheet.n)


def dependencies(sheet, budget):
    edges = {}

    def edge(destination, source, mask):
        if destination < sheet.locals and source < sheet.locals:
            budget.take_bytes(4)
            edges.setdefault(destination, []).append((source, mask))

    for op, _, a, b, c in sheet.code:
        if op == COPY:
            edge(a, b, 7)
        elif op == COPY_N:
            budget.take_work(c)
            for i in range(min(c, sheet.locals)):
                edge(a + i, b + i, 7)
        elif op in (SHL, OR):
            edge(a, b, 1)
            edge(a, c, 1)
        elif op == MAP_ITER_INIT:
            edge(a, b, 4)
    return edges


def closure(sheet, edges, seeds, mask, budget):
    budget.take_bytes(1 * sheet.locals)
    budget.take_bytes(2 * sheet.locals)
    marked, stack = set(), []
    for slot in seeds:
        if slot < sheet.locals and slot not in marked:
            marked.add(slot)
            stack.append(slot)
    while stack:
        here = edges.get(stack.pop(), ())
        budget.take_work(len(here))
        for source, kinds in here:
            if kinds & mask and source not in marked:
                marked.add(source)
                stack.append(source)
    return sorted(marked)


def constant_seeds(sheet):
    for op, _, _, b, c in sheet.code:
        if op == MAP_NEW:
            yield from (b, b + 1)
        elif op in (ARRAY_NEW, SLICE_NEW, PTR_NEW, QUEUE_NEW, INDEX_CHECK):
            yield b
        elif op == SLICE_APPEND:
            yield c


def index_seeds(sheet):
    for op, _, _, b, c in sheet.code:
        if op in (SLOT_GET, SLOT_GET_N):
            yield c
        elif op in (SLOT_SET, SLOT_SET_N):
            yield b


def container_seeds(sheet):
    for op, _, a, b, _ in sheet.code:
        if op in (MAP_NEW, MAP_SET, MAP_DELETE, QUEUE_NEW, QUEUE_SEND, QUEUE_CLOSE, SELECT_SEND):
            yield a
        elif op in (MAP_GET, MAP_ITER_NEXT, MAP_LEN, QUEUE_RECV, SELECT_RECV, QUEUE_LEN, QUEUE_CAP):
            yield b
        elif op == MAP_ITER_INIT:
            yield from (a, b)


# Join

def join(old, new, equal):
    if old == CONFLICT or new == CONFLICT:
        return CONFLICT
    if old == UNKNOWN or new == UNKNOWN:
        return UNKNOWN
    return old if equal(old, new) else CONFLICT


def equal_numbers(sheet):
    return lambda old, new: old == new


def equal_layouts(sheet):
    # "Layouts are equal by length and content"
    def equal(old, new):
        if old[0] != new[0]:
            return False
        (old_a, old_b), (new_a, new_b) = divmod(old[1], 65536), divmod(new[1], 65536)
        if old[0] == QUEUE:
            return sheet.layouts[old_a] == sheet.layouts[new_a]
        return sheet.layouts[old_a] == sheet.layouts[new_a] and sheet.layouts[old_b] == sheet.layouts[new_b]
    return equal


# Transfers. "All reads take the state before the instruction": `read` gives it, Unknown for an untracked slot.

def copied(instruction, slot, read):
    """What Copy and CopyN put into a written slot; None for every other opcode and slot."""
    op, _, a, b, c = instruction
    if op == COPY and slot == a:
        return read(b)
    if op == COPY_N and a <= slot < a + c:
        return read(b + slot - a)
    return None


def number(value):
    return (3, value + 18446744073709551616) if value < 0 else (2, value)


def constant_written(sheet, pc, slot, read):
    op, _, a, b, c = sheet.code[pc]
    if op == LOAD_INT and slot == a:
        return number(imm32(b, c))
    if op == LOAD_CONST and slot == a:
        if b < len(sheet.constants) and sheet.constants[b][0] == 1:
            return number(sheet.constants[b][1])
        return UNKNOWN
    if op in (SHL, OR) and slot == a:
        return folded(op, read(b), read(c))
    return copied(sheet.code[pc], slot, read) or UNKNOWN


def folded(op, left, right):
    # "Shl and Or fold only two facts from 0 to 2^64 − 1."
    if left[0] != 2 or right[0] != 2:
        return UNKNOWN  # of a Conflict too
    if op == OR:
        return (2, left[1] | right[1])
    if right[1] >= 64:
        return UNKNOWN
    return (2, (left[1] << right[1]) % 18446744073709551616)


def index_written(sheet, pc, slot, read):
    return copied(sheet.code[pc], slot, read) or UNKNOWN


def container_written(sheet, pc, slot, read):
    op, _, a, b, _ = sheet.code[pc]
    note, first, second = sheet.notes[pc]
    if op == MAP_NEW and slot == a and note == MAP_NEW_NOTE:
        return (MAP, first * 65536 + second)
    if op == QUEUE_NEW and slot == a and note == QUEUE_NOTE:
        return (QUEUE, first * 65536)
    if op == MAP_ITER_INIT and slot == a:
        return iterator_of(read(b), (MAP, ITERATOR))
    if op == MAP_ITER_NEXT and b <= slot < b + 7:
        return iterator_of(read(b), (ITERATOR,))
    return copied(sheet.code[pc], slot, read) or UNKNOWN


def iterator_of(fact, kinds):
    if fact[0] in kinds:
        return (ITERATOR, fact[1])
    return CONFLICT if fact == CONFLICT else UNKNOWN


def checked(fact):
    """What IndexCheck makes of the constant fact in its b."""
    if fact is None or fact == UNKNOWN:
        return UNKNOWN
    if fact[0] == 2 and fact[1] <= 65535:
        return (2, fact[1])
    return CONFLICT


# The defined run

class Analysis:
    def __init__(self, mask, unit, seeds, written, equal):
        self.mask, self.unit, self.seeds, self.written, self.equal = mask, unit, seeds, written, equal


CONSTANT = Analysis(1, 32, constant_seeds, constant_written, equal_numbers)
INDEX = Analysis(2, 4, index_seeds, index_written, equal_numbers)
CONTAINER = Analysis(4, 40, container_seeds, container_written, equal_layouts)


class Table:
    def __init__(self, slots, rows, pops):
        self.slots, self.rows, self.pops = slots, rows, pops
        self.place = {slot: i for i, slot in enumerate(slots)}

    def fact(self, pc, slot):
        row = self.rows[pc]
        return None if row is None or slot not in self.place else row[self.place[slot]]


def transfer(sheet, analysis, table, constants, pc, row):
    place, out = table.place, list(row)

    def read(slot):
        return row[place[slot]] if slot in place else UNKNOWN

    instruction = sheet.code[pc]
    spans = spans_at(sheet, pc)
    if analysis is INDEX:
        spans = checked_span(sheet, pc, read(instruction[3])) or spans
    for i, slot in enumerate(table.slots):
        if holds(spans, slot):
            out[i] = analysis.written(sheet, pc, slot, read)
    if analysis is INDEX and instruction[0] == INDEX_CHECK and instruction[2] in place:
        out[place[instruction[2]]] = checked(constants.fact(pc, instruction[3]))
    return out


def param_start(sheet):
    """The slot of the first parameter, or None where the parameters give no facts."""
    width = sum(param[0] for param in sheet.params)
    implicit = sheet.receiver + sheet.closure
    if width > TOP or implicit > TOP:
        return None
    if sheet.param_slots == implicit + width:
        return implicit
    if sheet.receiver > 0 and sheet.param_slots == sheet.closure + width:
        return sheet.closure
    return None


def param_facts(sheet, table, row, budget):
    slot = param_start(sheet)
    if slot is None:
        return
    for width, kind, first, second in sheet.params:
        used = ((), (first, second), (first,))[kind]
        for layout in used:
            budget.take_bytes(len(sheet.layouts[layout]))
        fact = (None, (MAP, first * 65536 + second), (QUEUE, first * 65536))[kind]
        if fact is not None and slot in table.place:
            row[table.place[slot]] = fact
        slot += width


def charge_notes(sheet, budget):
    for (op, *_), (note, first, second) in zip(sheet.code, sheet.notes):
        used = ()
        if op == MAP_NEW and note == MAP_NEW_NOTE:
            used = (first, second)
        if op == QUEUE_NEW and note == QUEUE_NOTE:
            used = (first,)
        for layout in used:
            budget.take_bytes(len(sheet.layouts[layout]))


def run(sheet, analysis, slots, flow, constants, budget):
    table = Table(slots, [None] * sheet.n, 0)
    if sheet.n == 0 or not slots:
        return table
    budget.take_bytes(analysis.unit * sheet.n * len(slots))
    rows = table.rows
    rows[0] = [UNKNOWN] * len(slots)
    if analysis is CONTAINER:
        param_facts(sheet, table, rows[0], budget)
        charge_notes(sheet, budget)
    equal, listed = analysis.equal(sheet), [0]
    while listed:
        pc = listed.pop()
        table.pops += 1
        assert table.pops <= sheet.n * (1 + 2 * len(slots))  # a mistake could keep the run from ending
        budget.take_work(len(slots))
        out = transfer(sheet, analysis, table, constants, pc, rows[pc])
        for target in flow[pc]:
            old = rows[target]
            joined = out if old is None else [join(a, b, equal) for a, b in zip(old, out)]
            if joined != old:
                rows[target] = joined
                listed.append(target)
    return table  # "The empty list ends the run"


def call(sheet, budget, closed):
    budget.stage = 1
    charge_flow(sheet, budget)
    flow = successors(sheet)
    budget.stage = 2
    edges = dependencies(sheet, budget)
    tables = []
    for analysis in (CONSTANT, INDEX, CONTAINER):
        budget.stage += 1
        slots = closure(sheet, edges, analysis.seeds(sheet), analysis.mask, budget)
        closed.append((len(slots), budget.bytes, budget.work))
        tables.append(run(sheet, analysis, slots, flow, tables[0] if tables else None, budget))
    return tables


# Answers, in the form of a record

def answer(data, bytes_left, work_left):
    budget, closed, tables, stop = Budget(bytes_left, work_left), [], [], Stop(0)
    try:
        tables = call(read_sheet(data), budget, closed)
    except Stop as raised:
        stop = raised
    out = struct.pack('<BQQ', stop.number, budget.bytes, budget.work)
    if stop.number == 7:
        out += struct.pack('<BQQ', stop.stage, stop.requested, stop.remaining)
    out += bytes([len(closed)]) + b''.join(struct.pack('<HQQ', *each) for each in closed)
    return out + (b''.join(map(table_bytes, tables)) if stop.number == 0 else b'')


def table_bytes(table):
    s = len(table.slots)
    cells = [cell for row in table.rows for cell in (row or [UNKNOWN] * s)]
    out = struct.pack('<HI%dH' % s, s, table.pops, *table.slots)
    out += bytes(row is not None for row in table.rows)
    out += bytes(kind for kind, _ in cells)
    known = [value for kind, value in cells if kind >= 2]
    return out + struct.pack('<%dQ' % len(known), *known)


# Listing

def listing(data):
    if len(data) > 65536:
        return 'too large\n'
    budget, closed, stop = Budget(FRESH, FRESH), [], None
    try:
        sheet = read_sheet(data)
        if sheet.n > 256 or sheet.locals > 4096:
            return 'too large\n'
        tables = call(sheet, budget, closed)
    except Stop as raised:
        stop = raised
    if any(s > 32 for s, _, _ in closed):
        return 'too large\n'
    if stop:
        return 'refused %d\n' % stop.number
    shows = (constant_text, lambda _, fact: 'checked %d' % fact[1], container_text)
    parts = [part(sheet, *each) for each in zip(('constant', 'index', 'container'), tables, shows)]
    return ''.join(parts) + 'left %d %d\n' % (budget.bytes, budget.work)


def part(sheet, name, table, show):
    lines = ['%s %d %d %d\n' % (name, sheet.n, len(table.slots), table.pops)]
    for pc, row in enumerate(table.rows):
        for slot, fact in zip(table.slots, row or ()):
            text = ('unknown', 'conflict')[fact[0]] if fact[0] < 2 else show(sheet, fact)
            lines.append('%d %d %s\n' % (pc, slot, text))
    return ''.join(lines)


def constant_text(sheet, fact):
    kind, value = fact
    return '%d' % (value if kind == 2 else value - 18446744073709551616)


def container_text(sheet, fact):
    kind, value = fact
    first, second = (sheet.layouts.index(sheet.layouts[number]) for number in divmod(value, 65536))
    if kind == QUEUE:
        return 'queue %d' % first
    return '%s %d %d' % ('map' if kind == MAP else 'iter', first, second)
