"""The numbers of labels, slots, entries and steps, and traces of them: what step_vectors.py and its parts are written in. A trace takes its steps by the model
of step_model.py and keeps the lines that they give.
"""
import step_model as model
from leaf_vectors import EMPTY_REVERTS, ISZERO, JUMPI, push
from step_model import CALLDATALOAD, numbers_of_word
from table_vectors import CONFIDENCE, NAME, NOT_BOOL, SEEN, WIDTH, table

STOP, SUB, DIV, MOD, EXP, SLT, SLOAD, JUMP, JUMPDEST = 0x00, 0x03, 0x04, 0x06, 0x0A, 0x12, 0x54, 0x56, 0x5B
TOP = 2**32 - 1
TRACES = []


# ---- numbers of labels, slots, entries and steps

def label(kind, offset=0, path=0, added=0, mask=None):
    return [kind, offset, path, added, int(mask is not None)] + numbers_of_word(mask or 0)


NONE, CALL_DATA = label(0), label(1)


def arg(offset, path=1, added=0, mask=None):
    return label(2, offset, path, added, mask)


def zero_test(offset, path=1, added=0, mask=None):
    return label(3, offset, path, added, mask)


def slot(word, lab=NONE):
    return numbers_of_word(word) + lab


def entry(offset, lab=NONE, replaced=0):
    return [offset, replaced] + lab


def either(x):
    """an operand: a slot, a word, or a label with the word 0"""
    if isinstance(x, int):
        return slot(x)
    return x if len(x) == 21 else slot(0, x)


def step_numbers(op, a=0, b=0, pc=0, pick=0, flag=None, load=NONE):
    return [op, pc] + either(a) + either(b) + [pick, int(load[0] != 0) if flag is None else flag] + load


def rows(letter, width, numbers):
    """a line for each record, slot or entry; of more than 64 those that are zero are left out"""
    parts = [numbers[i:i + width] for i in range(0, len(numbers), width)]
    return [f'{letter} {i}:' + ''.join(f' {x}' for x in part) for i, part in enumerate(parts, 1) if len(numbers) // width <= 64 or any(part)]


class Trace:
    """a list of steps on one table, and the lines that they give"""

    def __init__(self, name, records=20, length=None):
        self.name, self.length = name, records * WIDTH if length is None else length
        self.refused, self.table = model.fresh([0] * self.length)
        self.head, self.steps, self.lines, self.waiting, self.next_head = (1, 1), [], [], {}, None
        assert len(name) < 40 and all(t.name != name for t in TRACES), name
        TRACES.append(self)

    def put(self, at, value):
        """stores in the table before the next step"""
        self.waiting[at] = value
        return self

    def field(self, r, f, value):
        return self.put((r - 1) * WIDTH + f, value)

    def beside(self, used, active):
        """replaces the head before the next step"""
        self.next_head = used, active
        return self

    def install(self, nodes, active=1):
        for at, value in enumerate(table(self.length // WIDTH, nodes)):
            if self.table[at] != value:
                self.put(at, value)
        return self.beside(len(nodes) + 1, active)

    def raw(self, numbers, code=b'', stack=None, memory=()):
        """the step as numbers"""
        stack, memory = slot(5) if stack is None else list(stack), list(memory)
        replaced, self.head = self.next_head is not None, self.next_head or self.head
        for at, value in self.waiting.items():
            self.table[at] = value
        self.steps.append((replaced, self.head, self.waiting, code, stack, memory, numbers))
        number, head, after, stack_after, memory_after = model.step(self.head, self.table, code, stack, memory, numbers)
        end = min(head[0] * WIDTH, len(after))
        self.lines.append(f'step {len(self.steps)}: answer {number} used {head[0]} active {head[1]} beyond {sum(x != 0 for x in after[end:])}')
        self.lines += rows('r', WIDTH, after[:end]) + rows('s', 21, stack_after) + rows('m', 15, memory_after)
        self.head, self.table, self.waiting, self.next_head = head, list(after), {}, None
        return self

    def do(self, op, a=0, b=0, code=b'', stack=None, memory=(), **more):
        return self.raw(step_numbers(op, a, b, **more), code, stack, memory)

    def load(self, offset):
        """makes the argument at this key seen"""
        return self.do(CALLDATALOAD, offset + 4)


# ---- codes and facts that many traces use

def guard(less_than=True, inverted=False, revert=0, dest=True, size=1):
    """a jump guard whose failure place has an empty revert"""
    head = bytes([ISZERO] if inverted else [])
    tail = bytes([JUMPDEST] if dest else []) + EMPTY_REVERTS[revert]
    if less_than != inverted:
        return head + push(0, size) + bytes([JUMPI]) + tail
    place = len(head) + size + 3
    return head + push(place, size) + bytes([JUMPI, STOP]) + tail


GUARD, DIVISION = push(9, 1) + bytes([JUMPI]), push(4, 1) + bytes([JUMPI, STOP, JUMPDEST, DIV])
S = {SEEN: 1}
RANGE = {SEEN: 1, NAME: 1008, CONFIDENCE: 6, NOT_BOOL: 1}
