"""Random labels, slots and tables, and traces of random steps on them. replay.py draws from here too."""
import random

from leaf_vectors import ISZERO, JUMPI, M
from step_model import (ADD, AND, BYTE, CALLDATACOPY, CALLDATALOAD, EQ, GT, LT, MLOAD, MSTORE8, MUL, REVERT, SDIV, SHL, SHR, SIGNEXTEND,
                        SMOD, numbers_of_word)
from step_trace import DIV, DIVISION, GUARD, NONE, SLOAD, SUB, TOP, Trace, entry, guard, label, slot, step_numbers
from table_vectors import BLOCKED, CONFIDENCE, COUNT, KIND, NAME, NOT_BOOL, SEEN, WIDTH

R = random.Random(20261116)
OPS = [op for op, times in ((CALLDATALOAD, 5), (CALLDATACOPY, 4), (ADD, 4), (MUL, 5), (SHL, 4), (LT, 5), (GT, 5), (AND, 4), (EQ, 4), (ISZERO, 4),
                            (SHR, 2), (SIGNEXTEND, 2), (BYTE, 2), (MLOAD, 2), (REVERT, 2)) for _ in range(times)]
OPS += [0xF1, 0xFA, SDIV, SMOD, MSTORE8, DIV, SUB, JUMPI, SLOAD, 0x55]
KEYS = (0, 0, 0, 32, 32, 64, 96, 5)
WORDS = (0, 0, 1, 2, 4, 5, 8, 9, 31, 32, 36, 64, 96, 160, 255, 256, 257, 3168, 65535, TOP, 1 << 32, (1 << 64) + 5, (1 << 160) - 1,
         M - (1 << 224), M - 1)
CODES = [b'', GUARD, DIVISION] + [guard(less, turned, r % 6, r % 2 == 0, 1 + r % 4) for r,
                                  (less, turned) in enumerate(((True, False), (True, True), (False, False), (False, True)) * 2)]


def random_label(used, kinds=(0, 0, 1, 2, 2, 2, 2, 2, 2, 3)):
    kind = R.choice(kinds)
    if kind < 2:
        return label(kind)
    path = R.choice((1, 1, 2, R.randint(1, used), R.randint(1, used)))
    return label(kind, R.choice(KEYS), min(path, used), R.choice((0, 0, 0, 0, 4, 4, 36, 68, 5, TOP)),
                 R.choice((None, None, None, None, 255, (1 << 160) - 1, 0, 511)))


def random_slot(used, kinds=(0, 0, 1, 2, 2, 2, 2, 2, 2, 3)):
    return slot(R.choice(WORDS), random_label(used, kinds))


def random_nodes(count):
    nodes, taken = [], set()
    for k in range(2, count + 2):
        parent, key = R.choice((1, R.randint(1, k - 1))), R.choice(KEYS)
        if (parent, key) in taken:
            continue
        if parent > len(nodes) + 1:
            continue
        taken.add((parent, key))
        more = {}
        if R.random() < 0.75 and (parent == 1 or nodes[parent - 2][2].get(SEEN)):
            more = {SEEN: 1}
            if R.random() < 0.5:
                more[NAME], more[CONFIDENCE] = R.choice(((1, 5), (1, 20), (2, 5), (1008, 6), (1008, 6), (1008, 6), (1256, 20), (2256, 8),
                                                         (3, 10), (4, 20), (3032, 4), (1008, 12)))
            if R.random() < 0.4:
                more[KIND], more[COUNT] = R.choice(((1, 0), (1, 1), (1, 3), (2, 1), (2, 2), (2, 99)))
            if R.random() < 0.15:
                more[BLOCKED] = 1
        if R.random() < 0.3:
            more[NOT_BOOL] = 1
        nodes.append((parent, key, more))
    return nodes


def random_step(t, rough):
    used, op = t.head[0], R.choice(OPS)
    a, b = random_slot(used), random_slot(used)
    if op in (LT, GT, SHL, SHR, SIGNEXTEND, BYTE, AND) and R.random() < 0.5:
        a, b = R.choice(((slot(R.choice(WORDS)), slot(9, random_label(used, (2,)))),
                         (slot(9, random_label(used, (2,))), slot(R.choice(WORDS)))))
    if op == EQ and R.random() < 0.6:
        lab = random_label(used, (2,))
        a, b = slot(1, lab[:4] + [0] * 9), slot(1, lab[:4] + [1] + numbers_of_word(R.choice((255, 65535, M - 1))))
    if op == CALLDATACOPY:
        b = slot(R.choice((0, 64, TOP)), b[8:])
    stack = [n for _ in range(R.randint(1, 3)) for n in random_slot(used)]
    memory = [n for _ in range(R.randint(0, 2)) for n in entry(32 * R.randint(0, 3), random_label(used), R.randint(0, 1))]
    numbers = step_numbers(op, a, b, pick=R.randint(0, len(memory) // 15),
                           load=random_label(used) if op == MLOAD or R.random() < 0.1 else NONE)
    if R.random() < rough:
        part = R.choice((stack, memory, numbers, numbers))
        if part:
            at = R.choice((0, 44, 45, 46)) if part is numbers and R.random() < 0.6 else R.randrange(len(part))
            part[at] = R.choice((0, 1, 2, 3, used, used + 1, 256, TOP))
    return t.raw(numbers, R.choice(CODES), stack, memory)


def random_traces():
    for i in range(90):
        t = Trace(f'random {i}', R.choice((3, 5, 8, 12, 20)))
        if i % 3:
            most = t.length // WIDTH - 1
            t.install(random_nodes(R.randint(0, min(most, 8))), R.choice((1, 1, 1, 0)))
            t.head = t.next_head
        for _ in range(R.randint(4, 9)):
            random_step(t, 0.04 if i % 5 else 0.4)
