"""Traces for the questions of a step, 1 to 8: each alone at its limits, several at once, and that a refused step leaves everything as it was."""
from leaf_vectors import EMPTY_REVERTS, ISZERO, JUMPI, M, SLOT, push
from step_model import ADD, AND, BYTE, CALLDATACOPY, CALLDATALOAD, EQ, GT, LT, MLOAD, MSTORE8, MUL, SDIV, SHL, SHR, SIGNEXTEND, SMOD
from step_trace import (CALL_DATA, DIVISION, GUARD, NONE, RANGE, S, SLOAD, STOP, TOP, Trace, arg, either, entry, guard, label, slot,
                        step_numbers, zero_test)
from table_vectors import COUNT, KIND, NODES, NOT_BOOL, WIDTH


def question_1():
    for length in (0, 1, 10, 11, 12, 22, 121, 122, 180223, 180224, 180225, 180235):
        t = Trace(f'question 1: {length} numbers', length=length)
        t.do(STOP).do(CALLDATALOAD, 36)
        if length > 11:
            t.do(CALLDATALOAD, 4).do(ADD, arg(0), arg(64))


def question_2():
    t = Trace('question 2: used and active', 12).install(NODES).do(STOP)
    for head in ((0, 1), (1, 1), (9, 1), (11, 1), (12, 1), (13, 1), (TOP, 1), (10, 2), (10, 3), (10, TOP), (10, 0), (10, 1), (0, 2)):
        t.beside(*head).do(STOP).beside(*head).do(SLOAD)
    damaged_and_repaired()
    unsound()
    t = Trace('question 2: largest counts', 12).install([(1, 0, {**S, KIND: 1, COUNT: 134217727}), (1, 32, {**S, KIND: 2, COUNT: 99})])
    t.do(CALLDATALOAD, arg(0, 1, TOP - 27)).do(CALLDATALOAD, arg(32, 1, 36)).do(MUL, arg(0, 3), 3168).do(MUL, arg(0, 2), 3168)


def damaged_and_repaired():
    """each number of a table wrong by itself, and right again"""
    t = Trace('question 2: damaged, repaired', 12).install(NODES).do(STOP)
    base = list(t.table)
    for r in (1, 2, 4, 5, 6, 8, 10, 11, 12):
        for f in range(WIDTH):
            at = (r - 1) * WIDTH + f
            for v in {(base[at] + 1) % 2**32, 0 if base[at] else 2}:
                t.put(at, v).do(AND, arg(0, 3), 255)
                for i, x in enumerate(base):
                    if t.table[i] != x:
                        t.put(i, x)
                t.beside(10, 1)
    t.do(STOP)


def unsound():
    for name, changes in (('chain in a ring', {(10, 3): 2}), ('orphan', {(2, 3): 0}), ('seen under unseen', {(9, 4): 1}),
                          ('equal keys', {(2, 0): 0}), ('name without confidence', {(2, 9): 2}), ('confidence 21', {(4, 10): 21}),
                          ('uint 264', {(4, 9): 1264}), ('name 5', {(4, 9): 5}), ('array of 100', {(6, 8): 100}),
                          ('dynamic of 134217728', {(3, 8): 134217728}), ('root with a name', {(1, 9): 2, (1, 10): 5})):
        t = Trace(f'question 2: {name}', 12).install(NODES)
        for (r, f), v in changes.items():
            t.field(r, f, v)
        t.do(CALLDATALOAD, 4)


def question_3():
    t = Trace('question 3')
    for n in (65536, 65537):
        t.do(LT, arg(0), 9, code=guard().ljust(n, b'\0'))
    t.do(STOP, code=bytes(65537))
    end = bytes(65536 - 6) + push(0, 1) + bytes([JUMPI]) + EMPTY_REVERTS[0]
    t.do(LT, arg(32), 9, code=end, pc=65530).do(LT, arg(64), 9, code=end[:-1], pc=65530)


def question_4():
    t = Trace('question 4: lengths')
    for n in (0, 20, 21, 22, 42, 43, 21 * 1024 - 1, 21 * 1024, 21 * 1024 + 1, 21 * 1025):
        t.do(STOP, stack=[0] * n)
    for n in (0, 1, 14, 15, 16, 30, 15 * 1024, 15 * 1024 + 1, 15 * 1025):
        t.do(STOP, memory=[0] * n)
    for n in (0, 1, 58, 59, 60, 64):
        t.raw((step_numbers(STOP) + [0] * 5)[:n])
    t.do(CALLDATALOAD, 4, stack=[0] * (21 * 1023) + slot(9)).do(CALLDATACOPY, 4, 0, memory=entry(0) * 1024, pick=1024)
    t.do(STOP, stack=[0] * 21 + [0] * 8 + [4], memory=[0] * 15).do(STOP, memory=[0, 2])


def malformed(used):
    """labels that are not well formed, and some that are"""
    out = []
    for kind in (0, 1):
        for i in range(1, 13):
            if i in (1, 2, 3, 4, 5, 12):
                bad = label(kind)
                bad[i] = 1
                out.append(bad)
    for kind in (2, 3):
        out += [label(kind, 0, 0), label(kind, 0, used + 1), label(kind, 0, TOP), label(kind, TOP, 1, TOP), label(kind, 0, used, 0, 0),
                label(kind, 5, used, 9, M - 1)]
        for i, v in ((4, 2), (4, TOP), (5, 1), (8, 1), (12, 1)):
            bad = label(kind, 0, 1)
            bad[i] = v
            out.append(bad)
    return out + [label(4), label(4, 0, 1), label(TOP, 0, 1)]


def question_5():
    for name, place in (('only slot', lambda x: dict(stack=slot(1, x))),
                        ('lower slot', lambda x: dict(stack=slot(1, x) + slot(2) + slot(3))),
                        ('top slot', lambda x: dict(stack=slot(1) + slot(2, arg(0)) + slot(3, x))),
                        ('first entry', lambda x: dict(memory=entry(1, x) + entry(2))),
                        ('last entry', lambda x: dict(memory=entry(1) + entry(2, x, 1))), ('first operand', lambda x: dict(a=slot(1, x))),
                        ('second operand', lambda x: dict(b=slot(1, x))), ('load label', lambda x: dict(load=x, flag=1))):
        t = Trace(f'question 5: {name}').load(0).do(ADD, arg(32, 2), 1)
        for x in malformed(3):
            t.do(STOP, **place(x))
    t = Trace('question 5: replaced marks')
    for mark in (0, 1, 2, TOP):
        t.do(STOP, memory=entry(1, NONE, mark)).do(STOP, memory=entry(1) + entry(1, arg(0), mark))


def question_6():
    t = Trace('question 6: op, pick and flag')
    for op in (255, 256, 0x101, 0x135, 0x10000, TOP):
        t.beside(1, 1).do(op)
    for pick in (0, 1, 2, 3, TOP):
        t.do(STOP, memory=entry(1) + entry(2), pick=pick)
    t.do(STOP, pick=1)
    for flag in (0, 1, 2, TOP):
        for lab in (NONE, CALL_DATA, arg(0), zero_test(0)):
            t.do(STOP, flag=flag, load=lab).do(MLOAD, flag=flag, load=lab)
    t = Trace('question 6: place of a copy')
    for word in (0, TOP, 1 << 32, (1 << 32) + 64, 1 << 64, 1 << 255, M - 1):
        for op in (CALLDATACOPY, CALLDATALOAD, 0x39, 0x3E):
            t.do(op, 4, word, memory=entry(0), pick=1)
        t.do(CALLDATACOPY, arg(0, 1, 3), slot(word, arg(0)))
        t.do(CALLDATACOPY, slot(word, arg(0)), 0)


def question_7():
    # the arguments have range names and one could be loaded from, so that the ops that clear hints or load show too
    for name, added, stack in (('empty stack', 0, []), ('one slot', 4, slot(5))):
        t = Trace(f'question 7: every op, {name}', 4)
        for op in range(256):
            t.install([(1, 0, RANGE), (1, 32, RANGE)]).do(op, arg(0, 1, added), arg(32), stack=stack, code=GUARD)
    t = Trace('question 7: every op, no labels', 4)
    for op in sorted(SLOT) + [CALLDATACOPY, MSTORE8, EQ, SHR, SDIV, BYTE, SIGNEXTEND, 0xF1]:
        t.do(op, 1, 1, stack=[]).do(op, 1, 1)


# each step with what it needs; records 2 (key 0, seen) and 3 (key 32, unseen, marked) are there
NEEDS = [('load', dict(op=CALLDATALOAD, a=68)), ('load known', dict(op=CALLDATALOAD, a=4)), ('load unseen', dict(op=CALLDATALOAD, a=36)),
         ('copy', dict(op=CALLDATACOPY, a=68)), ('copy of a label', dict(op=CALLDATACOPY, a=arg(64, 1, 4), memory=entry(0), pick=1)),
         ('load of a label', dict(op=CALLDATALOAD, a=arg(0, 2, 4))), ('load of a label, known', dict(op=CALLDATALOAD, a=arg(32, 1, 36))),
         ('load of a label, off by one', dict(op=CALLDATALOAD, a=arg(0, 2, 5))), ('load far', dict(op=CALLDATALOAD, a=130048)),
         ('call', dict(op=0xF1, a=arg(64))), ('call, known', dict(op=0xFA, a=arg(32))), ('sum of two', dict(op=ADD, a=arg(64), b=arg(96))),
         ('sum of equals', dict(op=ADD, a=arg(64), b=arg(64))), ('sum, second known', dict(op=ADD, a=arg(64), b=arg(0))),
         ('sum, both known', dict(op=ADD, a=arg(32), b=arg(0))), ('sum of parent and child', dict(op=ADD, a=arg(64, 2), b=arg(64))),
         ('sum with a constant', dict(op=ADD, a=arg(64), b=9)), ('sum not kept', dict(op=ADD, a=TOP + 1, b=arg(64))),
         ('shl at the root', dict(op=SHL, a=8, b=arg(64), code=GUARD)), ('shl of a length', dict(op=SHL, a=5, b=arg(0, 2))),
         ('shl of a length by a label', dict(op=SHL, a=slot(5, arg(64)), b=arg(0, 3))), ('shl of another', dict(op=SHL, a=5, b=arg(1, 3))),
         ('mul of a length', dict(op=MUL, a=arg(0, 2), b=32)),
         ('mul of a length by a label', dict(op=MUL, a=arg(0, 2), b=slot(64, arg(64)))),
         ('mul of a length by itself', dict(op=MUL, a=arg(0, 3), b=arg(0, 3))),
         ('mul of the root by known', dict(op=MUL, a=arg(0, 1), b=arg(32))), ('mul of another', dict(op=MUL, a=arg(64), b=2)),
         ('mul of two others', dict(op=MUL, a=arg(64), b=arg(96))), ('range', dict(op=LT, a=arg(64), b=9, code=guard())),
         ('range, known', dict(op=LT, a=arg(32), b=9, code=guard())), ('lt of a length', dict(op=LT, a=0, b=arg(0, 2))),
         ('lt of another', dict(op=LT, a=arg(64), b=0)), ('gt of a length', dict(op=GT, a=arg(0, 2), b=0)),
         ('mstore8', dict(op=MSTORE8, a=arg(64))), ('shr', dict(op=SHR, a=16, b=arg(64), code=GUARD)),
         ('shr by 9', dict(op=SHR, a=9, b=arg(64), code=GUARD)), ('shr, no guard', dict(op=SHR, a=16, b=arg(64))),
         ('sdiv', dict(op=SDIV, a=1, b=arg(64))), ('smod of two', dict(op=SMOD, a=arg(64), b=arg(96))),
         ('and', dict(op=AND, a=255, b=arg(64))), ('and, no type', dict(op=AND, a=511, b=arg(64))),
         ('eq', dict(op=EQ, a=arg(64), b=arg(64, 1, 0, 255))), ('eq of others', dict(op=EQ, a=arg(64), b=arg(96, 1, 0, 255))),
         ('iszero', dict(op=ISZERO, a=arg(64))), ('iszero twice', dict(op=ISZERO, a=zero_test(64))),
         ('iszero of a division', dict(op=ISZERO, a=zero_test(64), code=DIVISION)),
         ('iszero twice, marked', dict(op=ISZERO, a=zero_test(32))), ('signextend', dict(op=SIGNEXTEND, a=0, b=arg(64))),
         ('signextend by 32', dict(op=SIGNEXTEND, a=32, b=arg(64))), ('byte', dict(op=BYTE, a=0, b=arg(64))),
         ('mload', dict(op=MLOAD, load=arg(64)))]


def question_8():
    for name, what in NEEDS:
        t = Trace(f'question 8: {name}', 5)
        for records in (5, 4, 3):
            # the free records are taken by arguments far off
            t.install([(1, 0, S), (1, 32, {NOT_BOOL: 1})] + [(1, 1000 + i, S) for i in range(5 - records)]).do(**what)
        for _ in range(2):
            t.do(**what)
    t = Trace('question 8: one record', 1)
    for _, what in NEEDS:
        if all(either(what.get(k, 0))[10] <= 1 for k in 'ab'):
            t.beside(1, 1).do(**what)
    # filled by steps, then each further one is refused and leaves all as it was
    t = Trace('question 8: full by steps', 4).load(0).load(32).do(ADD, arg(64), arg(96)).do(ADD, arg(64), arg(0)).do(ADD, arg(64), arg(96))
    t.load(96).do(AND, arg(64), 255, stack=slot(5)).do(AND, arg(96), 255).do(BYTE, 0, arg(64)).do(ISZERO, arg(200))
    t.do(ISZERO, zero_test(200)).do(STOP)


def several_questions():
    """"The questions are taken in this order; the first "no" gives its number": every two of them failing, and all from one on"""
    def build(name, failing):
        t = Trace(name, length=220 if 1 not in failing else 219)
        if 1 not in failing and 8 in failing:
            t.install([(1, 1000 + i, S) for i in range(19)])
        if 2 in failing:
            t.beside(20 if 8 in failing else 1, 2)
        stack = [] if 7 in failing else slot(5)
        stack += slot(1, label(4)) if 5 in failing and 7 not in failing else []
        # with an empty stack, a bad label stands in an operand
        second = slot(1, label(4)) if 5 in failing and 7 in failing else arg(96)
        numbers = step_numbers(ADD, arg(64), second, pick=9 if 6 in failing else 0)
        t.raw(numbers, bytes(65537 if 3 in failing else 3), stack, [0] if 4 in failing else [])
    for i in range(1, 9):
        build(f'several questions: {i} alone', {i})
        build(f'several questions: all from {i}', set(range(i, 9)))
        for j in range(i + 1, 9):
            build(f'several questions: {i} and {j}', {i, j})


def refused_between():
    """"everything is left unchanged": refused steps between taken ones"""
    t = Trace('refused between', 9)
    taken = [dict(op=CALLDATALOAD, a=4), dict(op=CALLDATALOAD, a=arg(0, 1, 4)),
             dict(op=MUL, a=arg(0, 2), b=32, stack=slot(7, arg(0, 2)) + slot(8)), dict(op=CALLDATALOAD, a=arg(0, 1, 36)),
             dict(op=LT, a=arg(32), b=5, code=guard()), dict(op=SLOAD, a=arg(32))]
    for what in taken:
        stack = what.get('stack', slot(5))
        t.do(**{**what, 'stack': stack + [0]})
        t.do(**{**what, 'stack': stack + slot(0, arg(0, 9))})
        t.do(**{**what, 'pick': 1})
        t.do(**{**what, 'op': what['op'] + 256})
        t.raw(step_numbers(what['op'], what['a'], what.get('b', 0))[:58], what.get('code', b''), stack)
        head = t.head
        t.beside(head[0] + 1, head[1]).do(**what).beside(0, head[1]).do(**what).beside(head[0], 2).do(**what).beside(*head).do(**what)
