"""Traces for the loads from call data and from memory, and document 01's bench, P1 to P9, of which most are loads."""
from leaf_vectors import ISZERO, M
from step_model import BYTE, CALLDATACOPY, CALLDATALOAD, LT, MLOAD, MSTORE8, MUL, SDIV
from step_trace import CALL_DATA, NONE, S, TOP, Trace, arg, entry, guard, slot, zero_test
from table_vectors import COUNT, KIND, NOT_BOOL

ENTRIES = entry(0) + entry(64, arg(0), 1) + entry(0, CALL_DATA)


def loads():
    """the two arms of CALLDATALOAD and CALLDATACOPY; P7, P8; readings 1, 8, 9, 10"""
    for op, more in ((CALLDATALOAD, {}), (CALLDATACOPY, dict(memory=ENTRIES, pick=2)), (CALLDATACOPY, dict(memory=ENTRIES))):
        name = f'{op:02x}{" with a pick" if "pick" in more else ""}'
        unlabelled(name, op, more)
        labelled(name, op, more)
    arrays_on_the_path()
    the_word_1()
    made_seen()
    paths_and_counts()
    copies()


def unlabelled(name, op, more):
    t = Trace(f'unlabelled load {name}', 30)
    for off in (0, 3, 4, 5, 35, 36, 37, 131071, 131072, 130046, 130047, 130048, TOP, TOP + 1, TOP + 5, (1 << 64) + 4, (1 << 128) + 36,
                M - 1):
        t.do(op, off, 64, **more)
    for lab in (CALL_DATA, zero_test(0), zero_test(32, 1, 36, 255)):
        t.do(op, slot(68, lab), 64, **more).do(op, slot(3, lab), 64, **more)


def labelled(name, op, more):
    t = Trace(f'labelled load {name}', 30).load(0)
    for added in (0, 3, 4, 5, 35, 36, 37, 68, 100, TOP - 27, TOP - 28, TOP):
        t.do(op, slot(4, arg(0, 1, added)), 64, **more)
    t.do(op, arg(32, 1, 4, 255), 64, **more).do(op, arg(33, 2, 36), 64, **more).do(op, arg(TOP, 1, 4), 64, **more)


def arrays_on_the_path():
    """arrays on the path take 32 each off, unless added is 4 or the sum is larger"""
    deep = [(1, 0, {**S, KIND: 2, COUNT: 1}), (2, 0, {**S, KIND: 2, COUNT: 2}), (3, 0, {**S, KIND: 1, COUNT: 9}),
            (4, 0, {**S, KIND: 2, COUNT: 3}), (5, 0, {NOT_BOOL: 1})]
    for op, more in ((CALLDATALOAD, {}), (CALLDATACOPY, dict(memory=ENTRIES, pick=3))):
        t = Trace(f'load: arrays on the path {op:02x}', 30)
        for path in range(1, 7):
            for added in (4, 36, 68, 100, 132, 164):
                t.install(deep).do(op, arg(0, path, added), 64, **more)
        for path in (1, 5):
            for added in (4, 36, 132):
                t.install(deep).do(op, arg(32, path, added), 64, **more)


def the_word_1():
    """the offset's own record an array: the word 1 with added 4 or all taken off"""
    t = Trace('load: the word 1')
    t.install([(1, 0, {**S, KIND: 2, COUNT: 1}), (2, 0, {**S, KIND: 2, COUNT: 1}), (1, 32, {**S, KIND: 1, COUNT: 1})])
    for op in (CALLDATALOAD, CALLDATACOPY):
        for lab in (arg(0, 1, 4), arg(0, 1, 36), arg(0, 2, 36), arg(0, 2, 68), arg(0, 2, 4), arg(32, 1, 4), arg(32, 2, 4)):
            t.do(op, lab, 0, stack=slot(9) + slot(8), memory=entry(5) + entry(0), pick=2)
            t.do(op, lab, 0, stack=slot(9) + slot(8), memory=entry(5))


def made_seen():
    """made seen runs up"""
    marks = [(1, 0, {NOT_BOOL: 1}), (2, 0, {}), (3, 32, {}), (2, 64, {NOT_BOOL: 1}), (4, 0, {NOT_BOOL: 1})]
    t = Trace('load: made seen runs up')
    for what in (dict(op=CALLDATALOAD, a=arg(32, 3, 4)), dict(op=CALLDATALOAD, a=arg(0, 4, 36)), dict(op=CALLDATALOAD, a=4),
                 dict(op=BYTE, b=arg(64, 2)), dict(op=BYTE, b=arg(96, 4)), dict(op=MUL, a=arg(0, 4), b=32), dict(op=MUL, a=arg(0, 3), b=1),
                 dict(op=LT, a=arg(5, 4), b=9, code=guard())):
        t.install(marks).do(**what).do(ISZERO, arg(0, 4))


def paths_and_counts():
    # a path of 66 keys, its arrays and a load below
    t = Trace('load: a long path', 70).install([(r, r % 3, {**S, **({KIND: 2, COUNT: 1} if r % 2 else {})}) for r in range(1, 66)])
    for added in (4, 36, 1028, 1060, 2084, 2116):
        t.do(CALLDATALOAD, arg(0, 66, added))
    # the count falls only from dynamic to array: readings 9, 14
    t = Trace('load: counts').do(CALLDATALOAD, arg(0, 1, 68)).do(CALLDATALOAD, arg(0, 1, 36)).do(CALLDATALOAD, arg(0, 1, 68))
    t.do(CALLDATALOAD, arg(0, 1, 100))
    t.do(MUL, arg(0, 2), 64).do(MUL, arg(0, 2), 32).do(MUL, arg(0, 2), 64).do(MUL, arg(0, 2), 96).do(CALLDATALOAD, arg(0, 1, 164))
    t.do(CALLDATALOAD, arg(0, 1, 4))


def copies():
    """a copy of a label: dynamic with pick 0 too, bytes at 10"""
    t = Trace('load: bytes at 10').load(0).do(BYTE, 0, arg(0)).do(CALLDATACOPY, arg(0, 1, 4))
    t.do(CALLDATACOPY, arg(0, 1, 4), 64, memory=entry(64), pick=1)
    t.do(SDIV, arg(0), 1).do(MUL, arg(0, 2), 1).do(CALLDATACOPY, arg(32, 1, 36), 0, memory=entry(64), pick=1).do(MSTORE8, arg(32))
    t.do(CALLDATACOPY, arg(32, 1, 36), 0, memory=entry(64), pick=1)


def bench():
    """P1, P7, P8 and P9: their steps"""
    t = Trace('P1', 1480).do(CALLDATALOAD, 4).do(CALLDATALOAD, arg(0, 1, 4)).do(MUL, arg(0, 2), 32)
    Trace('P7').do(CALLDATALOAD, 3)
    Trace('P8: 130047').do(CALLDATALOAD, 130047)
    Trace('P8: 130048').do(CALLDATALOAD, 130048)
    for m in (3168, 3200):
        Trace(f'P9: {m}').do(CALLDATALOAD, 4).do(CALLDATALOAD, arg(0, 1, 4)).do(MUL, arg(0, 2), m)


def memory_loads():
    t = Trace('mload').load(0)
    for lab in (arg(0), arg(32, 2, 4, 255), zero_test(0), CALL_DATA, NONE):
        t.do(MLOAD, arg(64), arg(96), load=lab, stack=slot(1, arg(7)) + slot(2, CALL_DATA)).do(0x52, load=lab)
        t.do(CALLDATALOAD, 36, load=lab).do(MLOAD, 0, 0, load=lab, stack=slot(3, lab))
