"""Traces for the records behind the arms: deep paths, the order of new numbers, and lookups in long chains."""
import random

from leaf_vectors import ISZERO, M
from step_model import ADD, AND, BYTE, CALLDATACOPY, CALLDATALOAD, EQ, GT, LT, MLOAD, MSTORE8, MUL, REVERT, SDIV, SHL, SHR, SIGNEXTEND
from step_trace import DIV, GUARD, S, TOP, Trace, arg, entry, guard, slot, zero_test
from table_vectors import CONFIDENCE, NAME, NOT_BOOL, WIDTH


def deep():
    """every arm under a path of three different keys, of which the lower two aren't seen"""
    nodes = [(1, 64, S), (2, 32, {}), (3, 96, {NOT_BOOL: 1}), (1, 96, {**S, NAME: 1008, CONFIDENCE: 6}), (4, 0, {NOT_BOOL: 1})]
    for name, at in (('a new key', (160, 4)), ('key 0', (0, 4)), ('the middle', (96, 3))):
        t = Trace(f'deep: {name}')
        x, y, z = arg(*at), arg(*at, 0, 255), zero_test(*at)
        for what in (dict(op=CALLDATALOAD, a=arg(*at, 4)), dict(op=CALLDATALOAD, a=arg(*at, 36)),
                     dict(op=CALLDATACOPY, a=arg(*at, 4), memory=entry(0), pick=1), dict(op=0xF1, a=x), dict(op=ADD, a=x, b=arg(32)),
                     dict(op=ADD, a=arg(96), b=x), dict(op=ADD, a=x, b=M - 1), dict(op=ADD, a=7, b=y), dict(op=SHL, a=8, b=x, code=GUARD),
                     dict(op=SHL, a=5, b=x), dict(op=SHL, a=0, b=x), dict(op=SHL, a=1, b=x), dict(op=MUL, a=x, b=1), dict(op=MUL, a=2, b=x),
                     dict(op=MUL, a=x, b=64, stack=slot(9, x) + slot(8, arg(0, 3)) + slot(7)), dict(op=MUL, a=x, b=slot(32, arg(7, 3))),
                     dict(op=LT, a=0, b=x), dict(op=LT, a=x, b=9, code=guard()), dict(op=GT, a=x, b=31),
                     dict(op=GT, a=9, b=x, code=guard()), dict(op=MSTORE8, a=x), dict(op=SHR, a=1, b=x, code=GUARD), dict(op=SDIV, a=x),
                     dict(op=AND, a=x, b=65535), dict(op=AND, a=65535, b=x), dict(op=EQ, a=x, b=y), dict(op=EQ, a=x, b=x),
                     dict(op=ISZERO, a=x), dict(op=ISZERO, a=z), dict(op=SIGNEXTEND, a=2, b=x), dict(op=BYTE, b=y), dict(op=MLOAD, load=y),
                     dict(op=DIV, a=x), dict(op=REVERT)):
            t.install(nodes).do(**what)


def numbers():
    """"New records .. take the next free numbers in the order in which the Rust inserts their paths"; reading 2, 3"""
    t = Trace('numbers: sum').do(ADD, arg(96), arg(64)).do(ADD, arg(32, 3), arg(32, 2)).do(CALLDATALOAD, 100).do(BYTE, 0, arg(32, 3))
    t.do(ADD, arg(0, 4), arg(0, 4))
    t = Trace('numbers: product').load(64).do(MUL, slot(3, arg(0, 2)), slot(64, arg(96))).do(MUL, slot(64, arg(5)), arg(0, 4))
    t.do(SHL, slot(5, arg(3)), arg(0, 3)).do(MUL, arg(0, 2), arg(0, 2))
    t = Trace('numbers: shift').load(64).do(SHL, slot(5, arg(32)), arg(0, 2)).do(SHL, slot(5, arg(0, 2)), arg(0, 3))
    t.do(SHL, slot(5, arg(0, 5)), arg(0, 5))
    t = Trace('numbers: keys in any order', 40)
    for key in (320, 0, 640, 160, 480, 80, TOP - 4, 81, 79, 1, 319):
        t.do(ADD, arg(key), 1).do(ADD, arg(key, t.head[0]), 1)
    for key in (160, 640, 80, 1, 319, 0):
        t.do(CALLDATALOAD, key + 4).do(BYTE, 0, arg(0, 2)).do(CALLDATALOAD, arg(key, 1, 36))


def jumps(t, parent, key):
    """how many times in a row a walk to a key among a record's children goes to another number than the next one"""
    at, count, before = t.table[(parent - 1) * WIDTH + 2], 0, 0
    while at and at != before + 1 and t.table[(at - 1) * WIDTH] < key:
        before, count = at, count + 1
        at = t.table[(at - 1) * WIDTH + 3]
    return count


def lookups():
    """children learnt in no order, so many of them that `paths::near` looks at all records: what a step finds and makes must not tell"""
    shuffle = random.Random(32)
    t, keys = Trace('lookup: learnt in no order', 80), [20 * i for i in range(60)]
    shuffle.shuffle(keys)
    for key in keys:
        t.load(key)
    assert jumps(t, 1, 1180) > 9
    for key in (0, 1, 19, 20, 21, 590, 600, 1170, 1180, 1181):
        t.load(key).do(AND, arg(key), 255)
    # two chains through each other, their records seen, unseen and marked, with a few below their own
    under = [(1, 40 * i) for i in range(36)] + [(2, 12 * i) for i in range(24)]
    shuffle.shuffle(under)
    nodes = [(1, 2000, S)] + [(p, k, (S, {}, {NOT_BOOL: 1}, {**S, NAME: 1008, CONFIDENCE: 6, NOT_BOOL: 1})[i % 4]) for i, (p, k) in enumerate(under)]
    nodes += [(9, 0, {}), (30, 32, {}), (9, 64, {NOT_BOOL: 1})]
    used = len(nodes) + 1
    for free in (0, 1, 2):
        t = Trace(f'lookup: two chains, {free} free', used + free)
        for key, parent in ((0, 1), (520, 1), (1399, 1), (1400, 1), (1401, 1), (1999, 1), (2000, 1), (2001, 1), (0, 2), (156, 2), (275, 2), (276, 2),
                            (277, 2), (TOP, 2), (32, 9), (32, 30)):
            t.install(nodes).do(CALLDATALOAD, arg(key, parent, 36))
        assert jumps(t, 1, 2000) > 9 and jumps(t, 2, 276) > 9
        for a, b in ((arg(1400), arg(276, 2)), (arg(1399), arg(276, 2)), (arg(1400), arg(277, 2)), (arg(1399), arg(277, 2)), (arg(1399), arg(1399)),
                     (arg(1399), arg(1398))):
            t.install(nodes).do(ADD, a, b)
        for key in (1360, 1390):
            t.install(nodes).do(LT, arg(key), 9, code=guard())
