"""Traces for what comes before the arms: hints that are cleared, the range rule, and the end of the decoder phase."""
from leaf_vectors import EMPTY_REVERTS, ISZERO, JUMPI, M, push
from step_model import ADD, AND, BYTE, EQ, GT, LT, REVERT, SDIV, SHL, SHR
from step_trace import (CALL_DATA, DIV, DIVISION, EXP, GUARD, JUMP, JUMPDEST, MOD, NONE, RANGE, S, SLOAD, SLT, STOP, SUB, TOP, Trace, arg,
                        either, guard, slot, zero_test)
from table_vectors import BLOCKED, CONFIDENCE, NAME, NOT_BOOL


def hints():
    """the first phase: `clear_range_hint` and `clear_range_hints`; readings 4 and the range name's drop"""
    ranged = [(1, 0, RANGE), (1, 32, RANGE), (1, 64, {**S, NAME: 1008, CONFIDENCE: 5}), (2, 0, RANGE), (1, 96, {NOT_BOOL: 1}),
              (1, 128, {**S, NAME: 1, CONFIDENCE: 20})]
    for op in (DIV, MOD, SUB, EXP, EQ, ISZERO, JUMPI, SLOAD, REVERT, SDIV, JUMP, 0x55, 0x17, SLT):
        t = Trace(f'hints: op {op:02x}')
        for a, b in ((arg(0), arg(32)), (arg(0), 1), (1, arg(0)), (zero_test(0), arg(32)), (arg(32), zero_test(0)), (arg(64), arg(0, 2)),
                     (arg(0, 1, 9, 255), CALL_DATA), (arg(96), arg(160)), (arg(128), arg(128)), (arg(0, 6), arg(5, 3)), (CALL_DATA, NONE)):
            t.install(ranged).do(op, a, b)
        t.install(ranged, 0).do(op, arg(0), arg(0, 2))
    # EQ of two labels blocks; a blocked range name stops, made seen; other names go in
    t = Trace('hints: blocked by EQ').load(0).load(32).do(EQ, arg(0), arg(32)).do(LT, arg(0), 9, code=guard()).do(AND, arg(0), 255)
    t.do(EQ, arg(0), arg(64))
    t.do(LT, arg(64), 9, code=guard()).do(EQ, arg(64), arg(64)).do(LT, arg(64), 9, code=guard()).do(BYTE, 0, arg(64)).do(EQ, arg(64), 5)
    t.do(EQ, arg(64), arg(64))
    t = Trace('hints: unseen is not blocked').do(ADD, arg(0), 1).do(EQ, arg(0), arg(0)).load(0).do(EQ, arg(0), CALL_DATA)
    t.do(EQ, arg(0), zero_test(0)).do(EQ, arg(0), arg(0))
    t = Trace('hints: revert clears all').install(ranged).do(REVERT).do(STOP).install(ranged, 0).do(REVERT, arg(0), arg(32)).install(ranged)
    t.do(STOP).do(REVERT)
    # a range name, its loss and its place for another
    t = Trace('hints: named, cleared, named').do(LT, arg(0), 9, code=guard()).do(DIV, arg(0), 3).do(LT, arg(0), 9, code=guard())
    t.do(BYTE, 1, arg(0)).do(LT, arg(0), 9, code=guard())
    t.do(SUB, 9, arg(0)).do(BYTE, 1, arg(0)).do(LT, arg(0), 9, code=guard())


def range_rule():
    """"Range rule: a bound of 1 to 255 inclusive (LT's own bound is one more)"; by orientation, as the readings say"""
    for op, less, first in ((LT, True, True), (GT, True, False), (GT, False, True), (LT, False, False)):
        name = f'{"LT" if op == LT else "GT"}, argument {"first" if first else "second"}'
        range_bounds(name, op, less, first)
        range_codes(name, op, less, first)
    range_conditions()
    range_stops()
    range_places()


def range_bounds(name, op, less, first):
    t = Trace(f'range: {name}', 16)
    for i, b in enumerate((0, 1, 2, 9, 255, 256, 257, 258, 1 << 32, (1 << 32) + 2, 1 << 64, (1 << 64) + 9, M - 1)):
        a = arg(32 * i)
        t.do(op, *((a, b) if first else (b, a)), code=guard(less))


def range_codes(name, op, less, first):
    """every form of a guard with an empty revert, and codes that are none"""
    t = Trace(f'range: codes, {name}', 30)
    key = 0
    for turned in (False, True):
        for revert in range(6):
            a = arg(32 * key)
            t.do(op, *((a, 9) if first else (9, a)), code=guard(less, turned, revert, key % 2 == 0, 1 + key % 4))
            key += 1
    for code in (guard(not less), guard(less)[:-1], GUARD, b'', bytes([JUMPI]), guard(less).replace(b'\x57', b'\x56'),
                 guard(less, dest=False) + b'\1', bytes([ISZERO]) + guard(less), bytes([0x5F, JUMPI]) + EMPTY_REVERTS[0]):
        a = arg(32 * key)
        t.do(op, *((a, 9) if first else (9, a)), code=code)
        key += 1


def range_conditions():
    """what else the rule asks of the operands, and of the decoder phase"""
    conditions = ((arg(0), CALL_DATA), (arg(0), zero_test(5)), (arg(0), arg(32)), (zero_test(0), 9), (CALL_DATA, 9), (9, 9),
                  (arg(0, 1, 1), 9), (arg(0, 1, 0, 255), 9), (arg(0, 1, 0, 0), 9), (arg(0, 2), 9), (arg(32, 2), 9), (arg(1, 2), 9),
                  (arg(0), 9))
    for op in (LT, GT):
        for turned in (False, True):
            t = Trace(f'range: conditions of {op:02x}{" turned" if turned else ""}')
            for active in (1, 0):
                for a, b in conditions:
                    a, b = either(a), either(b)
                    b = slot(9, b[8:])
                    if turned:
                        a, b = b, a
                    t.install([(1, 64, S)], active).do(op, a, b, code=guard((op == LT) != turned))


def range_stops():
    """the rule stops the step even where the name did not go in, and its mark is set directly"""
    t = Trace('range: stops the step')
    t.install([(1, 0, {**S, NOT_BOOL: 1}), (1, 32, {**S, BLOCKED: 1}), (1, 64, {**S, NAME: 1, CONFIDENCE: 20}),
               (1, 96, {**S, NAME: 1008, CONFIDENCE: 5}), (1, 128, {**S, NAME: 2, CONFIDENCE: 8}), (1, 160, {NOT_BOOL: 1}), (1, 192, {}),
               (1, 224, {**S, NAME: 1, CONFIDENCE: 5})])
    for i in range(9):
        t.do(LT, arg(32 * i), 9, code=guard()).do(LT, arg(32 * i), 9, code=guard())
    t = Trace('range: at the root, offset 0').do(LT, 9, arg(0), code=guard(False)).do(LT, 0, arg(0), code=guard(False)).do(GT, arg(0), 31)
    t.do(LT, arg(0), 9)


def range_places():
    """places at the ends of pc and of a target: sums on them must not wrap"""
    t = Trace('range: pc at its end', 60)
    for pc in (0, 1, 8, 9, TOP - 7, TOP - 2, TOP - 1, TOP):
        t.do(LT, arg(pc % 64), 9, code=guard(), pc=pc).do(ISZERO, zero_test(64 + pc % 64), code=DIVISION, pc=pc)
        t.do(SHR, 8, arg(128 + pc % 64), code=GUARD, pc=pc)
    for target in (5, 6, 7, 8, TOP - 1, TOP):
        t.do(GT, arg(300 + target % 64), 9, code=push(target, 4) + bytes([JUMPI]) + EMPTY_REVERTS[0])
        t.do(ISZERO, zero_test(400 + target % 64), code=push(target, 4) + bytes([JUMPI, JUMPDEST, DIV]))
        t.do(ISZERO, zero_test(500 + target % 64), code=push(target, 4) + bytes([JUMPI, STOP, JUMPDEST]))


def decoder_phase():
    """"Each of SLOAD, .. ends the decoder phase": what needs it before and after"""
    t = Trace('decoder phase', 40)
    for i, op in enumerate((SLOAD, 0x55, 0x5C, 0x5D, 0x20, 0x31, 0x3B, 0x3F, 0x3C, 0xF1, 0xF2, 0xF4, 0xFA, 0xF0, 0xF5, 0xFF, 0xA0, 0xA4,
                            0xA5, 0x9F, 0xF3, 0x56)):
        t.beside(t.head[0], 1).do(op).do(LT, arg(32 * i), 9, code=guard())
    for op, a in ((SHL, 8), (SHR, 8)):
        t.beside(t.head[0], 1).do(op, a, arg(0), code=GUARD).beside(t.head[0], 0).do(op, a, arg(32), code=GUARD)
    t.beside(t.head[0], 1).do(0xF1, arg(800))
