"""Traces for calls, sums, shifts, products and comparisons."""
from leaf_vectors import ISZERO, JUMPI, M, push
from step_model import ADD, BYTE, CALLDATALOAD, CALLS, GT, LT, MUL, SHL, SHR
from step_trace import CALL_DATA, GUARD, NONE, RANGE, S, SLOAD, TOP, Trace, arg, either, entry, guard, slot, zero_test
from table_vectors import CONFIDENCE, NAME, SEEN


def calls():
    t = Trace('calls', 30)
    for i, op in enumerate(sorted(CALLS) + [0xF0, 0xF5, 0xF3]):
        t.beside(t.head[0], 1).do(op, arg(32 * i), 1).do(op, 1, arg(512 + 32 * i)).do(op, zero_test(32 * i), CALL_DATA)
        t.do(op, slot(9, arg(32 * i, 1, 4, 255)), 0, stack=[])
    t = Trace('calls: names before')
    t.install([(1, 0, {**S, NAME: 1, CONFIDENCE: 5}), (1, 32, RANGE), (1, 64, {**S, NAME: 1, CONFIDENCE: 20}),
               (1, 96, {**S, NAME: 1256, CONFIDENCE: 20}), (1, 128, {})])
    for i in range(5):
        t.do(0xF1, arg(32 * i))


def sums():
    """the two arms of ADD; readings 2, 12"""
    two = slot(7) + slot(8, CALL_DATA)
    t = Trace('sum: two labels', 40).load(0).do(CALLDATALOAD, arg(0, 1, 4)).do(CALLDATALOAD, arg(32, 2, 4)).load(96)
    for a, b in ((arg(0, 2), arg(64)), (arg(64), arg(0, 2)), (arg(64, 1, 4), arg(96, 1, 5)), (arg(0, 3, 1, 255), arg(0, 2, 2)),
                 (arg(0, 2, 2, 7), arg(0, 3, 1)), (arg(0, 2, 1), arg(0, 4, 1, 9)), (arg(0, 3, 9), arg(32, 3, 7)),
                 (arg(32, 3, 9, 0), arg(0, 3, 7)), (arg(0, 1, TOP), arg(32, 1, 0)), (arg(0, 1, TOP), arg(32, 1, 1)),
                 (arg(0, 3, 1), arg(32, 1, TOP)), (arg(160), arg(160)), (arg(224), arg(192)), (arg(0, 1, TOP), arg(0, 1, TOP))):
        t.do(ADD, slot(3, a), slot(4, b), stack=two)
    t = Trace('sum: a label and a constant', 60).load(0).do(CALLDATALOAD, arg(0, 1, 4))
    for other in (0, 1, 4, TOP, TOP + 1, 1 << 64, 1 << 255, M - 4, M - 1):
        for lab in (arg(0, 2), arg(0, 1), arg(32, 2), arg(0, 2, 4), arg(32, 1, 1), arg(0, 2, TOP, 255), arg(0, 2, 0, 9)):
            t.do(ADD, slot(0, lab), other, stack=two)
            t.do(ADD, slot(other, (NONE, CALL_DATA, zero_test(0))[other % 3]), slot(other % 2, lab), stack=two)
    # drops a bool or a range name, keeps others
    t = Trace('sum: marks')
    t.install([(1, 0, {**S, NAME: 1, CONFIDENCE: 5}), (1, 32, RANGE), (1, 64, {**S, NAME: 2, CONFIDENCE: 5}),
               (1, 96, {**S, NAME: 1, CONFIDENCE: 20}), (1, 128, {})])
    for i in range(6):
        t.do(ADD, 1, arg(32 * i)).do(ISZERO, zero_test(32 * i))
    t = Trace('sum: no label').do(ADD, 1, 2).do(ADD, CALL_DATA, 2).do(ADD, zero_test(0), CALL_DATA)


def shifts():
    """SHL: the root's arm, else the length's; reading 7"""
    t = Trace('SHL at the root', 60)
    for i, shift in enumerate((0, 1, 7, 8, 9, 16, 160, 248, 256, 257, 264, TOP + 1, (1 << 64) + 8, (1 << 64), (1 << 128) + 16, M - 8,
                               M - 1)):
        t.do(SHL, shift, arg(32 * i), code=GUARD)
    for i, code in enumerate((b'', GUARD[:-1], bytes([ISZERO]) + GUARD, guard(), push(1, 4) + bytes([JUMPI]), push(1, 5) + bytes([JUMPI]),
                              bytes([0x5F, JUMPI]))):
        t.do(SHL, 8, arg(1000 + i), code=code)
    t.do(SHL, arg(0), 8, code=GUARD).do(SHL, slot(8, arg(2000)), arg(0, 1, 9, 255), code=GUARD)
    t.do(SHL, slot(8, CALL_DATA), arg(0, 1, 9), code=GUARD).do(SHL, 8, zero_test(4000), code=GUARD)
    t = Trace('SHL of a length', 60).load(0).do(CALLDATALOAD, arg(0, 1, 4)).load(32)
    for shift in (0, 1, 2, 4, 5, 6, 11, 12, 31, 32, 255, 256, 257, 261, 1 << 32, (1 << 32) + 5, 1 << 64, (1 << 64) + 5, (1 << 64) + 1,
                  M - 1):
        t.do(SHL, shift, arg(0, 2), stack=slot(6, arg(0, 2, 0, 255)) + slot(7, arg(0, 2, 4)) + slot(8))
    for lab in (arg(0, 2, 1), arg(32, 2), arg(0, 3), zero_test(0, 2), arg(0, 2, 0, 255)):
        t.do(SHL, 5, lab).do(SHL, lab, 5)
    t.do(SHL, slot(5, arg(600)), arg(0, 2)).do(SHL, slot(6, arg(0, 3)), arg(0, 2))
    t = Trace('SHL at the root, not active', 60).load(0).do(SLOAD)
    for lab in (arg(0), arg(32), arg(0, 1, 4), arg(0, 2), arg(0, 1, 0, 255)):
        t.do(SHL, 8, lab, code=GUARD).do(SHL, slot(0, arg(96)), lab, code=GUARD)


def shifts_right():
    """SHR: widths and guards"""
    t = Trace('SHR', 60)
    for i, width in enumerate((0, 1, 2, 7, 8, 9, 16, 152, 159, 160, 161, 168, 248, 255, 256, 264, 1 << 32, (1 << 64) + 8, (1 << 64) + 1,
                               M - 8)):
        t.do(SHR, width, arg(32 * i), code=GUARD).do(SHR, width, arg(32 * i, 1, 4, 255), code=GUARD)
    for i, code in enumerate((b'', GUARD[:-1], bytes([ISZERO]) + GUARD, guard(), bytes([0x5F, JUMPI]), push(1, 5) + bytes([JUMPI]))):
        t.do(SHR, 8, arg(1000 + i), code=code)
    t.do(SHR, arg(0), 8, code=GUARD).do(SHR, 8, zero_test(3000), code=GUARD).do(ADD, arg(3200), 1).do(SHR, 1, arg(3200), code=GUARD)
    t.do(SHR, 16, arg(3200), code=GUARD)
    t.do(SHR, 24, arg(3200), code=GUARD).do(BYTE, 0, arg(3232)).do(SHR, 1, arg(3232), code=GUARD).do(SLOAD)
    t.do(SHR, 8, arg(3264), code=GUARD)


def products():
    """MUL: the length's arm by its first operand or its second, then the general one; P9; readings 2, 11, 13"""
    for m in (0, 1, 2, 3, 31, 32, 33, 48, 64, 3136, 3167, 3168, 3169, 3200, 1 << 31, 1 << 32, (1 << 32) + 32, (1 << 64) + 2, M - 32):
        t = Trace(f'multiplier {m if m < M - 32 else "of 256 bits"}', 8).load(0).do(CALLDATALOAD, arg(0, 1, 4))
        t.do(MUL, arg(0, 2), m, stack=slot(6, arg(0, 2)) + slot(7)).do(MUL, m, arg(0, 2)).do(MUL, arg(0), m).do(MUL, m, arg(32))
    t = Trace('product: which operand', 40).load(0).do(CALLDATALOAD, arg(0, 1, 4)).load(32).do(CALLDATALOAD, arg(32, 1, 4))
    for a, b in ((arg(0, 2), slot(32, arg(0, 3))), (slot(64, arg(0, 3)), slot(96, arg(0, 2))), (slot(64, arg(4, 3)), slot(96, arg(0, 2))),
                 (slot(64, arg(0, 3, 1)), slot(96, arg(0, 2))), (slot(64, arg(0, 2)), slot(96, arg(0, 3, 1))),
                 (slot(1, arg(0)), slot(32, arg(0, 2))), (slot(32, arg(0, 2)), slot(1, arg(0))), (arg(5, 2), arg(6, 2)), (9, arg(7, 2)),
                 (zero_test(0, 2), 32), (CALL_DATA, arg(8, 2)), (arg(0, 2, 0, 255), 32), (arg(0, 2, 0, 255), slot(32, CALL_DATA)),
                 (arg(0, 2), slot(64, zero_test(0, 3))), (arg(9, 2), arg(0, 2, 4))):
        t.do(MUL, a, b)


def array_words():
    """an array mark gives the word 1 to every slot and entry of that length, masked or not; the top has the multiplier"""
    slots = slot(9, arg(0, 2)) + slot(10, arg(0, 3)) + slot(11, arg(0, 2, 0, 255)) + slot(12, arg(0, 2, 4)) + slot(13, arg(32, 2))
    slots += slot(14, zero_test(0, 2)) + slot(M - 1, arg(0, 2))
    entries = entry(0, arg(0, 2)) + entry(32, arg(0, 2, 0, 0), 1) + entry(64, arg(0, 3)) + entry(96, zero_test(0, 2))
    entries += entry(96, arg(0, 2, 1)) + entry(128, CALL_DATA)
    t = Trace('product: words of an array').install([(1, 0, {}), (2, 32, {**S, SEEN: 0})])
    for op, a, b in ((MUL, arg(0, 2), 64), (MUL, 32, arg(0, 2)), (SHL, 6, arg(0, 2)), (MUL, arg(0, 2), 1), (MUL, arg(0, 2), 2),
                     (MUL, arg(0, 2), 33), (MUL, arg(0, 3), 96), (MUL, arg(0), 32)):
        t.do(op, a, b, stack=slots, memory=entries)
    t.do(MUL, arg(0, 2), 160, stack=slots[:21]).do(MUL, arg(0, 2), 160, stack=slots + slot(6))


def product_names():
    """names of the multipliers: bytes at 10 and string at 20 name the path itself"""
    t = Trace('product: names').load(0).do(CALLDATALOAD, arg(0, 1, 4)).do(MUL, arg(0, 2), 1).do(MUL, arg(0, 2), 2).do(MUL, arg(0, 2), 1)
    t.do(SHL, 0, arg(0, 2)).do(SHL, 1, arg(0, 2))
    t.do(CALLDATALOAD, arg(0, 2, 4)).do(SHL, 1, arg(0, 3)).do(SHL, 0, arg(0, 3)).do(ADD, arg(0, 2), 1).do(MUL, arg(0, 3), 1)


def general_arm():
    """LT, GT and MUL of arguments that are no lengths: range names are left alone"""
    ranged = [(1, 0, RANGE), (1, 32, S), (1, 64, {**S, NAME: 1, CONFIDENCE: 5}), (2, 0, RANGE)]
    for op in (MUL, LT, GT):
        t = Trace(f'general arm of {op:02x}: range names')
        for a, b in ((arg(0), 300), (300, arg(0)), (arg(32), arg(0)), (arg(0), arg(32)), (arg(64), 300), (300, arg(64)), (arg(0, 2), 300),
                     (300, arg(0, 2)), (arg(0, 2, 1), 300), (arg(0, 2, 0, 255), arg(64)), (zero_test(0), arg(64)), (300, zero_test(64)),
                     (300, CALL_DATA), (arg(96), 300)):
            t.install(ranged).do(op, a, b).install(ranged, 0).do(op, a, b)


def lengths():
    """the length arm of LT (second operand) and of GT (first operand); reading 5"""
    for op in (LT, GT):
        t = Trace(f'length arm of {op:02x}', 30).load(0).do(CALLDATALOAD, arg(0, 1, 4))
        for lab in (arg(0, 2), arg(0), arg(0, 2, 1), arg(32, 2), arg(0, 2, 0, 255), zero_test(0, 2)):
            for ot in (0, 1, 30, 31, 32, 1 << 32, (1 << 64) + 31, M - 1, slot(31, arg(64)), slot(0, CALL_DATA), slot(0, zero_test(5)),
                       slot(0, arg(0, 2))):
                ot = either(ot)
                t.do(op, *((ot, slot(7, lab)) if op == LT else (slot(7, lab), ot)))
        t.do(op, *((arg(0, 2), 0) if op == LT else (0, arg(0, 2))))
        # it comes first, and looks for no range name
        t = Trace(f'length arm of {op:02x}: range name').install([(1, 0, RANGE), (2, 0, RANGE)])
        for lab in (arg(0), arg(0, 2)):
            t.do(op, *((slot(300), lab) if op == LT else (lab, slot(300))))
