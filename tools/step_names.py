"""Traces for the arms that name an argument: by a use, by a mask, by a zero test."""
from leaf_vectors import ISZERO, JUMPI, M, push
from step_model import ADD, AND, BYTE, CALLDATACOPY, CALLDATALOAD, EQ, GT, LT, MSTORE8, SDIV, SHL, SHR, SIGNEXTEND, SMOD
from step_trace import CALL_DATA, DIV, GUARD, JUMPDEST, NONE, STOP, TOP, Trace, arg, entry, guard, slot, zero_test


def names():
    """MSTORE8, SDIV, SMOD, SIGNEXTEND, BYTE: which operand"""
    t = Trace('mstore8', 30).do(MSTORE8, arg(0), arg(32)).do(MSTORE8, 1, arg(64)).do(MSTORE8, zero_test(96), 1)
    t.do(MSTORE8, arg(32, 1, 5, 255), 1, stack=[]).do(MSTORE8, arg(32), 1)
    t.do(LT, arg(128), 9, code=guard()).do(MSTORE8, arg(128)).do(ISZERO, zero_test(160)).do(MSTORE8, arg(160))
    t.do(CALLDATALOAD, arg(192, 1, 4))
    t.do(MSTORE8, arg(0, t.head[0]))
    for op in (SDIV, SMOD):
        t = Trace(f'signed {op:02x}', 30).do(op, arg(0), arg(32)).do(op, 1, arg(64)).do(op, zero_test(96), arg(96)).do(op, arg(128), 1)
        t.do(op, 1, 2).do(op, arg(160, 1, 4, 255), 0, stack=[])
        t.do(LT, arg(192), 9, code=guard()).do(op, arg(192), arg(0)).do(ISZERO, zero_test(224)).do(op, 3, arg(224))
        t.do(op, CALL_DATA, zero_test(256))
    t = Trace('signextend', 50)
    for size in (0, 1, 15, 30, 31, 32, 33, 255, 256, 1 << 32, 1 << 64, (1 << 64) + 1, 1 << 248, M - 1):
        t.do(SIGNEXTEND, size, arg(32 * (size % 40))).do(SIGNEXTEND, slot(size, arg(0)), arg(2000 + 32 * (size % 40), 1, 4, 255), stack=[])
    t.do(SIGNEXTEND, arg(0), 0).do(SIGNEXTEND, 0, zero_test(4000)).do(SIGNEXTEND, 1, arg(0)).do(ADD, arg(4032), 1)
    t.do(SIGNEXTEND, 1, arg(4032))
    t = Trace('byte').do(BYTE, 0, arg(0)).do(BYTE, 99, arg(32, 1, 4, 255), stack=[]).do(BYTE, arg(64), 0).do(BYTE, arg(64), arg(96))
    t.do(BYTE, 0, zero_test(128)).do(ADD, arg(160), 1).do(BYTE, 0, arg(160))


def confidences():
    """names of every confidence, each before and behind each other"""
    namings = [('byte', dict(op=BYTE, b=arg(0))), ('and', dict(op=AND, a=arg(0), b=65535)), ('bool', dict(op=ISZERO, a=zero_test(0))),
               ('range', dict(op=LT, a=arg(0), b=9, code=guard())), ('sdiv', dict(op=SDIV, a=arg(0))),
               ('bytes', dict(op=CALLDATACOPY, a=arg(0, 1, 4), memory=entry(0), pick=1)), ('mstore8', dict(op=MSTORE8, a=arg(0))),
               ('signextend', dict(op=SIGNEXTEND, a=1, b=arg(0))), ('shr bool', dict(op=SHR, a=1, b=arg(0), code=GUARD)),
               ('shl', dict(op=SHL, a=32, b=arg(0), code=GUARD)), ('eq', dict(op=EQ, a=arg(0), b=arg(0, 1, 0, 255)))]
    for first, one in namings:
        t = Trace(f'confidence: {first} before', 6)
        for _, two in namings:
            t.install([]).do(**one).do(**two)
    t = Trace('confidence: bool and its own mark').do(SHR, 1, arg(0), code=GUARD).do(LT, arg(0), 9, code=guard()).do(GT, arg(0), 9)
    t.do(SHR, 1, arg(0), code=GUARD)


def masks():
    """AND and EQ; reading 6"""
    two = slot(7, CALL_DATA) + slot(8, arg(5))
    t = Trace('and: masks', 60)
    for i, mask in enumerate((0, 1, 255, 511, 65535, (1 << 160) - 1, (1 << 168) - 1, M - 1, M - (1 << 224), M - (1 << 248), M - (1 << 8),
                              0xFF00, 1 << 255, M - 2, M - (1 << 223), 0xFF7F << 240)):
        t.do(AND, arg(32 * i), mask, stack=two).do(AND, slot(mask, CALL_DATA), slot(3, arg(32 * i, 1, 4)), stack=two)
    t = Trace('and: which operand', 30).load(0)
    for a, b in ((slot(255, arg(0)), slot(65535, arg(32))), (slot(255, arg(0, 1, 0, 9)), slot(65535, arg(32))),
                 (slot(255, arg(64)), slot(65535, arg(32, 1, 0, 9))), (arg(0, 1, 0, 9), slot(255, arg(0, 1, 0, 9))), (zero_test(96), 255),
                 (255, zero_test(96)), (255, CALL_DATA), (255, arg(96, 2, 7)), (slot(255, zero_test(96)), arg(128, 2))):
        t.do(AND, a, b, stack=two)
    t = Trace('eq', 40).load(0).do(CALLDATALOAD, arg(0, 1, 4))
    for i, m in enumerate((255, 511, 0, (1 << 160) - 1, M - 1, M - (1 << 224))):
        t.do(EQ, arg(200 + i), arg(200 + i, 1, 0, m)).do(EQ, arg(200 + i, 2, 4, m), arg(200 + i, 2, 4), stack=[])
    for a, b in ((arg(64), arg(96, 1, 0, 255)), (arg(64), arg(64, 1, 4, 255)), (arg(64), arg(64, 2, 0, 255)), (arg(64), arg(64)),
                 (arg(64, 1, 0, 255), arg(64, 1, 0, 255)), (arg(64, 1, 0, 255), arg(64, 1, 0, 511)), (arg(64), zero_test(64, 1, 0, 255)),
                 (zero_test(64), arg(64, 1, 0, 255)), (arg(64), CALL_DATA), (arg(64), 255), (arg(64, 1, 4), arg(64, 1, 4, 255)),
                 (arg(64), arg(64, 1, 0, 65535))):
        t.do(EQ, a, b)


def zeros():
    """ISZERO of an argument and of a zero test, and the division check"""
    t = Trace('iszero', 40).load(0)
    for lab in (arg(0), arg(32, 2, 4, 255), arg(TOP, 1, TOP, M - 1), CALL_DATA, NONE):
        t.do(ISZERO, lab, stack=slot(1) + slot(2, zero_test(7))).do(ISZERO, 1, lab)
    t.do(ISZERO, zero_test(0)).do(ISZERO, zero_test(32, 2, 4, 255)).do(ISZERO, 1, zero_test(64)).do(ISZERO, zero_test(96), arg(96))
    t.do(ADD, arg(128), 1).do(ISZERO, zero_test(128))
    t.do(BYTE, 0, arg(160)).do(ISZERO, zero_test(160)).do(AND, arg(192), 255).do(ISZERO, zero_test(192)).do(LT, arg(224), 9, code=guard())
    t.do(ISZERO, arg(224)).do(ISZERO, zero_test(224))
    t = Trace('iszero: division checks', 60)
    key = 0
    for size in (1, 2, 3, 4):
        whole = push(size + 3, size) + bytes([JUMPI, STOP, JUMPDEST, DIV])
        for code in (whole, whole[:-1], whole[:-2], whole[:size + 1], whole[:size], whole[:-1] + bytes([SDIV]),
                     whole.replace(b'\x57', b'\x56'), whole + b'\0', bytes([ISZERO]) + whole):
            t.do(ISZERO, zero_test(32 * key), code=code)
            key += 1
    t.do(ISZERO, zero_test(32 * key), code=push(8, 5) + bytes([JUMPI, STOP, JUMPDEST, DIV]))
    t.do(ISZERO, zero_test(32 * key + 32), code=b'\0\0' + push(6, 1) + bytes([JUMPI, JUMPDEST, DIV]), pc=2)
    t.do(ISZERO, zero_test(32 * key + 64), code=bytes([JUMPDEST, DIV]) + push(0, 1) + bytes([JUMPI]), pc=2)
    t.do(ISZERO, zero_test(32 * key + 96), code=bytes([JUMPDEST, DIV, 0x5F, JUMPI]), pc=2)
