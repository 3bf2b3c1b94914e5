#!/usr/bin/env python3
"""Makes the vectors of crates/leaf_vectors: leaf_vectors.py stdin > crates/leaf_vectors/stdin, and stdout the same way.

The answers come from the model below, which follows utils.rs, arguments/mod.rs and op.rs of evmole line by line on Python's integers and
bytes, and not from the definitions of specs/. Where document 01 decides otherwise than the Rust, a comment says so.
"""
import random
import struct
import sys

M = 1 << 256
ISZERO, JUMPI, JUMPDEST, DIV, LT, CALLDATASIZE, DUP1, AND = 0x15, 0x57, 0x5B, 0x04, 0x10, 0x36, 0x80, 0x16
PUSH0, PUSH1, PUSH3, PUSH4 = 0x5F, 0x60, 0x62, 0x63


# ---- the model: words

def mask_type(mask):
    if mask == 0:
        return 0
    if mask & ((mask + 1) % M) == 0 and mask.bit_length() % 8 == 0:
        bits = mask.bit_length()
        return 2 if bits == 160 else 1000 + bits
    left = int.from_bytes(mask.to_bytes(32, 'big'), 'little')
    if left & ((left + 1) % M) == 0 and left.bit_length() % 8 == 0:
        return 3000 + left.bit_length() // 8
    return 0


def kept(x):
    return str(x) if x < 1 << 32 else 'not kept'


def power(shift):
    return 1 << shift if shift < 256 else 0  # document 01: 0 from 256 on, whatever the low bits are


def multiplier(m):
    if m == 1:
        return 'one'
    if m == 2:
        return 'two'
    if m < 1 << 32 and m % 32 == 0 and m in range(32, 3200):
        return str(m // 32)
    return 'other'


def in_range(bound, less_than):
    if bound >= 1 << 32 or bound < less_than:
        return False
    return 1 <= bound - less_than <= 255


# ---- the model: opcodes

CLEARS = {0x04, 0x06, 0x03, 0x0A, 0x14, 0x15, 0x57, 0x54}
ENDS = {0x54, 0x55, 0x5C, 0x5D, 0x20, 0x31, 0x3B, 0x3F, 0x3C, 0xF1, 0xF2, 0xF4, 0xFA, 0xF0, 0xF5, 0xFF} | set(range(0xA0, 0xA5))
SLOT = {0x35, 0x01, 0x02, 0x1B, 0x10, 0x11, 0x16, 0x15, 0x51}


def opcode(op):
    push = op - PUSH0 if PUSH1 <= op <= PUSH4 else 0
    return ' '.join([yes(op in CLEARS), yes(op in ENDS), yes(op in SLOT), str(push)])


# ---- the model: readings of the code

def get(code, at):
    return code[at] if at < len(code) else None


def guard_failure_pc(code, pc, less_than):
    if get(code, pc) is None:
        return None
    inverted = code[pc] == ISZERO
    pc += inverted
    push = get(code, pc)
    if push is None or not PUSH1 <= push <= PUSH4:
        return None
    size = push - PUSH0
    if get(code, pc + 1 + size) != JUMPI:
        return None
    if less_than != inverted:
        return pc + 2 + size
    return int.from_bytes(code[pc + 1:pc + 1 + size], 'big')


EMPTY_REVERTS = [bytes.fromhex(s) for s in ('5f5ffd', '5f80fd', '5f6000fd', '60005ffd', '600080fd', '60006000fd')]


def is_empty_revert_guard(code, pc, less_than):
    place = guard_failure_pc(code, pc, less_than)
    if place is None or place > len(code):
        return False
    rest = code[place:]
    if rest[:1] == bytes([JUMPDEST]):
        rest = rest[1:]
    return any(rest.startswith(s) for s in EMPTY_REVERTS)


def is_division_check(code, pc):
    push = get(code, pc)
    if push is None or not PUSH1 <= push <= PUSH4:
        return False
    n = push - PUSH0
    rest = code[pc + 1:]
    if get(rest, n) != JUMPI:
        return False
    target = int.from_bytes(rest[:n], 'big')
    return get(code, target) == JUMPDEST and get(code, target + 1) == DIV


def words_of(size):
    if size < 4 or (size - 4) % 32:  # document 01: a length below 4 gives nothing
        return None
    return (size - 4) // 32


def direct_words(code, pc):
    pc += get(code, pc) == JUMPDEST
    push = get(code, pc)
    if push is None or not PUSH1 <= push <= PUSH4:
        return None
    size = push - PUSH0
    if get(code, pc + 1 + size) != CALLDATASIZE or get(code, pc + 2 + size) != LT:
        return None
    return words_of(int.from_bytes(code[pc + 1:pc + 1 + size], 'big'))


def dense_words(code, pc, packed):
    pc += get(code, pc) == JUMPDEST
    if get(code, pc) != DUP1:
        return None
    push = get(code, pc + 1)
    if push is None or not PUSH1 <= push <= PUSH3:
        return None
    size = push - PUSH0
    mask = code[pc + 2:pc + 2 + size]
    if [get(code, pc + k + size) for k in (2, 3, 4)] != [AND, CALLDATASIZE, LT]:
        return None
    if any(b != 0xFF for b in mask[:-1]) or mask[-1] != 0xFE:
        return None
    return words_of(packed & int.from_bytes(mask, 'big'))


# ---- vectors

def yes(b):
    return 'yes' if b else 'no'


def none(n):
    return 'none' if n is None else str(n)


def word(x):
    return '%064x' % x


KINDS = {
    1: lambda v: str(mask_type(v['x'])),
    2: lambda v: kept(v['x']),
    3: lambda v: kept((v['x'] + v['n']) % M),
    4: lambda v: word((v['x'] + v['y']) % M),
    5: lambda v: word(power(v['x'])),
    6: lambda v: multiplier(v['x']),
    7: lambda v: yes(in_range(v['x'], v['flag'])),
    8: lambda v: yes(v['x'] == v['y']),
    9: lambda v: yes(v['x'] == 0),
    10: lambda v: yes(v['x'] == M - 1),
    11: lambda v: yes(v['x'] == v['n']),
    12: lambda v: yes(v['x'] < v['n']),
    20: lambda v: opcode(v['n']),
    21: lambda v: none(guard_failure_pc(v['code'], v['n'], v['flag'])),
    22: lambda v: yes(is_empty_revert_guard(v['code'], v['n'], v['flag'])),
    23: lambda v: yes(is_division_check(v['code'], v['n'])),
    24: lambda v: none(direct_words(v['code'], v['n'])),
    25: lambda v: none(dense_words(v['code'], v['n'], v['x'])),
}
VECTORS = []


def add(name, kind, x=0, y=0, n=0, flag=False, code=b''):
    assert len(name) < 40 and len(code) <= 80, (name, len(code))
    VECTORS.append(dict(name=name, kind=kind, x=x, y=y, n=n, flag=flag, code=bytes(code)))


def packed_form(v):
    return (v['name'].encode().ljust(40, b'\0') + bytes([v['kind'], len(v['code']), v['flag'], len(v['name'])]) + struct.pack('>I', v['n'])
            + v['x'].to_bytes(32, 'big') + v['y'].to_bytes(32, 'big') + v['code'].ljust(80, b'\0'))


def masks():
    add('P2 mask 0', 1)
    add('P3 all ones', 1, M - 1)
    add('P4 2^160 - 1', 1, (1 << 160) - 1)
    add('P5 2^9 - 1', 1, (1 << 9) - 1)
    add('P6 four leading ff bytes', 1, M - (1 << 224))
    for n in range(1, 33):
        low, lead = (1 << 8 * n) - 1, M - (1 << (256 - 8 * n))
        add(f'mask low {n}', 1, low)
        add(f'mask leading {n}', 1, lead)
        add(f'mask low {n} shifted by a byte', 1, low << 8 & M - 1)
        add(f'mask low {n} less 1', 1, low - 1)
        add(f'mask low {n} plus 1', 1, (low + 1) % M)
        add(f'mask leading {n} plus 1', 1, (lead + 1) % M)
    for k in range(1, 256, 5):
        add(f'mask low bits {k}', 1, (1 << k) - 1)
        add(f'mask high bits {k}', 1, M - (1 << (256 - k)))


def words():
    for b in (0, 1, 2, 3, 254, 255, 256, 257, 1 << 32, (1 << 32) + 2, (1 << 64) + 2, M - 1):
        add(f'LT bound {b}' if b < M - 1 else 'LT bound max', 7, b, flag=True)
        add(f'GT bound {b}' if b < M - 1 else 'GT bound max', 7, b)
    for k in (0, 31, 32, 63, 64, 127, 128, 191, 192, 255):
        for d in (-1, 0, 1):
            x = (1 << k) + d
            name = f'2^{k}{d:+d}' if d else f'2^{k}'
            add(f'keep {name}', 2, x)
            add(f'zero {name}', 9, x)
            add(f'equals 1 {name}', 11, x, n=1)
            add(f'equals 2^31 {name}', 11, x, n=1 << 31)
            add(f'below 32 {name}', 12, x, n=32)
            add(f'below 2^31 {name}', 12, x, n=1 << 31)
            add(f'max less {name}', 10, M - 1 - x)
            add(f'equal {name}', 8, x, x)
            add(f'equal all but bit {k} {d}', 8, x, x ^ 1 << k)
            add(f'sum {name} and max', 4, x, M - 1)
            add(f'sum {name} twice', 4, x, x)
            add(f'sum kept {name} plus 4', 3, x, n=4)
            add(f'sum kept -{name} plus 2^32-1', 3, (M - x) % M, n=(1 << 32) - 1)
    add('sum of ones and one carries through', 4, M - 1, 1)
    add('sum of max and max', 4, M - 1, M - 1)
    for s in (0, 1, 5, 31, 32, 63, 64, 65, 127, 128, 191, 192, 254, 255, 256, 257, 261, 1 << 32, (1 << 32) + 5, (1 << 64) + 5, (1 << 192) + 1, M - 1):
        add(f'2 to the {s}' if s < 1 << 70 else f'2 to a shift of {s.bit_length()} bits', 5, s)
    for m in (0, 1, 2, 3, 31, 32, 33, 48, 64, 96, 3136, 3167, 3168, 3169, 3200, 1 << 31, 1 << 32, (1 << 32) + 1, (1 << 32) + 32, (1 << 64) + 2, (1 << 128) + 32, M - 32):
        add(f'multiplier {m}' if m < 1 << 70 else f'multiplier of {m.bit_length()} bits', 6, m)
    r = random.Random(1)
    for i in range(60):
        x, y = r.getrandbits(r.choice((33, 64, 65, 128, 200, 256))), r.getrandbits(256)
        add(f'sum random {i}', 4, x, y)
        add(f'sum kept random {i}', 3, (M - x) % M, n=min(x + i, (1 << 32) - 1))
        add(f'mask random {i}', 1, (M - 1) >> r.randrange(256) << r.randrange(256) & M - 1)


def opcodes():
    for op in range(256):
        add(f'opcode {op:02x}', 20, n=op)


def cuts(name, kind, code, pc=0, **rest):
    """the code, and the code cut off at every place"""
    for end in range(len(code) + 1):
        add(f'{name}{f" cut at {end}" if end < len(code) else ""}', kind, code=code[:end], n=pc, **rest)


def push(value, size):
    return bytes([PUSH0 + size]) + value.to_bytes(size, 'big')


def guards():
    for inverted in (b'', bytes([ISZERO])):
        turned = ' turned' if inverted else ''
        for size in (1, 2, 3, 4):
            for less in (True, False):
                cuts(f'guard{turned} push{size} {"<" if less else ">"}', 21, inverted + push(9, size) + bytes([JUMPI]), flag=less)
        add(f'guard{turned} push0', 21, code=inverted + bytes([PUSH0, JUMPI]), flag=True)
        add(f'guard{turned} push5', 21, code=inverted + push(9, 5) + bytes([JUMPI]), flag=True)
        add(f'guard{turned} no jumpi', 21, code=inverted + push(9, 2) + bytes([0x56]), flag=True)
        add(f'guard{turned} target ffffffff', 21, code=inverted + push(0xFFFFFFFF, 4) + bytes([JUMPI]), flag=bool(inverted))
    add('guard twice turned', 21, code=bytes([ISZERO, ISZERO]) + push(9, 1) + bytes([JUMPI]), flag=True)
    code = bytes([0, 0, 0]) + push(7, 2) + bytes([JUMPI])
    for pc in (0, 3, 4, 6, 7, 8, 80, (1 << 32) - 1):
        add(f'guard at pc {pc}', 21, code=code, n=pc, flag=True)


def reverts():
    for i, s in enumerate(EMPTY_REVERTS):
        for dest in (b'', bytes([JUMPDEST])):
            tag = f'revert {i + 1}{" jumpdest" if dest else ""}'
            cuts(f'{tag} behind', 22, push(9, 1) + bytes([JUMPI]) + dest + s, flag=True)
            head = push(5, 1) + bytes([JUMPI, 0xFE, 0xFE])
            cuts(f'{tag} at target', 22, head + dest + s, flag=False)
            add(f'{tag} wrong side', 22, code=head + dest + s, flag=True)
            for k in range(len(s)):
                for byte in (s[k] ^ 1, 0x01):
                    bad = s[:k] + bytes([byte]) + s[k + 1:]
                    add(f'{tag} byte {k} {byte:02x}', 22, code=push(9, 1) + bytes([JUMPI]) + dest + bad, flag=True)
        add(f'revert {i + 1} after two jumpdests', 22, code=push(9, 1) + bytes([JUMPI, JUMPDEST, JUMPDEST]) + s, flag=True)
        add(f'revert {i + 1} before more code', 22, code=push(9, 1) + bytes([JUMPI]) + s + b'\1\2', flag=True)
    add('revert with data', 22, code=push(9, 1) + bytes([JUMPI]) + bytes.fromhex('60206000fd'), flag=True)
    for target in (8, 9, 10, 80, 0xFFFFFFFF):
        add(f'revert target {target} of 9', 22, code=push(target, 4) + bytes([JUMPI]) + EMPTY_REVERTS[0], flag=False)


def divisions():
    for size in (1, 2, 3, 4):
        code = push(size + 4, size) + bytes([JUMPI, 0, 0, JUMPDEST, DIV])
        cuts(f'division push{size}', 23, code)
        add(f'division push{size} no div', 23, code=code[:-1] + bytes([0x05]))
        add(f'division push{size} no jumpdest', 23, code=code[:-2] + bytes([0x5A, DIV]))
    add('division turned', 23, code=bytes([ISZERO]) + push(5, 1) + bytes([JUMPI, 0, JUMPDEST, DIV]))
    add('division target ffffffff', 23, code=push(0xFFFFFFFF, 4) + bytes([JUMPI, JUMPDEST, DIV]))
    add('division at pc ffffffff', 23, code=push(3, 1) + bytes([JUMPI, JUMPDEST, DIV]), n=(1 << 32) - 1)


def lengths():
    for size in (1, 2, 3, 4):
        for dest in (b'', bytes([JUMPDEST])):
            cuts(f'length{" jumpdest" if dest else ""} push{size}', 24, dest + push(68, size) + bytes([CALLDATASIZE, LT]))
    for n in (0, 1, 3, 4, 5, 35, 36, 37, 67, 68, 255):
        add(f'length {n}', 24, code=push(n, 1) + bytes([CALLDATASIZE, LT]))
    for n in (131076, 131075, 0xFFFFFFFF, 0xFFFFFFE4):
        add(f'length {n}', 24, code=push(n, 4) + bytes([CALLDATASIZE, LT]))
    add('length push0', 24, code=bytes([PUSH0, CALLDATASIZE, LT]))
    add('length push5', 24, code=push(36, 5) + bytes([CALLDATASIZE, LT]))
    add('length gt', 24, code=push(36, 1) + bytes([CALLDATASIZE, 0x11]))
    add('length after two jumpdests', 24, code=bytes([JUMPDEST, JUMPDEST]) + push(36, 1) + bytes([CALLDATASIZE, LT]))
    for pc in (2, 3, 80, (1 << 32) - 1):
        add(f'length at pc {pc}', 24, code=b'\0\0' + push(36, 1) + bytes([CALLDATASIZE, LT]), n=pc)


def dense():
    tail = bytes([AND, CALLDATASIZE, LT])
    for size in (1, 2, 3):
        mask = push((1 << 8 * size) - 2, size)
        for dest in (b'', bytes([JUMPDEST])):
            cuts(f'packed{" jumpdest" if dest else ""} push{size}', 25, dest + bytes([DUP1]) + mask + tail, x=36)
        for packed in (0, 1, 3, 4, 5, 36, 37, 38, 68, 69, 0x10024, 0x1000044, M - 1, M - 220, (1 << 64) + 36, (1 << 255) + 101):
            name = str(packed) if packed < 1 << 70 else f'of {packed.bit_length()} bits {packed % 256}'
            add(f'packed push{size} {name}', 25, x=packed, code=bytes([DUP1]) + mask + tail)
    for bad in ('ff', 'fc', '7e', 'fefe', 'ffff', 'feff', '00fe', 'fffeff', 'fffefe', 'feffff', 'ffffff', '00fffe'):
        m = bytes.fromhex(bad)
        add(f'packed mask {bad}', 25, x=36, code=bytes([DUP1, PUSH0 + len(m)]) + m + tail)
    add('packed push4', 25, x=36, code=bytes([DUP1]) + push(0xFFFFFFFE, 4) + tail)
    add('packed push0', 25, x=36, code=bytes([DUP1, PUSH0]) + tail)
    add('packed dup2', 25, x=36, code=bytes([0x81]) + push(0xFE, 1) + tail)
    for k in range(3):
        add(f'packed tail byte {k} wrong', 25, x=36, code=bytes([DUP1]) + push(0xFFFE, 2) + tail[:k] + b'\1' + tail[k + 1:])
    add('packed at pc ffffffff', 25, x=36, n=(1 << 32) - 1, code=bytes([DUP1]) + push(0xFFFE, 2) + tail)


def main():
    for make in (masks, words, opcodes, guards, reverts, divisions, lengths, dense):
        make()
    if sys.argv[1:] == ['stdin']:
        sys.stdout.buffer.write(b''.join(map(packed_form, VECTORS)))
    elif sys.argv[1:] == ['stdout']:
        for v in VECTORS:
            print(v['name'], KINDS[v['kind']](v))
    else:
        sys.exit(__doc__)


if __name__ == '__main__':
    main()
