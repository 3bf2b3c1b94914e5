#!/usr/bin/env python3
"""Makes the vectors of crates/text_vectors: text_vectors.py stdin > crates/text_vectors/stdin, and stdout the same way.

The answers come from the model below: a reader of codes by document 01 ("Names and type codes") and the canonical names of the ABI specification, on
Python's lists and strings. It is not made from the definitions of specs/.
"""
import itertools
import random
import struct
import sys

BOOL, ADDRESS, BYTES, STRING, ARRAY, UINT, INT, FIXED, TUPLE = 1, 2, 3, 4, 5, 1000, 2000, 3000, 16384
MOST = 8192


def name(code):
    """the text of a code with no type inside, or None"""
    if code in (BOOL, ADDRESS, BYTES, STRING):
        return {BOOL: 'bool', ADDRESS: 'address', BYTES: 'bytes', STRING: 'string'}[code]
    if code in range(UINT + 8, UINT + 257, 8):
        return f'uint{code - UINT}'
    if code in range(INT + 8, INT + 257, 8):
        return f'int{code - INT}'
    if code in range(FIXED + 1, FIXED + 33):
        return f'bytes{code - FIXED}'
    return None


def text(codes):
    """the text of a list of codes, or None where they are no whole number of well-formed types"""
    done, opened = [], []  # opened: [is array, parts still to come, texts]
    for code in codes:
        if code == ARRAY:
            opened.append([True, 1, []])
            continue
        if code >= TUPLE + 2:
            opened.append([False, code - TUPLE, []])
            continue
        piece = name(code)
        if piece is None:
            return None
        while opened:
            top = opened[-1]
            top[2].append(piece)
            top[1] -= 1
            if top[1]:
                piece = None
                break
            opened.pop()
            piece = top[2][0] + '[]' if top[0] else '(' + ','.join(top[2]) + ')'
        if piece is not None:
            done.append(piece)
    return None if opened else ','.join(done)


def answer(codes, room):
    t = text(codes) if len(codes) <= MOST else None
    if t is None:
        return 'refused 10 kept'
    if len(t) > room:
        return 'refused 11 kept'
    total = 0
    for b in t.encode():
        total = (total * 31 + b) % 1_000_000_007
    return f'{len(t)} {t if len(t) <= 120 else total} kept'


VECTORS = []


def add(label, codes, room=65535, block=(), times=0):
    """the codes; those of a block so many times, first"""
    runs, first = ([(len(list(g)), c) for c, g in itertools.groupby(part)] for part in (codes, block))
    assert len(label) < 40 and len(first) + len(runs) <= 36 and room < 65536, (label, len(runs))
    VECTORS.append((label, list(block) * times + codes, first + runs, room, len(first), times))


def signatures():
    """the ABI specification's own signatures that are of this grammar, written with uint256 and without the function's name"""
    t = lambda *parts: [TUPLE + len(parts)] + [c for p in parts for c in p]
    u256, u32, b, by, st = [UINT + 256], [UINT + 32], [BOOL], [BYTES], [STRING]
    add('baz(uint32,bool)', u32 + b)
    add('sam(bytes,bool,uint256[])', by + b + [ARRAY] + u256)
    add('f(uint256,uint32[],bytes10,bytes)', u256 + [ARRAY] + u32 + [FIXED + 10] + by)
    add('g(uint256[][],string[])', [ARRAY, ARRAY] + u256 + [ARRAY] + st)
    s = t(u256, [ARRAY] + u256, [ARRAY] + t(u256, u256))
    add('f(S,T,uint256)', s + t(u256, u256) + u256)  # struct S {uint256 a; uint256[] b; T[] c;}, struct T {uint256 x; uint256 y;}
    add('transfer(address,uint256)', [ADDRESS] + u256)
    add('InsufficientBalance(uint256,uint256)', u256 + u256)
    add('foo(uint256)', u256)
    add('Event(uint256,bytes32)', u256 + [FIXED + 32])
    add('the empty list', [])


def widths():
    for n in range(0, 34):
        add(f'uint of {n} bytes', [UINT + 8 * n])
        add(f'int of {n} bytes', [INT + 8 * n])
        add(f'fixed bytes {n}', [FIXED + n])
    for code in (0, 1, 2, 3, 4, 6, 7, 999, 1000, 1007, 1009, 1257, 1999, 2007, 2009, 2257, 2999, 3033, 16383, 16384, 16385, 24576, 65535):
        add(f'code {code}', [code])


def shapes():
    u = UINT + 256
    add('array of nothing', [ARRAY])
    add('array with a type behind', [ARRAY, u, u])
    add('an array begins behind', [BOOL, ARRAY])
    add('a tuple begins behind', [BOOL, TUPLE + 2])
    add('no code behind', [BOOL, 0])
    add('array of no code', [ARRAY, 0])
    add('tuple of 0', [TUPLE])
    add('tuple of 1', [TUPLE + 1, u])
    add('tuple of 2', [TUPLE + 2, u, BOOL])
    add('tuple of 2, one missing', [TUPLE + 2, u])
    add('tuple of 2 with a type behind', [TUPLE + 2, u, BOOL, STRING])
    add('tuple of 3 in an array', [ARRAY, TUPLE + 3, u, BOOL, STRING])
    add('arrays in a tuple', [TUPLE + 2, ARRAY, u, ARRAY, ARRAY, BOOL])
    add('tuples in tuples', [TUPLE + 2, TUPLE + 2, u, BOOL, TUPLE + 2, STRING, BYTES])
    add('tuple ends an entry', [TUPLE + 2, u, BOOL, TUPLE + 2, u, BOOL, ADDRESS])
    add('unknown inside a tuple', [TUPLE + 2, u, 6])
    add('array last in a tuple', [TUPLE + 2, u, ARRAY, BOOL, ADDRESS])
    add('closers of three kinds', [ARRAY, TUPLE + 2, BOOL, ARRAY, TUPLE + 2, BOOL, ARRAY, u, STRING])
    add('more parts than any list has', [TUPLE + 8192] + [BOOL] * 8191)


def limits():
    for n in (1023, 2047, 4095, 8190, 8191, 8192):
        add(f'{n} arrays deep', [ARRAY] * n + [BOOL])
        add(f'{n} entries bool', [BOOL] * n)
        add(f'tuple of {n}', [TUPLE + n] + [UINT + 256] * n)
    for n in (511, 1023, 2047, 4095, 4096):
        # ((..(bool,bool),bool)..,bool): the first part of each tuple is the next tuple
        add(f'{n} tuples deep, first parts', [TUPLE + 2] * n + [BOOL] * (n + 1))
        # (bool,(bool,..(bool,bool)..)): the last part of each is, and all close behind one code
        add(f'{n} tuples deep, last parts', [BOOL], block=(TUPLE + 2, BOOL), times=n)
        # (bool,(bool,..)[])[]: an array around each
        add(f'{n * 2 // 3} tuples in arrays deep', [BOOL], block=(ARRAY, TUPLE + 2, BOOL), times=n * 2 // 3)
    add('8193 codes', [BOOL] * 8193)
    add('8193 codes in no room', [BOOL] * 8193, 0)
    add('8192 codes, the last wants a part', [BOOL] * 8190 + [TUPLE + 2, BOOL])
    add('8192 codes, the last is an array', [BOOL] * 8191 + [ARRAY])
    add('8192 codes of the longest text', [UINT + 256] * 8192)
    for room in (0, 1, 19, 20, 21, 22):
        add(f'uint256[],(bool,int8) in {room}', [ARRAY, UINT + 256, TUPLE + 2, BOOL, INT + 8], room)
    add('no text in no room', [], 0)
    add('8192 longest, one byte short', [UINT + 256] * 8192, 8192 * 8 - 2)
    add('8192 longest, room just enough', [UINT + 256] * 8192, 8192 * 8 - 1)
    add('too long and no types', [ARRAY], 0)


def random_lists():
    r = random.Random(1)

    def tree(depth):
        k = r.random()
        if depth == 0 or k < 0.5:
            return [r.choice((BOOL, ADDRESS, BYTES, STRING, UINT + 8 * r.randint(1, 32), INT + 8 * r.randint(1, 32), FIXED + r.randint(1, 32)))]
        if k < 0.75:
            return [ARRAY] + tree(depth - 1)
        n = r.randint(2, 4)
        return [TUPLE + n] + [c for _ in range(n) for c in tree(depth - 1)]

    made = 0
    while made < 300:
        codes = [c for _ in range(r.randint(1, 3)) for c in tree(3)]
        kind = r.random()
        if kind < 0.3 and codes:  # damaged: one code changed, lost or added
            i = r.randrange(len(codes))
            change = r.choice(('other', 'lost', 'added'))
            codes = codes[:i] + ([] if change == 'lost' else [r.choice((0, 5, 6, 1001, TUPLE + 1, TUPLE + 2, TUPLE + 5, BOOL))]) + codes[i + (change != 'added'):]
        if len(list(itertools.groupby(codes))) > 36:
            continue
        t = text(codes)
        room = 65535 if r.random() < 0.7 or t is None else max(0, len(t) + r.randint(-2, 1))
        add(f'random {made}', codes, room)
        made += 1


def packed_form(v):
    label, codes, runs, room, block, times = v
    head = label.encode().ljust(40, b'\0') + bytes([len(label), len(runs), block, 0]) + struct.pack('>HH', times, room)
    return (head + b''.join(struct.pack('>HH', n, c) for n, c in runs)).ljust(192, b'\0')


def main():
    for make in (signatures, widths, shapes, limits, random_lists):
        make()
    if sys.argv[1:] == ['stdin']:
        sys.stdout.buffer.write(b''.join(map(packed_form, VECTORS)))
    elif sys.argv[1:] == ['stdout']:
        for label, codes, runs, room, block, times in VECTORS:
            print(label, answer(codes, room))
    else:
        sys.exit(__doc__)


if __name__ == '__main__':
    main()
