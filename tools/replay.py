#!/usr/bin/env python3
"""Makes the traces of crates/replay and crates/trace_printer: replay.py stdin > crates/replay/stdin, and stdout the same way; replay.py p1-stdin >
crates/trace_printer/stdin, and p1-stdout the same way.

The lines come from the model of closing_model.py, which takes the steps by the model of step_model.py. Each trace has a name, which is printed; the functions
below say which sentence of document 01 or which lines of the Rust their traces are for. Where the things stand that are easy to get wrong:
- input refused, by each kind, at each place; what is met first: 'sizes: ..', 'order: ..', 'cut: ..'
- refusals of a step, and of the closing: 'refused: ..', 'full: ..'
- P1, P2 to P6, P7 to P12 and the bounds of LT: 'P1' to 'P12: ..', 'LT bound ..'
- the readings that document 01 rules out: 'ruled out: ..'
- has_dynamic, the bare array, the limit of 4,096, unseen records made seen: 'fill: ..'
- which names hold, ends in bytes, pairs and arrays, key 0: 'type: ..'
- the deepest nesting: 'deep: ..'
- long chains that jump about: 'lookup: ..'

Behind these come 240 whole runs of the published Rust's machine on generated contracts, 'published: ..', each with the list of its own `function_arguments`: the files
published.stdin and published.stdout beside this script, which `host/target/release/harness sample 4 240` made (host/README.md).
"""
import pathlib
import random
import struct
import sys

import closing_model as model
from leaf_vectors import CALLDATASIZE, DUP1, JUMPDEST, LT as LT_OP, M, AND as AND_OP, push
from step_model import ADD, AND, BYTE, CALLDATACOPY, CALLDATALOAD, EQ, ISZERO, LT, MUL, SDIV, SHL, SHR, SIGNEXTEND, numbers_of_word
from step_random import CODES, OPS, WORDS, random_label, random_slot
from step_trace import CALL_DATA, NONE, arg, entry, guard, slot, step_numbers, zero_test

TOP = 2**32 - 1
TRACES = []
ONE = slot(5)


# ---- traces as bytes

def u32(*numbers):
    return struct.pack(f'<{len(numbers)}I', *numbers)


def group(numbers, stack=ONE, memory=(), slots=None, entries=None):
    """a step with its lists; `slots` and `entries` replace the counts"""
    counts = len(stack) // 21 if slots is None else slots, len(memory) // 15 if entries is None else entries
    return u32(*numbers, *counts, *stack, *memory)


def step(op, a=0, b=0, stack=ONE, memory=(), **more):
    return group(step_numbers(op, a, b, **more), list(stack), list(memory))


def header(code=b'', start=0, flag=0, packed=0, length=None):
    return u32(len(code) if length is None else length, start, flag, *numbers_of_word(packed)) + code


def add(name, *steps, code=b'', start=0, packed=None, word=0, count=None, after=b''):
    """`packed` is the word at flag 1; `word` the one at flag 0"""
    head = header(code, start, int(packed is not None), word if packed is None else packed)
    raw(name, head + u32(len(steps) if count is None else count) + b''.join(steps) + after)


def raw(name, data):
    assert len(name) < 40 and all(n != name for n, _ in TRACES), name
    TRACES.append((name, data))


# ---- facts by steps: each makes or changes the fact at a path

def load(key):
    """an argument word is read: a fact at a key of the root, up to 130,043"""
    return step(CALLDATALOAD, key + 4)


def see(key, parent=1):
    """the fact under a record, made seen without a name or kind: bytes32 at 4, which a stronger name replaces"""
    return step(CALLDATALOAD, arg(key, parent, 4))


def dynamic(key, parent=1, count=0):
    return step(CALLDATALOAD, arg(key, parent, 4 + 32 * count))


def array(record, count):
    """an array mark at a record; it makes the record of its length, at key 0, unseen"""
    return step(MUL, arg(0, record), 32 * count)


def named(key, parent, name):
    """a name at a path, by the step that gives it"""
    x = arg(key, parent)
    if name == 1:
        return step(ISZERO, zero_test(key, parent))
    if name == 2:
        return step(AND, x, (1 << 160) - 1)
    if 1000 < name < 2000:
        return step(AND, x, (1 << name - 1000) - 1)
    if 2000 < name < 3000:
        return step(SIGNEXTEND, (name - 2000) // 8 - 1, x)
    return step(AND, x, M - (1 << 256 - 8 * (name - 3000)))


def text_name(record, name):
    """bytes (3) or string (4) at a record other than the root, by a multiplier of its length"""
    return step(MUL, arg(0, record), name - 2)


def direct(words, size=2, dest=False, extra=0):
    return bytes([JUMPDEST] if dest else []) + push(4 + 32 * words + extra, size) + bytes([CALLDATASIZE, LT_OP])


def dense(size=2, dest=False):
    return bytes([JUMPDEST] if dest else []) + bytes([DUP1]) + push((1 << 8 * size) - 2, size) + bytes([AND_OP, CALLDATASIZE, LT_OP])


P1 = [load(0), dynamic(0), array(2, 1)]


# ---- the input

def sizes():
    """"Input that is short, over these sizes, has a packed flag above 1 or bytes after the last step prints `input refused`\""""
    for n in (24575, 24576):
        add(f'sizes: code of {n} bytes', load(0), code=bytes(n))
    for n in (24577, 65536, TOP):
        raw(f'sizes: code of {n} bytes', header(bytes(24577), length=n) + u32(0))
    for flag in (0, 1, 2, TOP):
        raw(f'sizes: packed flag {flag}', header(dense(), flag=flag, packed=68) + u32(0))
    full = [n for i in range(256) for n in slot(i, CALL_DATA)], [n for i in range(256) for n in entry(32 * i)]
    add('sizes: 256 slots', group(step_numbers(ADD, arg(0), 4), full[0]), load(32))
    add('sizes: 256 entries', group(step_numbers(CALLDATACOPY, 36, 0, pick=256), ONE, full[1]))
    add('sizes: 256 slots and 256 entries', group(step_numbers(CALLDATACOPY, 68, 0, pick=1), *full))
    for slots, entries in ((257, 0), (0, 257), (257, 257), (TOP, 0), (0, TOP), (256, 257)):
        add(f'sizes: {slots} slots {entries} entries', load(0), group(step_numbers(CALLDATALOAD, 36), [], [], slots, entries) + bytes(40000))
    add('sizes: nothing', count=0)
    for n in (1, 2, 4, 1000):
        add(f'sizes: {n} bytes after the last step', *P1, after=bytes(n))
    add('sizes: a step after the last one', *P1, load(32), count=3)
    add('sizes: a byte after none', count=0, after=b'\1')
    for count in (1, 4, TOP):
        add(f'sizes: {count} steps told of 3', *P1, count=count)
    add('packed word at flag 0', load(0), word=M - 1, code=dense())
    add('packed word at flag 1', load(0), packed=68, code=dense())
    add('start pc beyond the code', load(0), start=TOP, code=direct(3))
    raw('empty input', b'')


def order():
    """a group is read whole before its step is put; steps are taken while reading; bytes after the last step are met before the closing"""
    bad = step_numbers(256)
    add('order: 257 slots and a bad op', group(bad, slots=257) + bytes(30000))
    add('order: a bad op, cut in its slots', group(bad)[:-1])
    add('order: a bad op, then a cut-off step', group(bad) + load(0)[:7], count=2)
    add('order: a bad op, then 257 slots', group(bad), group(step_numbers(0), slots=257))
    add('order: a bad op, then bytes', group(bad), after=b'more')
    add('order: bytes before a full table', code=direct(1480), after=b'\0')
    add('order: a full table at the closing', code=direct(1480))
    add('order: bad label and bad op', group(step_numbers(256, label_of(4))))
    add('order: bad op and no slot', group(step_numbers(ADD, arg(0), 4, pick=1), []))
    add('order: second step refused', load(0), group(bad), load(32))


def label_of(kind, *rest):
    return [kind] + list(rest) + [0] * (12 - len(rest))


def cuts():
    """a short trace, cut at every place"""
    data = header(b'\x5b\0\1') + u32(1) + group(step_numbers(CALLDATALOAD, 36), slot(1), entry(32))
    for n in range(len(data)):
        raw(f'cut: at {n} of {len(data)}', data[:n])
    raw('cut: whole', data)


def refusals():
    """"a refused step or closing prints `refused N at S`": 5 to 8 for a step, 8 for the closing. 1 to 4 and 9 can't be met here: the table and the type slice are
    the printer's own, and the sizes of the input lie below those of questions 3 and 4"""
    add('refused: 5 by a kind', group(step_numbers(ADD, label_of(4))))
    add('refused: 5 by a path', group(step_numbers(ADD, arg(0, 2))))
    add('refused: 5 by path 0', group(step_numbers(ADD, arg(0, 0))))
    add('refused: 5 in the stack', group(step_numbers(0), slot(1, label_of(1, 1))))
    add('refused: 5 in the memory', group(step_numbers(0), ONE, entry(0, arg(0, 9))))
    add('refused: 5 by a replaced mark', group(step_numbers(0), ONE, entry(0, NONE, 2)))
    add('refused: 5 in the load label', group(step_numbers(0, load=arg(0, 3))))
    add('refused: 5 by a mask that is not used', group(step_numbers(ADD, [2, 0, 1, 0, 0] + [0] * 7 + [1])))
    add('refused: 6 by op 256', load(0), group(step_numbers(256)))
    add('refused: 6 by pick', group(step_numbers(0, pick=1)))
    add('refused: 6 by a load flag', group(step_numbers(0, flag=2)))
    add('refused: 6 by a flag without a label', group(step_numbers(0, flag=1)))
    add('refused: 6 by a label without a flag', group(step_numbers(0, flag=0, load=CALL_DATA)))
    add('refused: 6 by a long copy', group(step_numbers(CALLDATACOPY, 4, 1 << 32)))
    add('taken: a copy of 2^32 - 1 bytes', group(step_numbers(CALLDATACOPY, 4, TOP)))
    for op in (CALLDATALOAD, ADD, MUL, SHL, LT, 0x11, AND, ISZERO, 0x51):
        add(f'refused: 7 by op {op:02x}', load(0), group(step_numbers(op), []))
    add('taken: no slot for SHR', group(step_numbers(SHR), []), load(0))


def full():
    """"the table has 1,480 records": question 8"""
    steps = [group(step_numbers(ADD, arg(64 * i), arg(64 * i + 32)), ONE) for i in range(739)]
    add('full: 1,479 records, two asked', *steps, group(step_numbers(ADD, arg(1 << 20), arg(1 << 21))))
    add('full: 1,480 records', *steps, group(step_numbers(ADD, arg(1 << 20), 1)), load(0), load(64))
    add('full: 1,480 records, one asked', *steps, group(step_numbers(ADD, arg(1 << 20), 1)), load(0), load(32 * 2000))
    add('full: fill of unseen records', *steps, group(step_numbers(ADD, arg(1 << 20), 1)), code=direct(1478, 4))
    add('full: fill asks one record', *steps, group(step_numbers(ADD, arg(1 << 20), 1)), code=direct(1479, 4))
    add('full: fill of 1,479', code=direct(1479))
    add('full: fill of 1,480', code=direct(1480))
    add('full: fill of 1,480, one of them there', load(32), code=direct(1480))
    add('full: fill of 1,479, one elsewhere', load(33), code=direct(1479))


# ---- the readings of document 01

def bench():
    add('P1', *P1)
    for name, mask in (('P2: mask 0', 0), ('P3: all ones', M - 1), ('P4: 2^160 - 1', (1 << 160) - 1), ('P5: 2^9 - 1', 511), ('P6: four leading ff bytes', M - (1 << 224))):
        add(name, load(0), step(AND, arg(0), mask))
    add('P7: load at 3', load(-1))
    for offset in (130047, 130048):
        add(f'P8: load at {offset}', step(CALLDATALOAD, offset))
    for m in (3168, 3200):
        add(f'P9: multiplier {m}', load(0), dynamic(0), step(MUL, arg(0, 2), m))
    for name, key in (('P10', 262080), ('P11', 262112)):
        add(f'{name}: lone argument at key {key}', named(key, 1, 1256))
    for n in (64, 65):
        add(f'P12: chain of {n} keys 0', *(named(0, r, 1256) for r in range(1, n + 1)))
    for op, name in ((LT, 'LT'), (0x11, 'GT')):
        for first in (True, False):
            less = (op == LT) == first
            for bound in (0, 1, 2, 255, 256, 257):
                a, b = (arg(0), bound) if first else (bound, arg(0))
                add(f'{name} bound {bound}, argument {"first" if first else "second"}', load(0), step(op, a, b), code=guard(less))


def ruled_out():
    """"Ruled out: testing a mask for leading ff bytes first ..; counting only named facts in the budget; giving a child at a key such as 33 an entry with its own
    type; giving an array an entry for its child at key 0\""""
    add('ruled out: bytes32 for all ones', load(0), step(AND, arg(0), M - 1))
    add('ruled out: only named facts counted', load(0), load(64), named(32, 1, 2))
    add('ruled out: an entry for key 33', load(0), named(33, 1, 2))
    add('ruled out: an entry for key 1', named(1, 1, 2))
    add('ruled out: key 33 in a tuple', dynamic(0), dynamic(0, 1, 2), named(33, 2, 2), named(64, 2, 1))
    add("ruled out: an array's entry for key 0", load(0), array(2, 2), named(0, 2, 2), named(32, 2, 1))


def types():
    """reading 16, and each kind of type"""
    for name in [1, 2] + list(range(1008, 1257, 8)) + list(range(2008, 2257, 8)) + list(range(3001, 3033)):
        add(f'type: {model.text_of(("name", name))} {name}', load(0), named(0, 1, name))
    add('type: string', load(0), dynamic(0), text_name(2, 4))
    add('type: bytes', load(0), dynamic(0), text_name(2, 3))
    add('type: int256', load(0), step(SDIV, arg(0), 3))
    add('type: bytes32 by BYTE', load(0), step(BYTE, 0, arg(0)))
    add('type: all in a row', *(named(32 * i, 1, n) for i, n in enumerate((1, 2, 1008, 1256, 2064, 3004, 3032))), dynamic(224), text_name(9, 4))
    add('type: dynamic 0', load(0), dynamic(0))
    for n in (1, 2, 3, 100):
        add(f'type: dynamic {n}', load(0), dynamic(0, 1, n))
    for n in (1, 2, 3, 99):
        add(f'type: array {n}', load(0), array(2, n))
    add('type: a name lost with a seen child', named(0, 1, 2), named(0, 2, 1))
    add('type: a name kept with an unseen child', named(0, 1, 2), step(ADD, arg(0, 2), 1))
    add('type: a name kept with dynamic', dynamic(0), named(0, 1, 2))
    add('type: a name lost with an array', load(0), array(2, 1), named(0, 1, 2))
    for n in (None, 0, 1, 2):
        steps = [load(0), text_name(2, 3), named(32, 2, 2)] + ([] if n is None else [dynamic(0, 1, n)])
        add(f'type: bytes with a child, dynamic {n}', *steps)
    add('type: bytes and an array', load(0), text_name(2, 3), array(2, 1))
    for key in (0, 5, 31, 32, 33, 63, 64):
        add(f'type: dynamic with last key {key}', dynamic(0), named(key, 2, 2))
        add(f'type: dynamic 1 with a child at {key}', dynamic(0, 1, 1), named(key, 2, 2))
        add(f'type: no kind with a child at {key}', load(0), named(key, 2, 2))
        add(f'type: array 1 with a child at {key}', load(0), array(2, 1), named(key, 2, 2))
    add('type: dynamic 1, a child of a kind', dynamic(0, 1, 1), dynamic(32, 2))
    add('type: dynamic 1, a child of a kind at 0', dynamic(0, 1, 1), dynamic(0, 2))
    add('type: dynamic 1, two children', dynamic(0, 1, 1), named(0, 2, 2), named(32, 2, 1))
    add('type: dynamic 1, an unseen child beside', dynamic(0, 1, 1), named(32, 2, 1), step(ADD, arg(0, 2), 1))
    add('type: only a child at key 0', load(0), named(0, 2, 2))
    add('type: only a tuple at key 0', load(0), see(0, 2), named(0, 3, 2), named(32, 3, 1))
    add('type: a tuple in a tuple', dynamic(0, 1, 2), dynamic(32, 2, 2), named(32, 3, 2), dynamic(64, 3, 1))
    add('type: an array of tuples', load(0), array(2, 3), named(32, 2, 2), named(96, 2, 1))
    add('type: an array of arrays', load(0), array(2, 1), dynamic(32, 2), array(4, 1))
    add('type: an array of bytes', load(0), array(2, 1), dynamic(32, 2))
    add('type: an array replaces a dynamic', dynamic(0, 1, 5), array(2, 1))
    add('type: unseen records beside', load(0), step(ADD, arg(32), 1), step(ADD, arg(96), 1))


def deep():
    """reading 17: 64 records, each array 2 with its child at key 32, reach 129 levels; and one more"""
    for n in (1, 2, 63, 64, 65):
        steps, record = [], 1
        for i in range(n):
            key = 32 if i else 0
            # the fact, its array mark, which makes the record of its length
            steps += [dynamic(key, record, 0)]
            record = 2 + 2 * i
            steps += [array(record, 2)]
        add(f'deep: {n} arrays of pairs', *steps)
    add('deep: 64 arrays of 1', *(s for i in range(64) for s in (dynamic(32 if i else 0, 1 if i == 0 else 2 * i), array(2 + 2 * i, 1))))
    for n in (63, 64):
        add(f'deep: {n} tuples', *(named(32, r, 1256) for r in range(1, n + 1)))
    # over by the sum
    add('over: one word too many', named(262080, 1, 1256), load(0))
    add('over: by a count', dynamic(0, 1, 8191))
    add('over: not by a count, 8,192 codes', dynamic(0, 1, 8190))
    add('over: by a large count', dynamic(0, 1, 134217727))
    add('over: by arrays', *(s for i in range(83) for s in (step(CALLDATALOAD, 4 + 32 * i), array(2 + 2 * i, 99))))
    add('over: not by arrays', *(s for i in range(80) for s in (step(CALLDATALOAD, 4 + 32 * i), array(2 + 2 * i, 99))))
    add('over: a large key', named(TOP, 1, 2))
    add('none: only marks', step(ADD, arg(0), arg(32)))
    add('none: no steps')


# ---- the fill

def fills():
    """reading 15; `direct_min_calldata_words`, overridden by `dense_min_calldata_words`"""
    for words in (0, 1, 2, 7):
        for dest in (False, True):
            tag = ' after a jumpdest' if dest else ''
            add(f'fill: direct {words}{tag}', code=direct(words, dest=dest))
            add(f'fill: packed {words}{tag}', code=dense(dest=dest), packed=4 + 32 * words)
            add(f'fill: packed {words}, bit 0{tag}', code=dense(dest=dest), packed=(1 << 200) + 5 + 32 * words)
    for size in (1, 2, 3, 4):
        add(f'fill: direct by push{size}', code=direct(3, size))
    for size in (1, 2, 3):
        add(f'fill: packed by push{size}', code=dense(size), packed=M - (1 << 32) + 4 + 96)
    add('fill: packed without a packed word', code=dense(), word=68)
    add('fill: direct beside a packed word', code=direct(2), packed=4 + 32 * 5)
    for extra in (1, 16, 31):
        add(f'fill: direct and {extra} bytes', code=direct(2, extra=extra))
    add('fill: a length below 4', code=push(3, 1) + bytes([CALLDATASIZE, LT_OP]))
    add('fill: at a start pc', code=b'\0\0\0' + direct(2), start=3)
    add('fill: at another start pc', code=b'\0\0\0' + direct(2), start=2)
    add('fill: names stay', named(32, 1, 2), named(96, 1, 1), code=direct(3))
    add('fill: unseen made seen', step(ADD, arg(0), arg(64)), code=direct(3))
    add('fill: beyond it a fact', load(160), code=direct(2))
    add('fill: one dynamic', load(0), dynamic(32), code=direct(4))
    add('fill: a dynamic below a dynamic', dynamic(32, 1, 1), dynamic(0, 2), code=direct(4))
    add('fill: an array below a plain fact', load(0), see(0, 2), array(3, 1), code=direct(4))
    add('fill: a bare array', load(32), array(2, 1), code=direct(4))
    add('fill: a bare array, 1 word', load(0), array(2, 1), code=direct(1))
    add('fill: a bare array, no word', load(64), array(2, 1), code=direct(0))
    add('fill: two bare arrays', load(0), load(32), array(2, 1), array(3, 1), code=direct(4))
    add('fill: an array with a seen child', load(0), array(2, 1), named(32, 2, 2), code=direct(4))
    add('fill: an array with an unseen child', load(0), array(2, 1), step(ADD, arg(32, 2), 1), code=direct(4))
    add('fill: an array and a dynamic', load(0), array(2, 1), dynamic(32), code=direct(4))
    add('fill: 4,096 words', code=direct(4096, 3))
    add('fill: 4,097 words', load(0), code=direct(4097, 3))
    add('fill: 4,097 words and a bare array', load(0), array(2, 1), code=direct(4097, 3))
    add('fill: 4,098 words and a bare array', load(0), array(2, 1), code=direct(4098, 3))
    add('fill: 2^27 words', load(0), code=push(TOP - 27, 4) + bytes([CALLDATASIZE, LT_OP]))


def lookups():
    """facts learnt in no order, so many of them that `paths::near` looks at all records, then a fill between and beyond them"""
    shuffle = random.Random(33)
    words = shuffle.sample(range(90), 50)
    steps = [load(32 * w) for w in words]
    for count in (0, 60, 100):
        add(f'lookup: words in no order, {count} filled', *steps, code=direct(count))
    add('lookup: words in no order, named', *steps, *(named(32 * w, 1, name) for w, name in ((89, 2), (0, 1), (44, 1016), (88, 3004), (1, 2128))))
    # keys between two words, so that a fill goes over many of them
    between = shuffle.sample(range(33, 64), 25) + shuffle.sample(range(97, 128), 25)
    add('lookup: between the words', *(load(k) for k in between), code=direct(6))
    add('lookup: between the words, not seen', load(0), *(step(ADD, arg(k), 1) for k in between), code=direct(6))
    add('lookup: below a fact', dynamic(0), *(see(32 * w, 2) for w in words), see(32 * 90, 2), see(32 * 44, 2), code=direct(1))


# ---- random traces

R = random.Random(41)


def random_group(used, rough):
    op = R.choice(OPS)
    a, b = random_slot(used), random_slot(used)
    if R.random() < 0.3:
        op, a = CALLDATALOAD, slot(R.choice((4, 36, 68, 100, 5)))
    elif R.random() < 0.4:
        op, a = CALLDATALOAD, slot(0, arg(R.choice((0, 32, 64, 5)), R.randint(1, used), R.choice((4, 36, 68))))
    elif R.random() < 0.4:
        op, a, b = MUL, slot(3, arg(0, R.randint(1, used))), slot(R.choice((1, 2, 32, 64, 96)))
    if op in (LT, SHL, SHR, SIGNEXTEND, BYTE, AND) and R.random() < 0.5:
        a, b = R.choice(((slot(R.choice(WORDS)), slot(9, random_label(used, (2,)))), (slot(9, random_label(used, (2,))), slot(R.choice(WORDS)))))
    if op == EQ and R.random() < 0.5:
        lab = random_label(used, (2,))
        a, b = slot(1, lab[:4] + [0] * 9), slot(1, lab[:4] + [1] + numbers_of_word(R.choice((255, 65535, M - 1))))
    if op == CALLDATACOPY:
        b = slot(R.choice((0, 64, TOP)), b[8:])
    stack = [n for _ in range(R.randint(1, 2)) for n in random_slot(used)]
    memory = [n for _ in range(R.randint(0, 1)) for n in entry(32 * R.randint(0, 3), random_label(used), R.randint(0, 1))]
    numbers = step_numbers(op, a, b, pick=R.randint(0, len(memory) // 15), load=random_label(used) if R.random() < 0.1 else NONE)
    if R.random() < rough:
        part = R.choice((stack, numbers))
        part[R.randrange(len(part))] = R.choice((0, 1, 2, 3, used + 1, 256, TOP))
    return numbers, stack, memory


def random_traces():
    """steps that fit the records used so far, mostly; a code that fills in every third"""
    for i in range(120):
        code = (R.choice(CODES), direct(R.randint(0, 6)), dense(), b'')[i % 4]
        packed = 4 + 32 * R.randint(0, 6) if i % 4 == 2 else None
        head, table, steps = (1, 1), model.fresh([0] * (model.RECORDS * 11))[1], []
        for _ in range(R.randint(1, 14)):
            numbers, stack, memory = random_group(head[0], 0.02 if i % 5 else 0.2)
            steps.append(group(numbers, stack, memory))
            number, head, table, _, _ = model.step(head, table, code, stack, memory, numbers)
            if number:
                break
        add(f'random {i}', *steps, code=code, packed=packed)


def damages():
    """P1's trace with one byte changed"""
    data = header(direct(2)) + u32(3) + b''.join(P1)
    for i in range(80):
        at, byte = R.randrange(60) if i % 4 == 0 else R.randrange(len(data)), R.choice((0, 1, 2, 255))
        raw(f'damaged: byte {at} is {byte} ({i})', data[:at] + bytes([byte]) + data[at + 1:])


MAKERS = (sizes, order, cuts, refusals, full, bench, ruled_out, types, deep, fills, lookups, random_traces, damages)


# ---- the files

def runs(data):
    """zeros counted: how many zeros, how many other bytes, and these"""
    out, at = bytearray(), 0
    while at < len(data):
        zeros = 0
        while zeros < 255 and at + zeros < len(data) and data[at + zeros] == 0:
            zeros += 1
        start = at + zeros
        end = start
        while end < len(data) and end - start < 255 and (data[end] or data[end:end + 3].strip(b'\0')):
            end += 1
        out += bytes([zeros, end - start]) + data[start:end]
        at = end
    return bytes(out)


def published(part):
    return pathlib.Path(__file__).with_name('published.' + part).read_bytes()


def main():
    if sys.argv[1:] == ['p1-stdin']:
        sys.stdout.buffer.write(header() + u32(3) + b''.join(P1))
        return
    if sys.argv[1:] == ['p1-stdout']:
        print(model.printed(header() + u32(3) + b''.join(P1)), end='')
        return
    for make in MAKERS:
        make()
    if sys.argv[1:] == ['stdin']:
        for name, data in TRACES:
            sys.stdout.buffer.write(name.encode().ljust(40, b'\0') + u32(len(name), len(data)) + runs(data))
        sys.stdout.buffer.write(published('stdin'))
    elif sys.argv[1:] == ['stdout']:
        for name, data in TRACES:
            print(name)
            print(model.printed(data), end='')
        print(published('stdout').decode(), end='')
    else:
        sys.exit(__doc__)


if __name__ == '__main__':
    main()
