#!/usr/bin/env python3
"""Makes the vectors of crates/table_vectors: table_vectors.py stdin > crates/table_vectors/stdin, and stdout the same way.

Most tables are built by hand below and damaged, one number at a time; those of `random_tables` are random, half of them with one or two numbers changed. The
answers come from the model `sound`, which follows document 01's question 2 sentence by sentence on Python's lists; it is not made from the definitions of
specs/.
"""
import random
import struct
import sys

WIDTH, MOST = 11, 132
KEY, PARENT, CHILD, NEXT, SEEN, NOT_BOOL, BLOCKED, KIND, COUNT, NAME, CONFIDENCE = range(WIDTH)
FIELDS = 'key parent child next seen not-bool blocked kind count name confidence'.split()


def is_name(code):
    return code in (1, 2, 3, 4) or code in range(1008, 1257, 8) or code in range(2008, 2257, 8) or code in range(3001, 3033)


def sound(numbers, used):
    n = len(numbers) // WIDTH
    rec = [None] + [numbers[i * WIDTH:(i + 1) * WIDTH] for i in range(n)]
    if not 1 <= used <= n:
        return False
    if any(any(rec[r]) for r in range(used + 1, n + 1)):
        return False
    met = []
    for p in range(1, used + 1):
        c, low = rec[p][CHILD], -1
        while c:
            if not p < c <= used or rec[c][PARENT] != p or rec[c][KEY] <= low:
                return False
            met.append(c)
            low, c = rec[c][KEY], rec[c][NEXT]
    if sorted(met) != list(range(2, used + 1)):
        return False
    for r in range(1, used + 1):
        f = rec[r]
        if any(f[i] > 1 for i in (SEEN, NOT_BOOL, BLOCKED)):
            return False
        if r > 1 and f[SEEN] and not rec[f[PARENT]][SEEN]:
            return False
        if not f[SEEN] and any(f[BLOCKED:]):
            return False
        if f[KIND] > 2:
            return False
        if not (1 <= f[CONFIDENCE] <= 20 if f[NAME] else f[CONFIDENCE] == 0):
            return False
        if not {2: 1 <= f[COUNT] <= 99, 1: f[COUNT] <= 134217727, 0: f[COUNT] == 0}[f[KIND]]:
            return False
        if f[NAME] and not is_name(f[NAME]):
            return False
    root = rec[1]
    return root[SEEN] == 1 and not any(v for i, v in enumerate(root) if i not in (CHILD, SEEN))


def answer(numbers, used):
    if len(numbers) % WIDTH or not 1 <= len(numbers) // WIDTH <= 16384:
        return 'refused 1'
    return 'taken' if sound(numbers, used) else 'refused 2'


def table(n, nodes):
    """n records; nodes are (parent, key, further fields by number), from record 2 on; child and next are worked out"""
    rec = [[0] * WIDTH for _ in range(n)]
    rec[0][SEEN] = 1
    for i, (parent, key, more) in enumerate(nodes):
        r = rec[i + 1]
        r[KEY], r[PARENT] = key, parent
        for f, v in more.items():
            r[f] = v
    for p in range(1, len(nodes) + 2):
        kids = sorted((key, i + 2) for i, (parent, key, _) in enumerate(nodes) if parent == p)
        numbers = [k for _, k in kids] + [0]
        rec[p - 1][CHILD] = numbers[0]
        for a, b in zip(numbers, numbers[1:]):
            rec[a - 1][NEXT] = b
    return [v for r in rec for v in r]


VECTORS = []


def add(label, numbers, used):
    assert len(label) < 40 and len(numbers) <= MOST, (label, len(numbers))
    VECTORS.append((label, list(numbers), used))


S = {SEEN: 1}
NODES = [(1, 32, S), (1, 0, {**S, KIND: 1, COUNT: 2}), (3, 0, {**S, NAME: 1256, CONFIDENCE: 5}), (3, 64, {NOT_BOOL: 1}), (1, 64, {**S, KIND: 2, COUNT: 3}),
         (6, 32, {**S, NAME: 2, CONFIDENCE: 20, NOT_BOOL: 1}), (6, 0, {**S, BLOCKED: 1}), (5, 0, {}), (1, 4294967295, S)]


def damages():
    base, used = table(12, NODES), len(NODES) + 1
    add('sound', base, used)
    for u in (0, 1, used - 1, used + 1, 12, 13, 4294967295):
        add(f'used {u}', base, u)
    for r, where in ((1, 'root'), (2, 'first'), (6, 'middle'), (5, 'unseen'), (used, 'last'), (used + 1, 'unused'), (12, 'end')):
        for f in range(WIDTH):
            old = base[(r - 1) * WIDTH + f]
            for v in sorted({0, 1, 2, old + 1, max(0, old - 1), 5, 100, 1256, 4294967295} - {old}):
                changed = list(base)
                changed[(r - 1) * WIDTH + f] = v % 2**32
                add(f'{where} {FIELDS[f]} {v % 2**32}', changed, used)


def sizes():
    for n in (1, 2, 12):
        add(f'lone root of {n}', table(n, []), 1)
        add(f'lone root of {n}, none used', table(n, []), 0)
    for count in (0, 1, 10, 12, 21, 23, 120, 122):
        add(f'{count} numbers', [0] * count, 1)


def names():
    for code in (1, 2, 3, 4, 5, 6, 1000, 1004, 1008, 1256, 1264, 2008, 2256, 2264, 3000, 3001, 3032, 3033, 16386):
        for confidence in (0, 1, 20, 21):
            add(f'name {code} at {confidence}', table(3, [(1, 0, {**S, NAME: code, CONFIDENCE: confidence})]), 2)
    add('confidence without a name', table(3, [(1, 0, {**S, CONFIDENCE: 5})]), 2)
    for kind in (0, 1, 2, 3):
        for count in (0, 1, 99, 100, 134217727, 134217728):
            add(f'kind {kind} count {count}', table(3, [(1, 0, {**S, KIND: kind, COUNT: count})]), 2)
    add('seen under unseen', table(4, [(1, 0, {}), (2, 0, S)]), 3)
    add('unseen under seen', table(4, [(1, 0, S), (2, 0, {})]), 3)
    add('equal keys', table(4, [(1, 5, S), (1, 5, S)]), 3)
    add('keys in number order', table(4, [(1, 9, S), (1, 5, S)]), 3)


def links():
    base = table(5, [(1, 0, S), (1, 32, S), (1, 64, S)])
    for label, changes in (('cycle', {(4, NEXT): 2}), ('cycle of one', {(2, NEXT): 2}), ('orphan', {(3, NEXT): 0}), ('record met twice', {(2, CHILD): 3}),
                           ('chain into another', {(4, NEXT): 3}), ('falling keys', {(2, KEY): 33}), ('parent of a lower chain', {(4, PARENT): 2}),
                           ('next past used', {(4, NEXT): 5}), ('child is the root', {(4, CHILD): 1}), ('parent is itself', {(4, PARENT): 4}),
                           ('two lead to one', {(2, NEXT): 4}), ('first is not the least', {(1, CHILD): 3}), ('none leads to the first', {(1, CHILD): 0})):
        add(label, altered(base, changes), 4)
    # as many links as records, or keys that add up, are not enough
    base = table(5, [(1, 0, S), (1, 32, S), (1, 64, S), (1, 96, S)])
    add('a link twice, keys that do not add up', altered(base, {(2, NEXT): 4}), 5)
    add('keys that add up, a link short', altered(base, {(2, NEXT): 0, (3, NEXT): 5, (4, NEXT): 5}), 5)
    add('orphan in a chain of its own', altered(base, {(2, NEXT): 4, (3, NEXT): 5}), 5)


def altered(numbers, changes):
    changed = list(numbers)
    for (r, f), v in changes.items():
        changed[(r - 1) * WIDTH + f] = v
    return changed


def random_tables():
    r = random.Random(1)
    for i in range(200):
        used = r.randint(1, 12)
        nodes, taken = [], set()
        for k in range(2, used + 1):
            parent, key = r.randint(1, k - 1), r.choice((0, 32, 64, 96, 33, r.getrandbits(32)))
            if (parent, key) in taken:
                key = r.getrandbits(32)
            taken.add((parent, key))
            seen = r.random() < 0.7 and (parent == 1 or nodes[parent - 2][2].get(SEEN, 0) == 1)
            more = {SEEN: 1} if seen else {}
            if r.random() < 0.3:
                more[NOT_BOOL] = 1
            if seen and r.random() < 0.5:
                more[NAME], more[CONFIDENCE] = r.choice((1, 2, 3, 4, 1008, 2256, 3032)), r.randint(1, 20)
            if seen and r.random() < 0.4:
                more[KIND] = r.randint(1, 2)
                more[COUNT] = r.randint(1, 99)
            nodes.append((parent, key, more))
        numbers = table(r.randint(used, 12), nodes)
        if r.random() < 0.5:
            for _ in range(r.randint(1, 2)):
                numbers[r.randrange(len(numbers))] = r.choice((0, 1, 2, r.randint(0, used + 1), r.getrandbits(32)))
        add(f'random {i}', numbers, used)


def packed_form(v):
    label, numbers, used = v
    head = label.encode().ljust(40, b'\0') + bytes([len(label), len(numbers), 0, 0]) + struct.pack('>I', used)
    return (head + b''.join(struct.pack('>I', x) for x in numbers)).ljust(576, b'\0')


def main():
    for make in (damages, sizes, names, links, random_tables):
        make()
    if sys.argv[1:] == ['stdin']:
        sys.stdout.buffer.write(b''.join(map(packed_form, VECTORS)))
    elif sys.argv[1:] == ['stdout']:
        for label, numbers, used in VECTORS:
            print(label, answer(numbers, used))
    else:
        sys.exit(__doc__)


if __name__ == '__main__':
    main()
