#!/usr/bin/env python3
"""Makes the lists of crates/operation_vectors: operation_vectors.py stdin > crates/operation_vectors/stdin, and stdout the same way.

The answers come from a model in the Rust's terms (`Info`, `ArgsResult` of arguments/mod.rs): nested nodes with children by key, and a set of not-bool
paths. A path has a number if it was ever inserted, in the order of insertion (document 01, "New records .. take the next free numbers"). The records
are worked out from that at the end, and tested by document 01's question 2; nothing is made from the definitions of specs/.
"""
import random
import struct
import sys

from table_vectors import is_name

RANGE_CONFIDENCE, BOOL, MAX_ARGUMENT_WORDS = 6, 1, 4096
(FIND_CHILD, MISSING, HAS_RANGE_HINT, INSERT_CHILD, ENSURE_CHILD, GET_OR_CREATE, SET_TNAME, MARK_NOT_BOOL, INSERT_NOT_BOOL, CLEAR_RANGE_HINT, MAKE_SEEN,
 SET_DYNAMIC, SET_ARRAY, ARRAYS_IN_PATH, FILL, FILL_MISSING) = range(1, 17)
DYNAMIC, ARRAY = 1, 2


class Info:
    def __init__(self):
        self.tinfo, self.tname, self.children, self.range_blocked = None, None, {}, False


class Args:
    """`ArgsResult`, with the numbers of the paths"""

    def __init__(self):
        self.data, self.not_bool, self.numbers = Info(), set(), {(): 1}

    def path(self, number):
        return next(p for p, n in self.numbers.items() if n == number)

    def insert(self, path):
        for i in range(len(path) + 1):
            self.numbers.setdefault(path[:i], len(self.numbers) + 1)

    def get_or_create(self, path):
        self.insert(path)
        node = self.data
        for key in path:
            node = node.children.setdefault(key, Info())
        return node

    def get_mut(self, path):
        node = self.data
        for key in path:
            node = node.children.get(key)
            if node is None:
                return None
        return node

    def clear_range_hint(self, path, offset, block):
        parent = self.get_mut(path)
        info = parent.children.get(offset) if parent else None
        if info:
            info.range_blocked |= block
            if info.tname and info.tname[1] == RANGE_CONFIDENCE:
                info.tname = None

    def has_range_hint(self, path, offset):
        el = self.get_mut(path + (offset,))
        return bool(el and el.tname and el.tname[1] == RANGE_CONFIDENCE)

    def mark_not_bool(self, path, offset):
        full_path = path + (offset,)
        el = self.get_mut(full_path)
        if el and el.tname and (el.tname[0] == BOOL or el.tname[1] == RANGE_CONFIDENCE):
            el.tname = None
        self.insert_not_bool(full_path)

    def insert_not_bool(self, full_path):
        self.insert(full_path)
        self.not_bool.add(full_path)

    def set_tname(self, path, offset, tname, confidence):
        full_path = path + (offset,)
        if (tname == BOOL or confidence == RANGE_CONFIDENCE) and full_path in self.not_bool:
            return
        el = self.get_or_create(full_path)
        if confidence == RANGE_CONFIDENCE and el.range_blocked:
            return
        if el.tname and confidence <= el.tname[1]:
            return
        el.tname = (tname, confidence)

    def array_in_path(self, path):
        el, out = self.data, []
        for p in path:
            el = el.children.get(p)
            if el is None:
                break
            out.append(el.tinfo is not None and el.tinfo[0] == ARRAY)
        return out

    def set_info(self, path, kind, n):
        if not path:
            return
        el = self.get_or_create(path)
        old = el.tinfo
        if kind == DYNAMIC and old and (old[0] == ARRAY or old[1] > n):
            return
        if kind == ARRAY and old and old[0] == ARRAY and n < old[1]:
            return
        el.tinfo = (kind, n)

    def fill_paths(self, words):
        return [(offset,) for offset in range(0, words * 32, 32)]

    def records(self):
        kids = {}
        for path, n in self.numbers.items():
            if path:
                kids.setdefault(path[:-1], []).append((path[-1], n))
        child, after = {}, {}
        for path, chain in kids.items():
            chain = [n for _, n in sorted(chain)]
            child[path] = chain[0]
            after.update(zip(chain, chain[1:]))
        out = []
        for path, n in self.numbers.items():
            info = self.get_mut(path)
            kind, count = info.tinfo if info and info.tinfo else (0, 0)
            name, confidence = info.tname if info and info.tname else (0, 0)
            out.append([path[-1] if path else 0, self.numbers[path[:-1]] if path else 0, child.get(path, 0), after.get(n, 0), int(info is not None),
                        int(path in self.not_bool), int(info is not None and info.range_blocked), kind, count, name, confidence])
        return out

    def is_sound(self):
        """question 2's tests of a seen record: the operations above leave nothing else open"""
        for path in self.numbers:
            info = self.get_mut(path)
            if info is None:
                continue
            if info.tname and not (1 <= info.tname[1] <= 20 and is_name(info.tname[0])):
                return False
            if info.tinfo and not (1 <= info.tinfo[1] <= 99 if info.tinfo[0] == ARRAY else info.tinfo[1] <= 134217727):
                return False
        return True


SKIPPED = ' skipped'


def perform(args, n, entry):
    """does the operation, if it may; its answer"""
    op, a, b, c, d = entry[:5]
    if op > ARRAYS_IN_PATH:
        return fill(args, n, op, a)
    if not 1 <= a <= len(args.numbers):
        return SKIPPED
    path = args.path(a)
    if op > CLEAR_RANGE_HINT:
        return change_record(args, op, path, b)
    if op in (FIND_CHILD, MISSING, HAS_RANGE_HINT):
        return ask_child(args, op, path, b)
    if op == CLEAR_RANGE_HINT:
        if c > 1:
            return SKIPPED
        args.clear_range_hint(path, b, c == 1)
        return ''
    return make_child(args, n, op, path, b, (c, d))


def ask_child(args, op, path, key):
    full = path + (key,)
    if op == FIND_CHILD:
        return f' {args.numbers.get(full, 0)}'
    if op == MISSING:
        return f' {int(full not in args.numbers)}'
    return ' yes' if args.has_range_hint(path, key) else ' no'


def make_child(args, n, op, path, key, name):
    """the operations that make a record where there is none; `name` is a name with its confidence"""
    full = path + (key,)
    missing = int(full not in args.numbers)
    if len(args.numbers) + missing > n or (op == INSERT_CHILD and not missing):
        return SKIPPED
    if op in (INSERT_CHILD, ENSURE_CHILD):
        args.insert(full)
    elif op == GET_OR_CREATE:
        args.get_or_create(full)
    elif op == SET_TNAME:
        args.set_tname(path, key, *name)
    elif op == MARK_NOT_BOOL:
        args.mark_not_bool(path, key)
    else:
        args.insert_not_bool(full)
    return f' {args.numbers[full]}' if op <= GET_OR_CREATE else ''


def change_record(args, op, path, count):
    if op == ARRAYS_IN_PATH:
        return f' {sum(args.array_in_path(path))}'
    if op == MAKE_SEEN:
        args.get_or_create(path)
    else:
        args.set_info(path, DYNAMIC if op == SET_DYNAMIC else ARRAY, count)
    return ''


def fill(args, n, op, words):
    if words > MAX_ARGUMENT_WORDS:
        return SKIPPED
    absent = sum(p not in args.numbers for p in args.fill_paths(words))
    if op == FILL_MISSING:
        return f' {absent}'
    if len(args.numbers) + absent > n:
        return SKIPPED
    for p in args.fill_paths(words):
        args.get_or_create(p)
    return ''


LISTS = []
R = random.Random(20)
NAMES = (1, 1, 2, 3, 4, 1008, 1008, 1160, 1256, 2008, 2256, 3001, 3032)
CONFIDENCES = (4, 5, 5, 6, 6, 6, 8, 10, 12, 20)


class Maker:
    """a list of operations, made along with its model so that most of them meet records that are there"""

    def __init__(self, n, rough=0.02):
        self.n, self.rough, self.args, self.entries, self.lines = n, rough, Args(), [], []

    def do(self, op, *arguments):
        entry = (op,) + arguments + (0,) * (5 - len(arguments))
        answer = perform(self.args, self.n, entry)
        self.entries.append(entry)
        self.lines.append(f' {op}{answer}; used {len(self.args.numbers)} {"sound" if self.args.is_sound() else "unsound"}')
        return self

    def record(self):
        if R.random() < self.rough:
            return R.choice((0, len(self.args.numbers) + 1, self.n, self.n + 1, 2**32 - 1))
        used = len(self.args.numbers)
        return R.choice((1, R.randint(1, used), R.randint(1, used), max(1, used - R.randint(0, 2))))

    def key(self):
        return R.choice((0, 32, 64, 32 * R.randint(0, 12), 32 * R.randint(0, 12), R.randint(0, 200), 33, 2**32 - 1))

    def child(self):
        """a parent and a key, of a path that is there half the time"""
        known = list(self.args.numbers)[1:]
        if known and R.random() < 0.5:
            path = R.choice(known)
            return self.args.numbers[path[:-1]], path[-1]
        return self.record(), self.key()

    def any(self):
        op = R.choice((1, 2, 3, 3, 4, 5, 6, 6, 6, 7, 7, 7, 7, 8, 8, 9, 10, 10, 11, 12, 12, 13, 13, 14, 14, 15, 16))
        rough = R.random() < self.rough
        if op == SET_TNAME:
            name = R.choice((5, 7, 1004, 1264, 3033, 16386)) if rough else R.choice(NAMES)
            return self.do(op, *self.child(), name, R.choice((0, 1, 21, 255)) if R.random() < self.rough else R.choice(CONFIDENCES))
        if op == CLEAR_RANGE_HINT:
            return self.do(op, *self.child(), R.choice((2, 2**32 - 1)) if rough else R.randint(0, 1))
        if op == SET_DYNAMIC:
            return self.do(op, self.record(), R.choice((134217727, 134217728, 2**32 - 1)) if rough else R.randint(0, 5))
        if op == SET_ARRAY:
            return self.do(op, self.record(), R.choice((0, 99, 100, 2**32 - 1)) if rough else R.randint(1, 5))
        if op in (MAKE_SEEN, ARRAYS_IN_PATH):
            return self.do(op, self.record())
        if op in (FILL, FILL_MISSING):
            return self.do(op, R.choice((4097, 2**32 - 1)) if rough else R.choice((0, 1, 2, R.randint(0, 8), R.randint(0, 14))))
        return self.do(op, *self.child())

    def add(self):
        LISTS.append(self)


def by_hand():
    m = Maker(8)
    for op in (FIND_CHILD, MISSING, HAS_RANGE_HINT, GET_OR_CREATE, FIND_CHILD, MISSING, HAS_RANGE_HINT, INSERT_CHILD, ENSURE_CHILD):
        m.do(op, 1, 32)
    m.add()
    # "Bool and range names stop at a not-bool mark before any record is made seen. A blocked range name stops after that."
    for name, confidence in ((1, 20), (1008, 6), (1256, 5)):
        Maker(6).do(INSERT_NOT_BOOL, 1, 0).do(SET_TNAME, 1, 0, name, confidence).do(MARK_NOT_BOOL, 1, 0).do(HAS_RANGE_HINT, 1, 0).add()
        Maker(6).do(SET_TNAME, 1, 0, name, confidence).do(MARK_NOT_BOOL, 1, 0).do(SET_TNAME, 1, 0, name, confidence).add()
        Maker(6).do(CLEAR_RANGE_HINT, 1, 0, 1).do(GET_OR_CREATE, 1, 0).do(CLEAR_RANGE_HINT, 1, 0, 1).do(CLEAR_RANGE_HINT, 1, 0, 0) \
            .do(SET_TNAME, 1, 0, name, confidence).do(HAS_RANGE_HINT, 1, 0).add()
    # "An equal or lower one never replaces."
    for first in (4, 5, 6, 20):
        for second in (4, 5, 6, 20):
            Maker(4).do(SET_TNAME, 1, 0, 1160, first).do(HAS_RANGE_HINT, 1, 0).do(SET_TNAME, 1, 0, 2, second).do(HAS_RANGE_HINT, 1, 0) \
                .do(CLEAR_RANGE_HINT, 1, 0, 0).add()
    # "Dynamic never lowers a dynamic count nor replaces an array. An array replaces dynamic and never lowers."
    for first in (SET_DYNAMIC, SET_ARRAY):
        for second in (SET_DYNAMIC, SET_ARRAY):
            for count in (1, 2, 3):
                Maker(4).do(ENSURE_CHILD, 1, 64).do(first, 2, 2).do(second, 2, count).do(ARRAYS_IN_PATH, 2).add()
    Maker(4).do(SET_DYNAMIC, 1, 1).do(SET_ARRAY, 1, 1).do(MAKE_SEEN, 1).do(ARRAYS_IN_PATH, 1).add()
    # a path made seen with all that it continues
    m = Maker(70)
    for p in range(1, 66):
        m.do(ENSURE_CHILD, p, p % 3)
    m.do(MAKE_SEEN, 40).do(SET_ARRAY, 66, 2).do(SET_ARRAY, 20, 1).do(SET_DYNAMIC, 30, 1).do(ARRAYS_IN_PATH, 66).do(ARRAYS_IN_PATH, 19).add()


def fills():
    for words in (0, 1, 2, 13, 40):
        for n in (words + 1, words + 5, max(1, words)):
            m = Maker(n)
            m.do(FILL_MISSING, words).do(FILL, words).do(FILL_MISSING, words + 1).do(FILL, words).add()
    for i in range(30):
        m = Maker(R.choice((12, 30, 60)))
        for _ in range(R.randint(1, 12)):
            m.do(R.choice((ENSURE_CHILD, GET_OR_CREATE, INSERT_NOT_BOOL)), 1, R.choice((32 * R.randint(0, 9), R.randint(0, 330))))
        for _ in range(3):
            words = R.randint(0, 12)
            m.do(FILL_MISSING, words).do(FILL, words)
        m.add()
    Maker(1480).do(GET_OR_CREATE, 1, 33).do(ENSURE_CHILD, 1, 960).do(FILL_MISSING, 1478).do(FILL, 1478).do(FILL, 1479).do(FILL, 1480).add()
    Maker(1480).do(FILL, 1200).do(GET_OR_CREATE, 1, 38431).do(FILL, 1202).do(FILL_MISSING, 4096).do(FILL, 4096).add()


def sizes():
    Maker(0).add()
    for n in (1, 2, 3):
        m = Maker(n)
        for _ in range(20):
            m.any()
        m.add()
    Maker(1480).do(FIND_CHILD, 1, 0).add()


def random_lists():
    for _ in range(170):
        m = Maker(R.choice((6, 12, 20, 40, 80)))
        for _ in range(R.randint(5, 60)):
            m.any()
        m.add()
    # deep paths: each operation under the last record
    for _ in range(25):
        m = Maker(R.choice((30, 70)))
        for _ in range(R.randint(20, 60)):
            if R.random() < 0.6:
                m.do(R.choice((ENSURE_CHILD, GET_OR_CREATE, INSERT_NOT_BOOL, MARK_NOT_BOOL)), len(m.args.numbers), m.key())
            else:
                m.any()
        m.add()
    # wrong arguments
    for _ in range(15):
        m = Maker(R.choice((8, 20)), rough=0.3)
        for _ in range(R.randint(10, 40)):
            m.any()
        m.add()


def main():
    for make in (by_hand, fills, sizes, random_lists):
        make()
    if sys.argv[1:] == ['stdin']:
        for m in LISTS:
            for entry in [(0, m.n, len(m.entries), 0, 0, 0)] + m.entries:
                sys.stdout.buffer.write(struct.pack('>6I', *entry))
    elif sys.argv[1:] == ['stdout']:
        for m in LISTS:
            if m.n == 0:
                print('list of refused 1')
                continue
            print(f'list of {m.n}')
            for line in m.lines:
                print(line)
            for record in m.args.records():
                print(''.join(f' {x}' for x in record))
    else:
        sys.exit(__doc__)


if __name__ == '__main__':
    main()
