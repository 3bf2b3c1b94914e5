"""A model of the closing and of the trace printer, on Python's lists of numbers: document 01's questions 1, 2, 3, 9 and 8 in order, then the tail of
`function_arguments` of arguments/mod.rs over `Info` in the Rust's terms (operation_vectors.py), and the lines of document 01's "Lines of the trace
printer". It is made from document 01 and the Rust, and not from the definitions of specs/.
"""
import struct

from leaf_vectors import dense_words, direct_words
from operation_vectors import ARRAY, DYNAMIC, MAX_ARGUMENT_WORDS
from step_model import (BYTES, CODE_MAX, ENTRY_WIDTH, SLOT_WIDTH, STEP_WIDTH, facts_of, fresh, is_table, numbers_of, step, word_of)
from table_vectors import WIDTH, sound

MAX_ARGUMENT_DEPTH, TYPES_MIN = 64, 8192
NONE, OVER, GRANTED = 'none', 'over', 'granted'
UINT256 = ('name', 1256)


# ---- types: ('name', code), ('array', type), ('tuple', types)

def codes_of(t):
    if t[0] == 'name':
        return [t[1]]
    if t[0] == 'array':
        return [5] + codes_of(t[1])
    return [16384 + len(t[1])] + [c for part in t[1] for c in codes_of(part)]


def text_of(t):
    if t[0] == 'array':
        return text_of(t[1]) + '[]'
    if t[0] == 'tuple':
        return '(' + ','.join(map(text_of, t[1])) + ')'
    code = t[1]
    if code < 1000:
        return {1: 'bool', 2: 'address', 3: 'bytes', 4: 'string'}[code]
    return ('', 'uint', 'int', 'bytes')[code // 1000] + str(code % 1000)


# ---- the tail of `function_arguments`

def last_key(info):
    return max(info.children, default=0)


def last_word(info):
    return max(last_key(info) // 32, info.tinfo[1] if info.tinfo else 0)


def fits_type_budget(info, budget, depth):
    """`budget` holds one number, as a `&mut usize`"""
    if depth > MAX_ARGUMENT_DEPTH:
        return False
    if budget[0] < last_word(info) + 1:
        return False
    budget[0] -= last_word(info) + 1
    return all(fits_type_budget(info.children[key], budget, depth + 1) for key in sorted(info.children))


def has_dynamic(info):
    return info.tinfo is not None or any(map(has_dynamic, info.children.values()))


def to_alloy_type(info, is_root):
    kind, count = info.tinfo or (0, 0)
    if info.tname:
        name = ('name', info.tname[0])
        if info.tname[0] == BYTES:
            if info.tinfo in ((ARRAY, 0), (DYNAMIC, 1), None):
                return [name]
        elif not info.children and kind != ARRAY:
            return [name]
    start_key = 32 if kind == ARRAY else 0
    end_key = max(last_key(info), count * 32)
    q = []
    for k in range(start_key, end_key + 1, 32):
        q += to_alloy_type(info.children[k], False) if k in info.children else [UINT256]
    c = [('tuple', q)] if len(q) > 1 and not is_root else q
    if kind == ARRAY:
        return [('array', q[0] if len(q) == 1 else ('tuple', q))]
    if kind == DYNAMIC:
        if end_key == 0 and not info.children:
            return [('name', BYTES)]
        if end_key == 32:
            if not info.children:
                return [('array', UINT256)]
            if len(info.children) == 1 and next(iter(info.children.values())).tinfo is None:
                return [('array', q[1])]
    return c


def head_words(data, code, start, packed):
    words = direct_words(code, start)
    if packed is not None and dense_words(code, start, packed) is not None:
        words = dense_words(code, start, packed)
    if words is None:
        return None
    dynamic_args = [info for info in data.children.values() if has_dynamic(info)]
    if not dynamic_args:
        return words
    info = dynamic_args[0]
    if len(dynamic_args) == 1 and info.tinfo and info.tinfo[0] == ARRAY and not info.children:
        return words - 1 if words else None
    return None


# ---- the closing

def closing(head, table, code, start, packed, types):
    """the refusal's number or the answer, what it says (the list, budget left and head length), and head, table and types afterwards; `packed` is a
    word or none"""
    used, active = head
    if not is_table(table):
        return 1, None, head, table, types
    if not sound(table, used) or active > 1:
        return 2, None, head, table, types
    if len(code) > CODE_MAX:
        return 3, None, head, table, types
    if len(types) < TYPES_MIN:
        return 9, None, head, table, types
    args, _ = facts_of(table, used)
    words = head_words(args.data, code, start, packed)
    if words is not None and words <= MAX_ARGUMENT_WORDS:
        for path in args.fill_paths(words):
            args.get_or_create(path)
    if len(args.numbers) > len(table) // WIDTH:
        return 8, None, head, table, types
    head, table = (len(args.numbers), active), numbers_of(args, len(table))
    budget = [TYPES_MIN]
    if not args.data.children:
        return NONE, None, head, table, types
    if not fits_type_budget(args.data, budget, 0):
        return OVER, None, head, table, types
    entries = to_alloy_type(args.data, True)
    codes = [c for t in entries for c in codes_of(t)]
    return GRANTED, (entries, budget[0], 32 * len(entries)), head, table, codes + types[len(codes):]


# ---- the trace printer

CODE_BYTES, SLOTS, ENTRIES, RECORDS = 24576, 256, 256, 1480
INPUT_REFUSED = 'input refused\n'


class Refused(Exception):
    pass


class Input:
    def __init__(self, data):
        self.data, self.at = data, 0

    def bytes(self, n):
        part = self.data[self.at:self.at + n]
        if len(part) < n:
            raise Refused
        self.at += n
        return part

    def numbers(self, n):
        return list(struct.unpack(f'<{n}I', self.bytes(4 * n)))

    def most(self, most):
        n = self.numbers(1)[0]
        if n > most:
            raise Refused
        return n


def printed(data):
    """what the trace printer writes for these bytes"""
    try:
        return printed_of(Input(data))
    except Refused:
        return INPUT_REFUSED


def printed_of(rest):
    length, start = rest.most(CODE_BYTES), rest.numbers(1)[0]
    flag, packed, code = rest.most(1), word_of(rest.numbers(8)), rest.bytes(length)
    head, (_, table) = (1, 1), fresh([0] * (RECORDS * WIDTH))
    for i in range(rest.numbers(1)[0]):
        numbers, slots, entries = rest.numbers(STEP_WIDTH), rest.most(SLOTS), rest.most(ENTRIES)
        stack, memory = rest.numbers(slots * SLOT_WIDTH), rest.numbers(entries * ENTRY_WIDTH)
        number, head, table, _, _ = step(head, table, code, stack, memory, numbers)
        if number:
            return f'refused {number} at {i + 1}\n'
    if rest.at < len(rest.data):
        return INPUT_REFUSED
    answer, granted, *_ = closing(head, table, code, start, packed if flag else None, [0] * TYPES_MIN)
    if answer in (NONE, OVER):
        return answer + '\n'
    if answer != GRANTED:
        return f'refused {answer} at 0\n'
    entries, left, length = granted
    return f'args {len(entries)} left {left} head {length}\n' + ''.join(f'{k} {text_of(t)}\n' for k, t in enumerate(entries))
