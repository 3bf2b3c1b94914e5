"""A model of the fresh call and of a step, on Python's lists of numbers: document 01's questions 1 to 8 in order, then `analyze` of
arguments/mod.rs, arm by arm, over `Info` and `ArgsResult` in the Rust's terms (operation_vectors.py). It is made from document 01 and the Rust,
and not from the definitions of specs/. A step reads its facts off the table that it is handed and writes them back, so that it knows nothing
of the steps before it.
"""
from collections import namedtuple

from leaf_vectors import (CLEARS, ENDS, M, SLOT, guard_failure_pc, in_range, is_division_check, is_empty_revert_guard, mask_type, multiplier,
                          power)
from operation_vectors import ARRAY, DYNAMIC, RANGE_CONFIDENCE, Args
from table_vectors import BLOCKED, CONFIDENCE, COUNT, KEY, KIND, NAME, NOT_BOOL, PARENT, SEEN, WIDTH, sound

RECORDS_MAX, CODE_MAX, SLOTS_MAX, ENTRIES_MAX = 16384, 65536, 1024, 1024
LABEL_WIDTH, SLOT_WIDTH, ENTRY_WIDTH, STEP_WIDTH = 13, 21, 15, 59
CALL_DATA, ARG, IS_ZERO_RESULT = 1, 2, 3
BOOL, ADDRESS, BYTES, STRING, UINT, INT, FIXED_BYTES = 1, 2, 3, 4, 1000, 2000, 3000
ADD, MUL, SDIV, SMOD, SIGNEXTEND, LT, GT, EQ, ISZERO, AND, BYTE, SHL, SHR = 1, 2, 5, 7, 0x0B, 0x10, 0x11, 0x14, 0x15, 0x16, 0x1A, 0x1B, 0x1C
CALLDATALOAD, CALLDATACOPY, MLOAD, MSTORE8, REVERT = 0x35, 0x37, 0x51, 0x53, 0xFD
CALLS = {0xF1, 0xF2, 0xF4, 0xFA}
LOADS = {CALLDATALOAD, CALLDATACOPY}

Val = namedtuple('Val', 'offset path add_val and_mask')
Label = namedtuple('Label', 'kind val')


class Element:
    """a stack slot or an operand (`data` its word), or a memory entry (`data` 1 if its bytes became the word 1)"""

    def __init__(self, data, label, offset=None):
        self.data, self.label, self.offset = data, label, offset


def fresh(table):
    """the number of the fresh call's refusal, 0 if it is taken, and the table afterwards"""
    if not is_table(table):
        return 1, table
    return 0, numbers_of(Args(), len(table))


def is_table(table):
    return len(table) % WIDTH == 0 and 1 <= len(table) // WIDTH <= RECORDS_MAX


# ---- from numbers and back

def word_of(numbers):
    word = 0
    for n in numbers:
        word = word << 32 | n
    return word


def numbers_of_word(word):
    return [word >> 32 * i & 0xFFFFFFFF for i in reversed(range(8))]


def facts_of(table, used):
    args, paths = Args(), [None, ()]
    for r in range(2, used + 1):
        f = table[(r - 1) * WIDTH:r * WIDTH]
        path = paths[f[PARENT]] + (f[KEY],)
        paths.append(path)
        args.insert(path)
        if f[SEEN]:
            info = args.get_or_create(path)
            info.tinfo = (f[KIND], f[COUNT]) if f[KIND] else None
            info.tname = (f[NAME], f[CONFIDENCE]) if f[NAME] else None
            info.range_blocked = f[BLOCKED] == 1
        if f[NOT_BOOL]:
            args.not_bool.add(path)
    return args, paths


def numbers_of(args, length):
    numbers = [n for record in args.records() for n in record]
    return numbers + [0] * (length - len(numbers))


def label_of(numbers, paths):
    kind, offset, path, add_val, masked = numbers[:5]
    if kind == 0:
        return None
    if kind == CALL_DATA:
        return Label(CALL_DATA, None)
    return Label(kind, Val(offset, paths[path], add_val, word_of(numbers[5:]) if masked else None))


def numbers_of_label(label, args):
    if label is None:
        return [0] * LABEL_WIDTH
    if label.kind == CALL_DATA:
        return [CALL_DATA] + [0] * (LABEL_WIDTH - 1)
    v = label.val
    return [label.kind, v.offset, args.numbers[v.path], v.add_val, int(v.and_mask is not None)] + numbers_of_word(v.and_mask or 0)


def slot_of(numbers, paths):
    return Element(word_of(numbers[:8]), label_of(numbers[8:], paths))


def entry_of(numbers, paths):
    return Element(numbers[1], label_of(numbers[2:], paths), numbers[0])


def parts(numbers, width):
    return [numbers[i:i + width] for i in range(0, len(numbers), width)]


# ---- the questions

def is_label(numbers, used):
    kind, offset, path, add_val, masked = numbers[:5]
    if kind > 3 or masked > 1:
        return False
    if not masked and any(numbers[5:]):
        return False
    if kind < ARG:
        return not any(numbers[1:])
    return 1 <= path <= used


def refusal(head, table, code, stack, memory, numbers):
    """questions 1 to 7: the number of the first no, or 0"""
    used, active = head
    if not is_table(table):
        return 1
    if not sound(table, used) or active > 1:
        return 2
    if len(code) > CODE_MAX:
        return 3
    slots, entries = parts(stack, SLOT_WIDTH), parts(memory, ENTRY_WIDTH)
    if len(stack) % SLOT_WIDTH or len(slots) > SLOTS_MAX or len(memory) % ENTRY_WIDTH or len(entries) > ENTRIES_MAX or len(numbers) != STEP_WIDTH:
        return 4
    labels = [s[8:] for s in slots] + [e[2:] for e in entries] + [numbers[10:23], numbers[31:44], numbers[46:]]
    if not all(is_label(x, used) for x in labels) or any(e[1] > 1 for e in entries):
        return 5
    op, pick, flag = numbers[0], numbers[44], numbers[45]
    if op > 255 or pick > len(entries) or flag > 1 or (flag == 1) != (numbers[46] != 0):
        return 6
    if op == CALLDATACOPY and word_of(numbers[23:31]) >= 1 << 32:
        return 6
    if op in SLOT and not stack:
        return 7
    return 0


def step(head, table, code, stack, memory, numbers):
    """the answer's number, and head, table, stack and memory afterwards"""
    number = refusal(head, table, code, stack, memory, numbers)
    if number:
        return number, head, table, stack, memory
    args, paths = facts_of(table, head[0])
    args.decoder_active = head[1] == 1
    slots = [slot_of(s, paths) for s in parts(stack, SLOT_WIDTH)]
    m = Machine(code, slots, [entry_of(e, paths) for e in parts(memory, ENTRY_WIDTH)], numbers, paths)
    analyze(m, args)
    if len(args.numbers) > len(table) // WIDTH:
        return 8, head, table, stack, memory
    stack = [n for e in m.stack for n in numbers_of_word(e.data) + numbers_of_label(e.label, args)]
    memory = [n for e in m.memory for n in [e.offset, e.data] + numbers_of_label(e.label, args)]
    return 0, (len(args.numbers), int(args.decoder_active)), numbers_of(args, len(table)), stack, memory


# ---- the step

class Machine:
    """`Vm` and `StepResult`, as far as `analyze` looks at them"""

    def __init__(self, code, stack, memory, numbers, paths):
        self.code, self.stack, self.memory = code, stack, memory
        self.op, self.pc = numbers[:2]
        self.args = [slot_of(numbers[2:23], paths), slot_of(numbers[23:44], paths)]
        self.picked = memory[numbers[44] - 1] if numbers[44] else None
        self.memory_load = label_of(numbers[46:], paths)

    def top(self):
        return self.stack[-1]


def arg_of(element):
    """the `Val` of a `Label::Arg`, or none"""
    return element.label.val if element.label and element.label.kind == ARG else None


def analyze(m, args):
    clear_hints(m, args)
    if m.op in (LT, GT) and args.decoder_active and range_rule(m, args):
        return
    if m.op in ENDS:
        args.decoder_active = False
    for arm in ARMS:
        if arm(m, args):
            return


def clear_hints(m, args):
    vals = [arg_of(a) for a in m.args]
    if m.op in CLEARS:
        compared_words = m.op == EQ and all(vals)
        if m.op != EQ or compared_words:
            for val in vals:
                if val:
                    args.clear_range_hint(val.path, val.offset, compared_words)
    if m.op == REVERT and args.decoder_active:
        clear_range_hints(args.data)


def clear_range_hints(info):
    if info.tname and info.tname[1] == RANGE_CONFIDENCE:
        info.tname = None
    for child in info.children.values():
        clear_range_hints(child)


def range_rule(m, args):
    first, second = m.args
    if arg_of(first) and second.label is None:
        val, bound, less_than = arg_of(first), second.data, m.op == LT
    elif first.label is None and arg_of(second):
        val, bound, less_than = arg_of(second), first.data, m.op == GT
    else:
        return False
    if val.add_val != 0 or val.and_mask is not None or (val.offset == 0 and val.path):
        return False
    if not in_range(bound, less_than) or not is_empty_revert_guard(m.code, m.pc, less_than):
        return False
    args.set_tname(val.path, val.offset, UINT + 8, RANGE_CONFIDENCE)
    args.insert_not_bool(val.path + (val.offset,))
    return True


# Each arm answers whether it is the one that matches.

def labelled_load(m, args):
    val = arg_of(m.args[0])
    if m.op not in LOADS or not val:
        return False
    if val.add_val < 4 or (val.add_val - 4) % 32:
        return True
    full_path = val.path + (val.offset,)
    po = 32 * sum(args.array_in_path(val.path)) if val.add_val != 4 else 0
    if po > val.add_val - 4:
        po = 0
    new_off = val.add_val - 4 - po
    args.set_info(full_path, DYNAMIC, new_off // 32)
    target = m.top() if m.op == CALLDATALOAD else m.picked
    if target:
        if new_off == 0 and args.array_in_path(full_path)[-1]:
            target.data = 1
        if m.op == CALLDATACOPY:
            args.set_tname(val.path, val.offset, BYTES, 10)
        target.label = Label(ARG, Val(new_off, full_path, 0, None))
    return True


def unlabelled_load(m, args):
    if m.op not in LOADS:
        return False
    off = m.args[0].data
    if 4 <= off < 131072 - 1024:
        args.get_or_create((off - 4,))
        target = m.top() if m.op == CALLDATALOAD else m.picked
        if target:
            target.label = Label(ARG, Val(off - 4, (), 0, None))
    return True


def call(m, args):
    val = arg_of(m.args[0])
    if m.op not in CALLS or not val:
        return False
    args.mark_not_bool(val.path, val.offset)
    args.set_tname(val.path, val.offset, ADDRESS, 20)
    return True


def add_labels(m, args):
    first, second = map(arg_of, m.args)
    if m.op != ADD or not first or not second:
        return False
    args.mark_not_bool(first.path, first.offset)
    args.mark_not_bool(second.path, second.offset)
    add_val = first.add_val + second.add_val
    if add_val < 1 << 32:
        longer = first if len(first.path) > len(second.path) else second
        m.top().label = Label(ARG, longer._replace(add_val=add_val))
    return True


def add_constant(m, args):
    if m.op != ADD:
        return False
    for el, ot in (m.args, m.args[::-1]):
        val = arg_of(el)
        if val:
            args.mark_not_bool(val.path, val.offset)
            if val.offset == 0 and val.add_val == 0 and val.path and el.data == 0 and ot.data == M - 1:
                m.top().data = 0
            total = (ot.data + val.add_val) % M
            if total < 1 << 32:
                m.top().label = Label(ARG, val._replace(add_val=total))
            return True
    return False


def shl_root(m, args):
    shift, val = m.args[0].data, arg_of(m.args[1])
    if m.op != SHL or not val or val.path or not args.decoder_active:
        return False
    args.mark_not_bool(val.path, val.offset)
    if guard_failure_pc(m.code, m.pc, True) is not None and 8 <= shift <= 256 and shift % 8 == 0:
        args.set_tname(val.path, val.offset, FIXED_BYTES + shift // 8, 20)
    return True


def multiply_length(m, args):
    if m.op not in (MUL, SHL):
        return False
    for el, ot in ((m.args, m.args[::-1]) if m.op == MUL else (m.args[::-1],)):
        val = arg_of(el)
        if not val or val.offset or val.add_val:
            continue
        args.mark_not_bool(val.path, 0)
        other = arg_of(ot)
        if other:
            args.mark_not_bool(other.path, other.offset)
        if val.path:
            by_multiplier(m, args, val.path, power(ot.data) if m.op == SHL else ot.data)
        return True
    return False


def by_multiplier(m, args, path, mult):
    means = multiplier(mult)
    if means == 'one':
        args.set_tname(path[:-1], path[-1], BYTES, 10)
    elif means == 'two':
        args.set_tname(path[:-1], path[-1], STRING, 20)
    elif means != 'other':
        args.set_info(path, ARRAY, mult // 32)
        for el in m.stack + m.memory:
            lab = arg_of(el)
            if lab and lab.offset == 0 and lab.path == path and lab.add_val == 0:
                el.data = 1
        m.top().data = mult


def compare_length(m, args):
    if m.op not in (LT, GT):
        return False
    ot, el = m.args if m.op == LT else m.args[::-1]
    val = arg_of(el)
    if not val or val.offset or val.add_val or val.and_mask is not None:
        return False
    args.mark_not_bool(val.path, 0)
    if ot.data in (0, 31):
        m.top().data = 1
    return True


def compare_or_multiply(m, args):
    val = arg_of(m.args[0]) or arg_of(m.args[1])
    if m.op not in (LT, GT, MUL) or not val:
        return False
    if not args.has_range_hint(val.path, val.offset):
        args.mark_not_bool(val.path, val.offset)
    return True


def mstore8(m, args):
    val = arg_of(m.args[0])
    if m.op != MSTORE8 or not val:
        return False
    args.mark_not_bool(val.path, val.offset)
    args.set_tname(val.path, val.offset, UINT + 8, 12)
    return True


def shr(m, args):
    width, val = m.args[0].data, arg_of(m.args[1])
    if m.op != SHR or not val or not args.decoder_active:
        return False
    if guard_failure_pc(m.code, m.pc, True) is not None and 1 <= width < 256:
        if width == 1:
            args.set_tname(val.path, val.offset, BOOL, 20)
        elif width == 160:
            args.set_tname(val.path, val.offset, ADDRESS, 20)
        elif width % 8 == 0:
            args.set_tname(val.path, val.offset, UINT + width, 20)
    return True


def signed_division(m, args):
    val = arg_of(m.args[0]) or arg_of(m.args[1])
    if m.op not in (SDIV, SMOD) or not val:
        return False
    args.mark_not_bool(val.path, val.offset)
    args.set_tname(val.path, val.offset, INT + 256, 8)
    return True


def and_mask(m, args):
    if m.op != AND:
        return False
    for el, ot in (m.args, m.args[::-1]):
        val = arg_of(el)
        if val and val.and_mask is None:
            args.mark_not_bool(val.path, val.offset)
            t = mask_type(ot.data)
            if t:
                args.set_tname(val.path, val.offset, t, 5)
                m.top().label = Label(ARG, val._replace(and_mask=ot.data))
            return True
    return False


def eq_masked(m, args):
    if m.op != EQ:
        return False
    for el, ot in (m.args, m.args[::-1]):
        val, masked = arg_of(el), arg_of(ot)
        if val and masked and val.and_mask is None and masked.and_mask is not None:
            t = mask_type(masked.and_mask)
            if masked._replace(and_mask=None) == val and t:
                args.set_tname(val.path, val.offset, t, 20)
            return True
    return False


def iszero(m, args):
    label = m.args[0].label
    if m.op != ISZERO or label is None or label.kind == CALL_DATA:
        return False
    if label.kind == ARG:
        m.top().label = Label(IS_ZERO_RESULT, label.val)
    elif not is_division_check(m.code, m.pc):
        args.set_tname(label.val.path, label.val.offset, BOOL, 5)
    return True


def signextend(m, args):
    size, val = m.args[0].data, arg_of(m.args[1])
    if m.op != SIGNEXTEND or not val:
        return False
    if size < 32:
        args.set_tname(val.path, val.offset, INT + (size + 1) * 8, 20)
    return True


def byte(m, args):
    val = arg_of(m.args[1])
    if m.op != BYTE or not val:
        return False
    args.set_tname(val.path, val.offset, FIXED_BYTES + 32, 4)
    return True


def mload(m, args):
    if m.op != MLOAD or m.memory_load is None:
        return False
    if m.memory_load.kind == ARG:
        m.top().label = m.memory_load
    return True


ARMS = (labelled_load, unlabelled_load, call, add_labels, add_constant, shl_root, multiply_length, compare_length, compare_or_multiply, mstore8,
        shr, signed_division, and_mask, eq_masked, iszero, signextend, byte, mload)
