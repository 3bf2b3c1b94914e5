#!/usr/bin/env python3
"""Makes the traces of crates/step_vectors: step_vectors.py stdin > crates/step_vectors/stdin, and stdout the same way.

The lines come from the model of step_model.py. Each trace has a name, which is printed; the functions of step_questions.py, step_phases.py, step_loads.py,
step_lengths.py, step_names.py, step_records.py and step_random.py say which sentence of document 01 or which lines of the Rust's `analyze` their traces are
for; step_trace.py has the terms that they are written in. Where the things stand that are easy to get wrong:
- made seen runs up, under old numbers: 'load: made seen runs up', 'deep: ..'
- one record for a mark and a later name, equal labels need one record, the order of numbers: 'question 8: ..', 'numbers: ..'
- unseen records in the chains: 'numbers: keys in any order'; long chains that jump about: 'lookup: ..'
- hints of both operands as handed in, EQ blocks both: 'hints: ..'; every opcode: 'question 7: every op, ..'
- LT and GT, the length arm before the general one, range names left alone: 'length arm of ..', 'general arm of ..'
- the bound by orientation, what else the range rule asks, that it stops the step and marks directly: 'range: ..'
- AND's operand and a mask without a type, SDIV and SMOD: 'and: ..', 'signed ..'
- SHL's two arms, shifts of 256 and more: 'SHL ..'
- loads with a label: added below 4 or no multiple of 32, arrays on the path, the word 1, pick 0: 'labelled load ..', 'load: ..'
- words of an array mark, and the top's: 'product: words of an array'
- sums that aren't kept: 'sum: ..'
- MSTORE8's first operand, MLOAD's labels: 'mstore8', 'mload'
- an array replaces a larger dynamic: 'load: counts'
- pc and jump targets at 2^32 - 1: 'range: pc at its end'
- P1, P7, P8, P9, and LT's and GT's bounds 1, 2, 256 and 257: 'P1' to 'P9: ..', 'range: LT, argument first' and its three neighbours
"""
import struct
import sys

from step_lengths import array_words, calls, general_arm, lengths, product_names, products, shifts, shifts_right, sums
from step_loads import bench, loads, memory_loads
from step_names import confidences, masks, names, zeros
from step_phases import decoder_phase, hints, range_rule
from step_questions import (question_1, question_2, question_3, question_4, question_5, question_6, question_7, question_8, refused_between,
                            several_questions)
from step_random import random_traces
from step_records import deep, lookups, numbers
from step_trace import TRACES
from table_vectors import WIDTH

# the order of the traces in the two files
MAKERS = (question_1, question_2, question_3, question_4, question_5, question_6, question_7, question_8, several_questions, refused_between, hints, range_rule,
          decoder_phase, loads, bench, calls, sums, shifts, shifts_right, products, array_words, product_names, general_arm, lengths, names, confidences, masks,
          zeros, memory_loads, deep, numbers, lookups, random_traces)


def pairs_form(pairs):
    return [len(pairs)] + [n for pair in pairs for n in pair]


def list_form(numbers):
    return [len(numbers)] + pairs_form([(i, n) for i, n in enumerate(numbers) if n])


def step_form(replaced, head, waiting, code, stack, memory, numbers):
    given = code.strip(b'\0')
    start = len(code.rstrip(b'\0')) - len(given)
    before = ([1, *head] if replaced else [0]) + pairs_form(list(waiting.items())) + [len(code), start, len(given)]
    after = list_form(stack) + list_form(memory) + list_form(numbers)
    return struct.pack(f'<{len(before)}I', *before) + given + struct.pack(f'<{len(after)}I', *after)


def main():
    for make in MAKERS:
        make()
    if sys.argv[1:] == ['stdin']:
        for t in TRACES:
            sys.stdout.buffer.write(t.name.encode().ljust(40, b'\0') + struct.pack('<3I', len(t.name), t.length, len(t.steps)))
            sys.stdout.buffer.write(b''.join(step_form(*s) for s in t.steps))
    elif sys.argv[1:] == ['stdout']:
        for t in TRACES:
            print(t.name, t.length, 'refused 1' if t.refused else t.length // WIDTH)
            for line in t.lines:
                print(line)
    else:
        sys.exit(__doc__)


if __name__ == '__main__':
    main()
