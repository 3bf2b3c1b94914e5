/*
 * The argument column's calls for C: the fresh call, the step, the closing and the text call of document 01. Link
 * libargcol.a, which host/archive writes to target/staticlib/ (x86-64 Linux). From Rust, use host/argcol.
 *
 * Numbers. Any number and any length may be handed in: what document 01 does not take is refused by its number, and a
 * refused call leaves the head and the lent slices as they were. What a call returns is that number, 0 for a call that
 * is taken. crates/argcol/src/lib.rt has the contracts.
 *
 * Memory, which no contract can ask for: a pointer with a length is to that many numbers, word to eight, the others to
 * one. No pointer is NULL, at length 0 neither; each is aligned for its type; what is written overlaps with nothing
 * else that is handed in; and nothing else writes to any of it during the call.
 *
 * Threads. The functions have no state of their own and keep no pointer, so that calls on different memory may run at
 * the same time in any threads.
 *
 * Stack, as measured. A step or a closing takes 64 bytes of the calling thread's stack for each level of the facts,
 * beside some 16,000: 1.06 MB for the deepest table, 16,384 records in one chain. The text call takes some 21,000.
 *
 * The head is two numbers, lent to every call but the text call: used, the records used, and active, 1 while the
 * decoder phase lasts and 0 after it.
 */
#ifndef ARGCOL_H
#define ARGCOL_H

#include <stddef.h>
#include <stdint.h>

#ifdef __cplusplus
extern "C" {
#endif

/* The version of this header. The archive's is argcol_version(): another one has other declarations. */
#define ARGCOL_VERSION 1

/* Limits: records of a table, bytes of code, slots of a stack, entries of a memory, codes of a list that has a text. */
#define ARGCOL_MOST_RECORDS 16384
#define ARGCOL_MOST_CODE 65536
#define ARGCOL_MOST_SLOTS 1024
#define ARGCOL_MOST_ENTRIES 1024
#define ARGCOL_MOST_CODES 8192

/* Codes that a closing's types slice has room for at least. */
#define ARGCOL_TYPES 8192

/* A word: eight numbers, highest first. */
#define ARGCOL_WORD 8

/*
 * A label: where a value came from. Kinds none and call data, and a mask that is not there (masked 0), have zero in
 * what they don't use. A path is the number of a used record, from 1, the root.
 */
#define ARGCOL_LABEL 13
#define ARGCOL_LABEL_KIND 0
#define ARGCOL_LABEL_OFFSET 1
#define ARGCOL_LABEL_PATH 2
#define ARGCOL_LABEL_ADDED 3
#define ARGCOL_LABEL_MASKED 4
#define ARGCOL_LABEL_MASK 5

/* A label's kind: none, call data, an argument, the zero test of an argument. */
#define ARGCOL_KIND_NONE 0
#define ARGCOL_KIND_CALLDATA 1
#define ARGCOL_KIND_ARG 2
#define ARGCOL_KIND_ZERO_TEST 3

/* A stack slot; the top is the last one. */
#define ARGCOL_SLOT 21
#define ARGCOL_SLOT_WORD 0
#define ARGCOL_SLOT_LABEL 8

/* A memory entry; replaced is 1 if its bytes became the 32-byte word 1. */
#define ARGCOL_ENTRY 15
#define ARGCOL_ENTRY_OFFSET 0
#define ARGCOL_ENTRY_REPLACED 1
#define ARGCOL_ENTRY_LABEL 2

/*
 * A step: the opcode, the pc after it, two operands as slots, the memory entry that a copy finds (from 1, 0 for none),
 * and 1 with the label of the one chunk that covers exactly bytes 0 to 32 of a memory load, else 0 and no label.
 */
#define ARGCOL_STEP 59
#define ARGCOL_STEP_OP 0
#define ARGCOL_STEP_PC 1
#define ARGCOL_STEP_FIRST 2
#define ARGCOL_STEP_SECOND 23
#define ARGCOL_STEP_PICK 44
#define ARGCOL_STEP_LOADED 45
#define ARGCOL_STEP_LOAD 46

/*
 * A record of the table. Record n, from 1, begins at number ARGCOL_RECORD * (n - 1); parent, child and next are
 * records' numbers, 0 for none. Seen records are the facts.
 */
#define ARGCOL_RECORD 11
#define ARGCOL_RECORD_KEY 0
#define ARGCOL_RECORD_PARENT 1
#define ARGCOL_RECORD_CHILD 2
#define ARGCOL_RECORD_NEXT 3
#define ARGCOL_RECORD_SEEN 4
#define ARGCOL_RECORD_NOT_BOOL 5
#define ARGCOL_RECORD_BLOCKED 6
#define ARGCOL_RECORD_KIND 7
#define ARGCOL_RECORD_COUNT 8
#define ARGCOL_RECORD_NAME 9
#define ARGCOL_RECORD_CONFIDENCE 10

/* A record's kind. */
#define ARGCOL_RECORD_PLAIN 0
#define ARGCOL_RECORD_DYNAMIC 1
#define ARGCOL_RECORD_ARRAY 2

/*
 * Type codes. An array's element follows its code; uint and int have their bits added, 8 to 256 in eights, fixed bytes
 * their bytes, 1 to 32, and a tuple the number of the types that follow, 2 or more.
 */
#define ARGCOL_BOOL 1
#define ARGCOL_ADDRESS 2
#define ARGCOL_BYTES 3
#define ARGCOL_STRING 4
#define ARGCOL_ARRAY 5
#define ARGCOL_UINT 1000
#define ARGCOL_INT 2000
#define ARGCOL_FIXED_BYTES 3000
#define ARGCOL_TUPLE 16384

/* What a call returns: taken, or the first question that is answered with no. Later versions add numbers. */
#define ARGCOL_TAKEN 0
/* The table is not 1 to 16,384 records of 11 numbers. */
#define ARGCOL_REFUSED_RECORD_COUNT 1
/* The head or the table is not sound. */
#define ARGCOL_REFUSED_UNSOUND 2
/* The code has more than 65,536 bytes. */
#define ARGCOL_REFUSED_LONG_CODE 3
/* Stack or memory are not whole slots and entries, or more than 1,024, or the step is not 59 numbers. */
#define ARGCOL_REFUSED_SIZES 4
/* A label or a replaced mark is not well formed, or a label's path is no used record. */
#define ARGCOL_REFUSED_LABELS 5
/* The opcode is above 255, the pick above the entry count, the load flag not 0 or 1 as its label is none or not, or the
 * second word of a CALLDATACOPY 2^32 or more. */
#define ARGCOL_REFUSED_STEP 6
/* The stack is empty, for CALLDATALOAD, ADD, MUL, SHL, LT, GT, AND, ISZERO or MLOAD. */
#define ARGCOL_REFUSED_EMPTY_STACK 7
/* The call adds more records than are free: a longer table, with zeros behind the old numbers, may have room. */
#define ARGCOL_REFUSED_NO_ROOM 8
/* A closing's types have room for fewer than 8,192 codes. */
#define ARGCOL_REFUSED_SHORT_TYPES 9
/* The codes are no whole number of well-formed types, or more than 8,192. */
#define ARGCOL_REFUSED_NOT_TYPES 10
/* The text is longer than the slice for it. */
#define ARGCOL_REFUSED_TEXT_TOO_LONG 11

/* The kind of a closing's answer: no argument is known, too large to say, a list. */
#define ARGCOL_NONE 1
#define ARGCOL_OVER 2
#define ARGCOL_GRANTED 3

/* The archive's version, to be compared with ARGCOL_VERSION before any other call. */
uint32_t argcol_version(void);

/*
 * The fresh call: leaves a lone root in table, the other records zero, used 1 and active 1. The head's values at entry
 * don't matter. Returns 0 or 1.
 */
uint32_t argcol_fresh(uint32_t *used, uint32_t *active, uint32_t *table, size_t table_len);

/*
 * A step, with the numbers of the step itself in numbers, and stack and memory as they are after the opcode ran. It may
 * write labels and words to these. Returns 0, or 1 to 8.
 */
uint32_t argcol_step(uint32_t *used, uint32_t *active, uint32_t *table, size_t table_len, const uint8_t *code,
                     size_t code_len, uint32_t *stack, size_t stack_len, uint32_t *memory, size_t memory_len,
                     const uint32_t *numbers, size_t numbers_len);

/*
 * The closing. start is document 01's start pc: the place in code at which the function's own code begins to run,
 * behind the dispatch by selector. A checked length of the call data is looked for there. The packed word is the eight
 * numbers at word, highest first; at flag 0 there is none, and they may be anything. Returns 0, or 1, 2, 3, 9 or 8,
 * which are asked in this order.
 * The last four are written by a call that is taken, and are as they were after a refusal: kind is one of the three
 * above; entries, left and length (of the head, in bytes) are 0 unless it is granted. The list's codes then stand
 * at the start of types, and the rest of types is as it was. A closing that is not refused leaves the filled records in
 * table; steps and closings may follow.
 * Where the list ends follows from its codes. At first as many types are wanted as there are entries; each code takes
 * one off and adds the types that it calls for: 1 for ARGCOL_ARRAY, n for ARGCOL_TUPLE + n, none for the others. The
 * list ends behind the code that leaves none wanted.
 */
uint32_t argcol_closing(uint32_t *used, uint32_t *active, uint32_t *table, size_t table_len, const uint8_t *code,
                        size_t code_len, uint32_t start, uint32_t flag, const uint32_t word[ARGCOL_WORD],
                        uint16_t *types, size_t types_len, uint32_t *kind, uint32_t *entries, uint32_t *left,
                        uint32_t *length);

/*
 * The text call: writes the text of the types that codes stand for to the start of out, with no zero at its end; the
 * rest of out is as it was. Returns 0, 10 or 11. length has the text's length in bytes after a call that is taken, and
 * is as it was after a refusal.
 */
uint32_t argcol_text(const uint16_t *codes, size_t codes_len, uint8_t *out, size_t out_len, size_t *length);

#ifdef __cplusplus
}
#endif

#endif
