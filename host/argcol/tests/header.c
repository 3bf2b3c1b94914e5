/*
 * A host by argcol.h alone, linked with the archive; it is C99 and C++. All functions, every answer and every refusal:
 * P1 of document 01, a tuple behind a start pc, over, a packed word, an entry, a load label; and after each refusal all
 * that was lent is as it was.
 */
#include "argcol.h"
#include <stdio.h>
#include <stdlib.h>
#include <string.h>

#define ADD 0x01
#define MUL 0x02
#define LT 0x10
#define GT 0x11
#define ISZERO 0x15
#define AND 0x16
#define SHL 0x1b
#define CALLDATALOAD 0x35
#define CALLDATACOPY 0x37
#define MLOAD 0x51

#define RECORDS 66

/* All that is lent, with room for one number or byte too much. */
typedef struct {
    uint32_t used, active;
    uint32_t table[ARGCOL_RECORD * (ARGCOL_MOST_RECORDS + 1)];
    uint32_t stack[ARGCOL_SLOT * (ARGCOL_MOST_SLOTS + 1)];
    uint32_t memory[ARGCOL_ENTRY * (ARGCOL_MOST_ENTRIES + 1)];
    uint32_t step[ARGCOL_STEP + 1];
    uint8_t code[ARGCOL_MOST_CODE + 1];
    uint32_t word[ARGCOL_WORD];
    uint16_t types[ARGCOL_MOST_CODES + 1];
    uint8_t text[64];
} Lent;

static Lent lent, before;
static size_t records, slots, entries, code_len;
/* the answers' values, with these ahead of each call, which a refusal leaves alone */
enum { KIND = 41, COUNT, LEFT, LENGTH, TEXT_LENGTH };
static uint32_t kind, count, left, length;
static size_t text_length;

/* assert is off where NDEBUG is set */
#define CHECK(truth) check(truth, #truth, __LINE__)

static void check(int truth, const char *text, int line) {
    if (!truth) {
        fprintf(stderr, "header.c, line %d: not so: %s\n", line, text);
        exit(1);
    }
}

static void ahead(void) {
    kind = KIND;
    count = COUNT;
    left = LEFT;
    length = LENGTH;
    text_length = TEXT_LENGTH;
}

static uint32_t fresh(void) {
    return argcol_fresh(&lent.used, &lent.active, lent.table, ARGCOL_RECORD * records);
}

static uint32_t step_of(size_t numbers) {
    return argcol_step(&lent.used, &lent.active, lent.table, ARGCOL_RECORD * records, lent.code, code_len, lent.stack,
                       ARGCOL_SLOT * slots, lent.memory, ARGCOL_ENTRY * entries, lent.step, numbers);
}

static uint32_t step(void) {
    return step_of(ARGCOL_STEP);
}

static uint32_t closing(uint32_t start, uint32_t flag, size_t types) {
    ahead();
    return argcol_closing(&lent.used, &lent.active, lent.table, ARGCOL_RECORD * records, lent.code, code_len, start,
                          flag, lent.word, lent.types, types, &kind, &count, &left, &length);
}

static uint32_t text(size_t codes, size_t room) {
    ahead();
    return argcol_text(lent.types, codes, lent.text, room, &text_length);
}

/* A fresh table with one slot, no entry, no code and a step of zeros. */
static void begin(size_t count_of_records) {
    memset(&lent, 0, sizeof lent);
    records = count_of_records;
    slots = 1;
    entries = code_len = 0;
    CHECK(fresh() == ARGCOL_TAKEN && lent.used == 1 && lent.active == 1);
}

static void put_label(uint32_t *label, uint32_t label_kind, uint32_t offset, uint32_t path, uint32_t added) {
    memset(label, 0, ARGCOL_LABEL * sizeof *label);
    label[ARGCOL_LABEL_KIND] = label_kind;
    label[ARGCOL_LABEL_OFFSET] = offset;
    label[ARGCOL_LABEL_PATH] = path;
    label[ARGCOL_LABEL_ADDED] = added;
}

static uint32_t *operand(size_t place) {
    return lent.step + place;
}

/* The lowest number of an operand's word. */
static void put_word(size_t place, uint32_t value) {
    operand(place)[ARGCOL_SLOT_WORD + ARGCOL_WORD - 1] = value;
}

static void put_op(uint32_t op) {
    memset(lent.step, 0, sizeof lent.step);
    lent.step[ARGCOL_STEP_OP] = op;
}

/* An unlabelled load. */
static uint32_t load(uint32_t place) {
    put_op(CALLDATALOAD);
    put_word(ARGCOL_STEP_FIRST, place);
    return step();
}

/* An opcode on the argument at offset 0 of a path, and a number. */
static uint32_t on_argument(uint32_t op, uint32_t path, uint32_t added, uint32_t second) {
    put_op(op);
    put_label(operand(ARGCOL_STEP_FIRST) + ARGCOL_SLOT_LABEL, ARGCOL_KIND_ARG, 0, path, added);
    put_word(ARGCOL_STEP_SECOND, second);
    return step();
}

/* Where the list ends, as the header says. */
static size_t list_length(void) {
    size_t at = 0, wanted = count;
    while (wanted > 0) {
        size_t code = lent.types[at++];
        wanted -= 1;
        if (code == ARGCOL_ARRAY) {
            wanted += 1;
        } else if (code > ARGCOL_TUPLE) {
            wanted += code - ARGCOL_TUPLE;
        }
    }
    return at;
}

/* The list's text is this one. */
static int list_is(const char *expected) {
    CHECK(text(list_length(), sizeof lent.text) == ARGCOL_TAKEN);
    return text_length == strlen(expected) && memcmp(lent.text, expected, text_length) == 0;
}

static void p1(void) {
    begin(RECORDS);
    CHECK(load(4) == 0 && lent.used == 2);
    CHECK(on_argument(CALLDATALOAD, 1, 4, 0) == 0);
    CHECK(on_argument(MUL, 2, 0, 32) == 0);
    CHECK(closing(0, 0, ARGCOL_TYPES) == 0);
    CHECK(kind == ARGCOL_GRANTED && count == 1 && left == 8189 && length == 32);
    CHECK(list_length() == 2 && lent.types[0] == ARGCOL_ARRAY && lent.types[1] == ARGCOL_UINT + 256);
    CHECK(list_is("uint256[]"));
    CHECK(lent.table[ARGCOL_RECORD + ARGCOL_RECORD_KIND] == ARGCOL_RECORD_ARRAY);
    CHECK(lent.table[ARGCOL_RECORD + ARGCOL_RECORD_COUNT] == 1 && lent.table[ARGCOL_RECORD + ARGCOL_RECORD_SEEN] == 1);
}

/* PUSH1 44 CALLDATASIZE LT behind the start pc asks for two argument words, PUSH1 64 at place 0 would for three. Then
 * argument 0 points to three words. */
static void a_tuple_behind_a_start_pc(void) {
    const uint8_t code[] = {0x60, 0x64, 0x36, 0x10, 0x5b, 0x60, 0x44, 0x36, 0x10};
    begin(RECORDS);
    CHECK(closing(0, 0, ARGCOL_TYPES) == 0 && kind == ARGCOL_NONE && count == 0 && left == 0 && length == 0);
    memcpy(lent.code, code, sizeof code);
    code_len = sizeof code;
    CHECK(closing(4, 0, ARGCOL_TYPES) == 0 && kind == ARGCOL_GRANTED && list_is("uint256,uint256"));
    CHECK(on_argument(CALLDATALOAD, 1, 68, 0) == 0);
    code_len = 0;
    CHECK(closing(0, 0, ARGCOL_TYPES) == 0 && count == 2 && length == 64);
    CHECK(list_length() == 5 && lent.types[0] == ARGCOL_TUPLE + 3 && list_is("(uint256,uint256,uint256),uint256"));
}

/* 64 keys one below the other are granted, and one more is over. */
static void over(void) {
    uint32_t path;
    begin(RECORDS);
    for (path = 1; path <= 64; path++) {
        CHECK(on_argument(CALLDATALOAD, path, 4, 0) == 0 && lent.used == path + 1);
    }
    CHECK(closing(0, 0, ARGCOL_TYPES) == 0 && kind == ARGCOL_GRANTED && left == 8127);
    CHECK(on_argument(CALLDATALOAD, 65, 4, 0) == 0 && lent.used == 66);
    memcpy(&before, &lent, sizeof lent);
    CHECK(closing(0, 0, ARGCOL_TYPES) == 0 && kind == ARGCOL_OVER && count == 0 && left == 0 && length == 0);
    CHECK(memcmp(&before, &lent, sizeof lent) == 0);
}

/* DUP1 PUSH1 fe AND CALLDATASIZE LT: the packed word says that two argument words are there. */
static void a_packed_word(void) {
    const uint8_t code[] = {0x80, 0x60, 0xfe, 0x16, 0x36, 0x10};
    begin(RECORDS);
    memcpy(lent.code, code, sizeof code);
    code_len = sizeof code;
    lent.word[ARGCOL_WORD - 1] = 68;
    CHECK(closing(0, 0, ARGCOL_TYPES) == 0 && kind == ARGCOL_NONE && lent.used == 1);
    CHECK(closing(0, 1, ARGCOL_TYPES) == 0 && kind == ARGCOL_GRANTED && lent.used == 3 && list_is("uint256,uint256"));
}

/* A copy puts a label on the entry that it finds; an array mark replaces the bytes of those with its label. */
static void an_entry(void) {
    uint32_t *entry = lent.memory + ARGCOL_ENTRY;
    begin(RECORDS);
    entries = 2;
    entry[ARGCOL_ENTRY_OFFSET] = 64;
    CHECK(load(4) == 0);
    put_op(CALLDATACOPY);
    put_label(operand(ARGCOL_STEP_FIRST) + ARGCOL_SLOT_LABEL, ARGCOL_KIND_ARG, 0, 1, 4);
    put_word(ARGCOL_STEP_SECOND, 64);
    lent.step[ARGCOL_STEP_PICK] = 2;
    CHECK(step() == 0);
    CHECK(entry[ARGCOL_ENTRY_LABEL + ARGCOL_LABEL_KIND] == ARGCOL_KIND_ARG && entry[ARGCOL_ENTRY_REPLACED] == 0);
    CHECK(entry[ARGCOL_ENTRY_LABEL + ARGCOL_LABEL_PATH] == 2 && lent.memory[ARGCOL_ENTRY_LABEL] == ARGCOL_KIND_NONE);
    CHECK(closing(0, 0, ARGCOL_TYPES) == 0 && list_is("bytes"));
    CHECK(on_argument(MUL, 2, 0, 32) == 0 && entry[ARGCOL_ENTRY_REPLACED] == 1 && entry[ARGCOL_ENTRY_OFFSET] == 64);
}

/* A memory load hands its label on to the top; AND with a mask of one byte, and two zero tests. */
static void labels(void) {
    uint32_t *top = lent.stack + ARGCOL_SLOT_LABEL;
    begin(RECORDS);
    CHECK(load(36) == 0);
    put_op(MLOAD);
    lent.step[ARGCOL_STEP_LOADED] = 1;
    put_label(lent.step + ARGCOL_STEP_LOAD, ARGCOL_KIND_ARG, 32, 1, 0);
    CHECK(step() == 0 && top[ARGCOL_LABEL_KIND] == ARGCOL_KIND_ARG && top[ARGCOL_LABEL_OFFSET] == 32);
    CHECK(on_argument(AND, 1, 0, 0xff) == 0 && top[ARGCOL_LABEL_MASKED] == 1);
    CHECK(top[ARGCOL_LABEL_MASK + ARGCOL_WORD - 1] == 0xff && top[ARGCOL_LABEL_OFFSET] == 0);
    put_op(ISZERO);
    put_label(operand(ARGCOL_STEP_FIRST) + ARGCOL_SLOT_LABEL, ARGCOL_KIND_ARG, 32, 1, 0);
    CHECK(step() == 0 && top[ARGCOL_LABEL_KIND] == ARGCOL_KIND_ZERO_TEST);
    memcpy(operand(ARGCOL_STEP_FIRST), lent.stack, ARGCOL_SLOT * sizeof *lent.stack);
    CHECK(step() == 0 && closing(0, 0, ARGCOL_TYPES) == 0 && list_is("uint8,bool"));
}

/* The call is refused by this number, and all that was lent is as it was. */
#define REFUSED(call, number) \
    do { \
        memcpy(&before, &lent, sizeof lent); \
        CHECK((call) == (number)); \
        CHECK(memcmp(&before, &lent, sizeof lent) == 0); \
        CHECK(kind == KIND && count == COUNT && left == LEFT && length == LENGTH && text_length == TEXT_LENGTH); \
    } while (0)

/* Something to be seen if it were written to: a load of word 0 on a table of two records, with two words asked for. */
static void something(void) {
    const uint8_t code[] = {0x60, 0x44, 0x36, 0x10};
    begin(2);
    memcpy(lent.code, code, sizeof code);
    code_len = sizeof code;
    memset(lent.types, 7, sizeof lent.types);
    memset(lent.text, 'x', sizeof lent.text);
    put_op(CALLDATALOAD);
    put_word(ARGCOL_STEP_FIRST, 4);
    ahead();
}

static void refused_tables_and_codes(void) {
    something();
    records = 0;
    REFUSED(fresh(), ARGCOL_REFUSED_RECORD_COUNT);
    REFUSED(step(), ARGCOL_REFUSED_RECORD_COUNT);
    REFUSED(closing(0, 0, ARGCOL_TYPES), ARGCOL_REFUSED_RECORD_COUNT);
    records = ARGCOL_MOST_RECORDS + 1;
    REFUSED(fresh(), ARGCOL_REFUSED_RECORD_COUNT);
    records = 2;
    lent.used = 2;
    REFUSED(step(), ARGCOL_REFUSED_UNSOUND);
    REFUSED(closing(0, 0, ARGCOL_TYPES), ARGCOL_REFUSED_UNSOUND);
    lent.used = 1;
    code_len = ARGCOL_MOST_CODE + 1;
    REFUSED(step(), ARGCOL_REFUSED_LONG_CODE);
    REFUSED(closing(0, 0, ARGCOL_TYPES), ARGCOL_REFUSED_LONG_CODE);
    code_len = ARGCOL_MOST_CODE;
    CHECK(step() == ARGCOL_TAKEN);
}

static void refused_steps(void) {
    const uint32_t ops[] = {CALLDATALOAD, ADD, MUL, SHL, LT, GT, AND, ISZERO, MLOAD};
    size_t i;
    something();
    REFUSED(step_of(ARGCOL_STEP - 1), ARGCOL_REFUSED_SIZES);
    REFUSED(step_of(ARGCOL_STEP + 1), ARGCOL_REFUSED_SIZES);
    slots = ARGCOL_MOST_SLOTS + 1;
    REFUSED(step(), ARGCOL_REFUSED_SIZES);
    slots = 1;
    entries = ARGCOL_MOST_ENTRIES + 1;
    REFUSED(step(), ARGCOL_REFUSED_SIZES);
    entries = 1;
    lent.stack[ARGCOL_SLOT_LABEL + ARGCOL_LABEL_KIND] = ARGCOL_KIND_ZERO_TEST + 1;
    REFUSED(step(), ARGCOL_REFUSED_LABELS);
    put_label(lent.stack + ARGCOL_SLOT_LABEL, ARGCOL_KIND_ARG, 0, 2, 0);
    REFUSED(step(), ARGCOL_REFUSED_LABELS);
    put_label(lent.stack + ARGCOL_SLOT_LABEL, ARGCOL_KIND_NONE, 0, 0, 0);
    lent.memory[ARGCOL_ENTRY_REPLACED] = 2;
    REFUSED(step(), ARGCOL_REFUSED_LABELS);
    lent.memory[ARGCOL_ENTRY_REPLACED] = 0;
    lent.step[ARGCOL_STEP_PICK] = 2;
    REFUSED(step(), ARGCOL_REFUSED_STEP);
    lent.step[ARGCOL_STEP_PICK] = 0;
    lent.step[ARGCOL_STEP_LOADED] = 1;
    REFUSED(step(), ARGCOL_REFUSED_STEP);
    lent.step[ARGCOL_STEP_LOADED] = 0;
    lent.step[ARGCOL_STEP_OP] = 256;
    REFUSED(step(), ARGCOL_REFUSED_STEP);
    slots = 0;
    for (i = 0; i < sizeof ops / sizeof *ops; i++) {
        lent.step[ARGCOL_STEP_OP] = ops[i];
        REFUSED(step(), ARGCOL_REFUSED_EMPTY_STACK);
    }
}

static void refused_for_want_of_room(void) {
    something();
    REFUSED(closing(0, 0, ARGCOL_TYPES - 1), ARGCOL_REFUSED_SHORT_TYPES);
    REFUSED(closing(0, 0, ARGCOL_TYPES), ARGCOL_REFUSED_NO_ROOM);
    CHECK(step() == ARGCOL_TAKEN);
    put_word(ARGCOL_STEP_FIRST, 36);
    REFUSED(step(), ARGCOL_REFUSED_NO_ROOM);
    /* zeros behind the old numbers */
    records = 3;
    CHECK(step() == ARGCOL_TAKEN && lent.used == 3);
    CHECK(closing(0, 0, ARGCOL_TYPES) == ARGCOL_TAKEN && list_is("uint256,uint256"));
}

static void refused_texts(void) {
    something();
    lent.types[0] = ARGCOL_ADDRESS;
    lent.types[1] = ARGCOL_ARRAY;
    REFUSED(text(2, sizeof lent.text), ARGCOL_REFUSED_NOT_TYPES);
    REFUSED(text(1, 6), ARGCOL_REFUSED_TEXT_TOO_LONG);
    CHECK(text(1, 7) == ARGCOL_TAKEN && text_length == 7 && memcmp(lent.text, "addressx", 8) == 0);
    CHECK(text(0, 0) == ARGCOL_TAKEN && text_length == 0);
    lent.types[0] = ARGCOL_STRING;
    CHECK(text(1, sizeof lent.text) == ARGCOL_TAKEN && memcmp(lent.text, "stringsx", 8) == 0);
}

int main(void) {
    CHECK(argcol_version() == ARGCOL_VERSION);
    p1();
    a_tuple_behind_a_start_pc();
    over();
    a_packed_word();
    an_entry();
    labels();
    refused_tables_and_codes();
    refused_steps();
    refused_for_want_of_room();
    refused_texts();
    puts("argcol.h: ok");
    return 0;
}
