//! Every refusal, by the number of its question. Whatever the call was lent is compared before and after it.

mod common;

use argcol::*;
use common::*;
use std::fmt::Debug;

/// The refusal of a call on a session and on what it is lent.
fn refused<L: Clone + PartialEq + Debug, T: Debug>(
    session: &mut Session,
    mut lent: L,
    call: impl FnOnce(&mut Session, &mut L) -> Result<T, Error>,
) -> Refused {
    let before = (session.clone(), lent.clone());
    let error = call(session, &mut lent).unwrap_err();
    assert!((&*session, &lent) == (&before.0, &before.1), "a refused call changes nothing");
    error.refused().unwrap_or_else(|| panic!("{error}"))
}

fn step(session: &mut Session, code: &[u8], stack: &[Slot], memory: &[Entry], step: &Step) -> Refused {
    let lent = (Stack::from(stack), Memory::from(memory));
    refused(session, lent, |session, (stack, memory)| session.step(code, stack, memory, step))
}

fn numbers(session: &mut Session, stack: &[u32], memory: &[u32], step: &[u32]) -> Refused {
    let lent = (stack.to_vec(), memory.to_vec());
    refused(session, lent, |session, (stack, memory)| session.step_numbers(&[], stack, memory, step))
}

fn close_into(session: &mut Session, code: &[u8], types: usize) -> Refused {
    refused(session, vec![3; types], |session, types| session.close_into(code, 0, None, types))
}

/// Both closings refuse alike.
fn close(session: &mut Session, code: &[u8]) -> Refused {
    let said = refused(session, (), |session, ()| session.close(code, 0, None));
    assert_eq!(close_into(session, code, TYPES), said);
    said
}

/// No session has such a head and table, nor does any call take them: each of the C functions refuses by this number.
fn no_session(head: Head, table: &[u32], number: u32) {
    let said = Session::from_numbers(head, table.to_vec()).unwrap_err();
    assert_eq!(said.refused().map(Refused::number), Some(number), "{head:?} {} numbers", table.len());
    let (mut after, mut lent, mut types) = (head, table.to_vec(), vec![3; TYPES]);
    let (mut stack, mut memory) = (vec![0; SLOT], vec![0; ENTRY]);
    let load = <[u32; STEP]>::from(&load(4));
    assert_eq!(raw::step(&mut after, &mut lent, &[], &mut stack, &mut memory, &load), number, "{head:?} {table:?}");
    let said = raw::closing(&mut after, &mut lent, &TWO_WORDS, 0, 0, &[0; 8], &mut types);
    assert_eq!((said.number, said.kind, said.entries, said.left, said.length), (number, 0, 0, 0, 0));
    assert_eq!((after, &lent[..]), (head, table));
    assert_eq!((stack, memory, types), (vec![0; SLOT], vec![0; ENTRY], vec![3; TYPES]));
}

#[test]
fn question_1_the_record_count() {
    for records in [0, MOST_RECORDS + 1, usize::MAX] {
        let said = [Session::new(records), Session::growing(records, 8), Session::growing(8, records)];
        said.into_iter().for_each(|said| assert_eq!(said.unwrap_err(), Refused::RecordCount.into()));
    }
    for length in [0, 1, 10, 12, RECORD * (MOST_RECORDS + 1)] {
        no_session(Head::new(1, 1), &vec![0; length], 1);
        let (mut head, mut table) = (Head::new(7, 8), vec![9; length]);
        assert_eq!(raw::fresh(&mut head, &mut table), 1);
        assert_eq!((head, table), (Head::new(7, 8), vec![9; length]));
    }
    let mut session = Session::new(8).unwrap();
    for records in [MOST_RECORDS + 1, usize::MAX] {
        assert_eq!(refused(&mut session, (), |session, ()| session.grow(records)), Refused::RecordCount);
    }
}

#[test]
fn question_2_unsound_tables() {
    // a root with a named child at key 0 and an array of one at key 32; the fourth record is free
    let child = [0, 1, 0, 3, 1, 0, 0, 0, 0, 1256, 5];
    let mut table = [ROOT, child, [32, 1, 0, 0, 1, 0, 0, 2, 1, 0, 0], [0; RECORD]].concat();
    table[2] = 2;
    assert!(Session::from_numbers(Head::new(3, 1), table.clone()).is_ok());
    assert!(Session::from_numbers(Head::new(3, 0), table.clone()).is_ok());
    for active in [2, u32::MAX] {
        no_session(Head::new(3, active), &table, 2);
    }
    for used in [0, 1, 2, 4, 5, u32::MAX] {
        no_session(Head::new(used, 1), &table, 2);
    }
    let (root, child, array, free) = (0, RECORD, 2 * RECORD, 3 * RECORD);
    let fields = [
        (root, [(0, 32), (1, 1), (2, 0), (2, 3), (2, 4), (3, 2), (4, 0), (5, 1), (6, 1), (7, 1), (9, 1)]),
        (child, [(0, 32), (1, 0), (1, 2), (3, 0), (3, 2), (4, 0), (4, 2), (5, 2), (9, 5), (9, 1252), (10, 21)]),
        (array, [(0, 0), (1, 2), (2, 2), (3, 2), (6, 2), (7, 0), (7, 3), (8, 0), (8, 100), (9, 2), (10, 1)]),
        (free, std::array::from_fn(|field| (field, 1))),
    ];
    for (record, edits) in fields {
        for (field, value) in edits {
            let mut table = table.clone();
            assert_ne!(std::mem::replace(&mut table[record + field], value), value);
            no_session(Head::new(3, 1), &table, 2);
        }
    }
}

#[test]
fn question_3_long_code() {
    let mut session = Session::new(2).unwrap();
    let long = vec![0; MOST_CODE + 1];
    assert_eq!(step(&mut session, &long, &[Slot::default()], &[], &load(4)).number(), 3);
    assert_eq!(close(&mut session, &long), Refused::LongCode);
    assert!(session.step(&long[1..], &mut Stack::new(), &mut Memory::new(), &Step::default()).is_ok());
    assert!(session.close(&long[1..], 0, None).is_ok());
}

#[test]
fn question_4_sizes() {
    let mut session = Session::new(2).unwrap();
    assert_eq!(step(&mut session, &[], &[Slot::default(); MOST_SLOTS + 1], &[], &Step::default()).number(), 4);
    assert_eq!(step(&mut session, &[], &[], &[Entry::default(); MOST_ENTRIES + 1], &Step::default()), Refused::Sizes);
    for (stack, memory, step) in
        [(20, 0, STEP), (22, 0, STEP), (0, 14, STEP), (0, 16, STEP), (0, 0, STEP - 1), (0, 0, STEP + 1), (0, 0, 0)]
    {
        assert_eq!(numbers(&mut session, &vec![0; stack], &vec![0; memory], &vec![0; step]), Refused::Sizes);
    }
    let (mut stack, mut memory) = ([Slot::default(); MOST_SLOTS].into(), [Entry::default(); MOST_ENTRIES].into());
    assert!(session.step(&[], &mut stack, &mut memory, &Step::default()).is_ok());
}

#[test]
fn question_5_labels() {
    let mut session = Session::new(2).unwrap();
    for path in [0, 2, u32::MAX] {
        assert_eq!(step(&mut session, &[], &[labelled(Arg::at(0, path))], &[], &Step::default()).number(), 5);
        let entry = Entry::at(0, Label::ZeroTest(Arg::at(0, path)));
        assert_eq!(step(&mut session, &[], &[], &[entry], &Step::default()), Refused::Labels);
        let second = Step::default().on_both(Slot::default(), labelled(Arg::at(0, path)));
        assert_eq!(step(&mut session, &[], &[], &[], &second), Refused::Labels);
    }
    let mut replaced = [0; ENTRY];
    replaced[1] = 2;
    assert_eq!(numbers(&mut session, &[], &replaced, &[0; STEP]), Refused::Labels);
    // a kind above 3, and numbers that kinds 0 and 1 don't use
    for (kind, field) in [(4, 0), (0, 1), (1, 3), (1, 12)] {
        let mut slot = [0; SLOT];
        slot[8 + field] = 1;
        slot[8] = kind;
        assert_eq!(numbers(&mut session, &slot, &[], &[0; STEP]), Refused::Labels);
    }
}

#[test]
fn question_6_the_step() {
    let mut session = Session::new(2).unwrap();
    for pick in [0, u32::MAX] {
        assert_eq!(step(&mut session, &[], &[], &[], &Step::default().picking(pick)).number(), 6);
    }
    assert_eq!(step(&mut session, &[], &[], &[Entry::default()], &Step::default().picking(1)), Refused::Step);
    assert_eq!(step(&mut session, &[], &[], &[], &Step::default().loading(Label::None)), Refused::Step);
    let copy = Step::new(op::CALLDATACOPY).on_both(Slot::default(), Slot::plain(1 << 32));
    assert_eq!(step(&mut session, &[], &[], &[], &copy), Refused::Step);
    // an opcode, a load flag, a load label without the flag
    for (at, value) in [(0, 256), (45, 2), (46, 1)] {
        let mut handed = [0; STEP];
        handed[at] = value;
        assert_eq!(numbers(&mut session, &[], &[], &handed), Refused::Step);
    }
}

#[test]
fn question_7_an_empty_stack() {
    let mut session = Session::new(2).unwrap();
    for op in [op::CALLDATALOAD, op::ADD, op::MUL, op::SHL, op::LT, op::GT, op::AND, op::ISZERO, op::MLOAD] {
        assert_eq!(step(&mut session, &[], &[], &[Entry::default()], &Step::new(op)), Refused::EmptyStack);
    }
}

#[test]
fn questions_8_and_9_room_for_records_and_types() {
    let mut session = Session::new(2).unwrap();
    session.step(&[], &mut [Slot::default()].into(), &mut Memory::new(), &load(4)).unwrap();
    assert_eq!(step(&mut session, &[], &[Slot::default()], &[], &load(36)).number(), 8);
    assert_eq!(close(&mut session, &TWO_WORDS), Refused::NoRoom);
    for length in [0, 1, TYPES - 1] {
        assert_eq!(close_into(&mut session, &[], length).number(), 9);
        // before the room for records
        assert_eq!(close_into(&mut session, &TWO_WORDS, length), Refused::ShortTypes);
    }
    assert!(session.close_into(&[], 0, None, &mut [0; TYPES]).is_ok());
}

#[test]
fn questions_10_and_11_texts() {
    for codes in [&[5][..], &[0], &[16_385, 1], &[16_386, 1], &[1004], &[1264], &[3033], &[6], &[1, 5], &[1; TYPES + 1]]
    {
        assert_eq!(text(codes).unwrap_err(), Refused::NotTypes.into(), "{codes:?}");
        let mut out = [b'x'; 70_000];
        assert_eq!(text_into(codes, &mut out).unwrap_err(), Refused::NotTypes.into());
        assert_eq!(out, [b'x'; 70_000]);
    }
    // uint256,address has 15 bytes
    for length in 0..15 {
        let mut out = vec![b'x'; length];
        assert_eq!(text_into(&[1256, 2], &mut out).unwrap_err(), Refused::TextTooLong.into());
        assert_eq!(out, vec![b'x'; length]);
    }
    assert_eq!(text_into(&[1256, 2], &mut [0; 15]), Ok(15));
}

#[test]
fn refusals_say_what_is_wrong() {
    for (i, refused) in Refused::ALL.iter().enumerate() {
        let number = refused.number();
        assert_eq!((number as usize, Refused::from_number(number)), (i + 1, Some(*refused)));
        let said: [Box<dyn std::error::Error>; 2] = [Box::new(*refused), Box::new(Error::from(*refused))];
        for said in said.map(|said| said.to_string()) {
            assert_eq!(said, format!("refused by question {number}: {}", refused.reason()));
            assert!(!said.contains('?') && !said.ends_with('.'), "a statement: {said}");
        }
    }
    assert_eq!(Refused::LongCode.to_string(), "refused by question 3: the code has more than 65,536 bytes");
    assert_eq!([0, 12, 100].map(Refused::from_number), [None; 3]);
}
