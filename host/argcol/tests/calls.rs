//! Calls that are taken, through the safe API.

mod common;

use argcol::*;
use common::*;

#[test]
fn a_fresh_session_is_a_lone_root() {
    let mut session = Session::new(3).unwrap();
    let table = [&ROOT[..], &[0; 22]].concat();
    assert_eq!((session.used(), session.active(), session.table()), (1, true, &table[..]));
    let (mut stack, mut memory) = (Stack::from([Slot::default()]), Memory::new());
    session.step(&[], &mut stack, &mut memory, &load(4)).unwrap();
    assert_eq!((session.used(), session.active()), (2, true));
    // SLOAD ends the decoder phase
    session.step(&[], &mut stack, &mut memory, &Step::new(op::SLOAD)).unwrap();
    assert_eq!((session.used(), session.active(), session.head()), (2, false, Head::new(2, 0)));
    session.reset().unwrap();
    assert_eq!((session.used(), session.active(), session.table()), (1, true, &table[..]));
    assert_eq!(Session::new(MOST_RECORDS).unwrap().table().len(), RECORD * MOST_RECORDS);
}

#[test]
fn a_session_shows_itself_in_a_line() {
    let session = Session::new(MOST_RECORDS).unwrap();
    assert_eq!(format!("{session:?}"), "Session { used: 1, records: 16384, active: true, .. }");
}

#[test]
fn p1_says_what_it_made_and_where_it_put_labels() {
    let mut session = Session::new(1_480).unwrap();
    let (mut stack, mut memory) = (Stack::from([Slot::plain(9), Slot::plain(5)]), Memory::new());
    let taken = session.step(&[], &mut stack, &mut memory, &load(4)).unwrap();
    assert_eq!(taken.made, 2..3);
    let labelled = [Slot::plain(9), Slot::plain(5).with_label(Arg::at(0, 1))];
    assert_eq!(stack, Stack::from(labelled), "the top is labelled");
    let taken = session.step(&[], &mut stack, &mut memory, &load_at(Arg::at(0, 1).with_added(4))).unwrap();
    assert!(taken.made.is_empty());
    assert_eq!(stack.get(1), Some(Slot::plain(5).with_label(Arg::at(0, 2))));
    session.step(&[], &mut Stack::from([Slot::plain(5)]), &mut memory, &times_32(Arg::at(0, 2))).unwrap();
    let list = granted(session.close(&[], 0, None).unwrap());
    assert_eq!((list.codes(), list.left(), list.head_length()), (&[5, 1256][..], 8189, 32));
    let types = [Type::Array(Box::new(Type::Uint(256)))];
    assert_eq!((list.types(), list.clone().into_types()), (&types[..], types.to_vec()));
    let closing = session.close(&[], 0, None).unwrap();
    assert_eq!((closing.to_string(), closing.list()), ("args 1 left 8189 head 32\n0 uint256[]".into(), Some(&list)));
    assert!((&list).into_iter().eq(&types) && list.into_iter().eq(types), "a list is iterated");
}

/// The same three steps, once in slots and once in numbers.
#[test]
fn steps_in_numbers() {
    let (mut session, mut other) = (Session::new(8).unwrap(), Session::new(8).unwrap());
    for step in [load(4), load_at(Arg::at(0, 1).with_added(4)), times_32(Arg::at(0, 2))] {
        let mut stack = Stack::from([Slot::plain(9), Slot::plain(5)]);
        let mut memory = Memory::from([Entry::at(64, Label::None)]);
        let (mut slots, mut entries) = (stack.numbers().to_vec(), memory.numbers().to_vec());
        let taken = session.step(&[], &mut stack, &mut memory, &step);
        assert_eq!(other.step_numbers(&[], &mut slots, &mut entries, &<[u32; STEP]>::from(&step)), taken);
        assert!(taken.is_ok() && slots == stack.numbers() && entries == memory.numbers());
        assert_eq!(other, session);
    }
    assert_eq!(granted(other.close(&[], 0, None).unwrap()).codes(), [5, 1256]);
}

fn top_arg(stack: &Stack) -> Arg {
    stack.top().and_then(|slot| slot.label.arg()).unwrap_or_else(|| panic!("{stack:?}"))
}

#[test]
fn masks_and_zero_tests() {
    let mut session = Session::new(64).unwrap();
    let (mut stack, mut memory) = (Stack::from([Slot::default()]), Memory::new());
    let mut take = |session: &mut Session, stack: &mut Stack, step: &Step| {
        session.step(&[], stack, &mut memory, step).unwrap();
    };
    take(&mut session, &mut stack, &load(4));
    let arg = top_arg(&stack);
    let mask = Word([0, 0, 0, u32::MAX, u32::MAX, u32::MAX, u32::MAX, u32::MAX]);
    take(&mut session, &mut stack, &Step::new(op::AND).on_both(labelled(arg), mask.into()));
    assert_eq!(stack.top().unwrap().label, Label::Arg(arg.masked(mask)));
    assert_eq!(granted(session.close(&[], 0, None).unwrap()).to_string(), "address");

    take(&mut session, &mut stack, &load(36));
    let second = top_arg(&stack);
    take(&mut session, &mut stack, &Step::new(op::ISZERO).on(labelled(second)));
    let tested = stack.top().unwrap();
    assert_eq!(tested.label, Label::ZeroTest(second));
    take(&mut session, &mut stack, &Step::new(op::ISZERO).on(tested));
    assert_eq!(granted(session.close(&[], 0, None).unwrap()).to_string(), "address,bool");

    take(&mut session, &mut stack, &Step::new(op::MLOAD).loading(second));
    assert_eq!(stack.top().unwrap().label, Label::Arg(second));
}

/// Bytes: the content is copied to a place in memory.
#[test]
fn copies() {
    let mut session = Session::new(64).unwrap();
    let mut stack = Stack::from([Slot::default()]);
    let mut memory = Memory::from([Entry::default(), Entry::at(64, Label::None)]);
    session.step(&[], &mut stack, &mut memory, &load(4)).unwrap();
    let copy = Step::new(op::CALLDATACOPY).on_both(labelled(Arg::at(0, 1).with_added(4)), Slot::plain(64)).picking(1);
    session.step(&[], &mut stack, &mut memory, &copy).unwrap();
    assert_eq!(memory, Memory::from([Entry::default(), Entry::at(64, Arg::at(0, 2))]));
    assert_eq!(granted(session.close(&[], 0, None).unwrap()).to_string(), "bytes");
}

/// An array's length becomes the word 1 wherever its label stands: what the step wrote is read back.
#[test]
fn words_that_a_step_writes() {
    let mut session = Session::new(8).unwrap();
    let length = Slot::plain(7).with_label(Arg::at(0, 2));
    let mut stack = Stack::from([length, Slot::plain(8), length, Slot::plain(9)]);
    let mut memory = Memory::from([Entry::at(0, Label::None), Entry::at(32, Arg::at(0, 2))]);
    session.step(&[], &mut Stack::from([Slot::default()]), &mut Memory::new(), &load(4)).unwrap();
    session.step(&[], &mut stack, &mut memory, &times_32(Arg::at(0, 2))).unwrap();
    let words: Vec<Word> = stack.iter().map(|slot| slot.word).collect();
    assert_eq!(words, [1, 8, 1, 32].map(Word::new));
    assert_eq!(memory.iter().map(|entry| entry.replaced).collect::<Vec<_>>(), [false, true]);
}

/// Facts one below the other as deep as a table goes.
fn deepest() -> Vec<u32> {
    let records = MOST_RECORDS as u32;
    let record = |n: u32| match n {
        1 => [0, 0, 2, 0, 1, 0, 0, 0, 0, 0, 0],
        // named by the range rule
        _ => [0, n - 1, if n == records { 0 } else { n + 1 }, 0, 1, 0, 0, 0, 0, 1008, 6],
    };
    (1..=records).flat_map(record).collect()
}

/// The core calls itself once for each level, with 64 bytes for each.
#[test]
fn the_deepest_table_on_a_small_stack() {
    let records = MOST_RECORDS as u32;
    let mut session = Session::from_numbers(Head::new(records, 1), deepest()).unwrap();
    let run = move || {
        let (mut stack, mut memory) = (Stack::from([Slot::default()]), Memory::new());
        // a revert clears the range names, and a checked length looks for a dynamic fact
        session.step(&[], &mut stack, &mut memory, &Step::new(op::REVERT)).unwrap();
        assert_eq!(session.table().chunks(RECORD).filter(|record| record[9] == 1008).count(), 0);
        assert_eq!(session.close(&[0x60, 0x24, 0x36, 0x10], 0, None).unwrap().outcome, Outcome::Over);
        for code in [op::SHL, op::ISZERO, op::MUL, op::CALLDATALOAD, op::ADD, op::AND] {
            let step = Step::new(code).on_both(labelled(Arg::at(0, records - 1).with_added(36)), Slot::plain(32));
            session.step(&[], &mut stack, &mut memory, &step).unwrap();
        }
    };
    // what is beside the levels is mostly the thread's own
    let stack = 64 * MOST_RECORDS + (64 << 10);
    std::thread::Builder::new().stack_size(stack).spawn(run).unwrap().join().unwrap();
}
