//! Sessions that grow.

mod common;

use argcol::{trace::Trace, *};
use common::*;

fn take(session: &mut Session, step: &Step) -> Result<Taken, Error> {
    session.step(&[], &mut Stack::from([Slot::default()]), &mut Memory::new(), step)
}

#[test]
fn a_session_that_is_told_to_grow() {
    let (mut session, mut large) = (Session::new(2).unwrap(), Session::new(4).unwrap());
    for session in [&mut session, &mut large] {
        take(session, &load(4)).unwrap();
    }
    assert_eq!(take(&mut session, &load(36)), Err(Refused::NoRoom.into()), "by itself it does not");
    session.grow(4).unwrap();
    assert_eq!(session, large);
    session.grow(1).unwrap();
    assert_eq!((session.records(), take(&mut session, &load(36)).unwrap().made), (4, 3..4));
    session.grow(MOST_RECORDS).unwrap();
    assert_eq!(session.records(), MOST_RECORDS);
}

#[test]
fn steps_up_to_the_limit() {
    for (first, limit, sizes) in [(1, 5, [2, 4, 4, 5]), (3, 5, [3, 3, 5, 5]), (5, 5, [5; 4])] {
        let mut session = Session::growing(first, limit).unwrap();
        for (word, records) in (0..).zip(sizes) {
            take(&mut session, &load(4 + 32 * word)).unwrap();
            assert_eq!((session.used(), session.records()), (word + 2, records));
        }
        let before = session.clone();
        assert_eq!(take(&mut session, &load(4 + 32 * 4)), Err(Refused::NoRoom.into()));
        assert_eq!(session, before, "a refused call changes nothing");
        session.reset().unwrap();
        assert_eq!((session.used(), session.records()), (1, limit));
    }
    // a limit below what is there
    let mut session = Session::growing(2, 1).unwrap();
    take(&mut session, &load(4)).unwrap();
    assert_eq!(take(&mut session, &load(36)), Err(Refused::NoRoom.into()));
    assert_eq!(session.records(), 2);
}

#[test]
fn closings_that_grow() {
    let mut session = Session::growing(1, 8).unwrap();
    assert_eq!(granted(session.close(&TWO_WORDS, 0, None).unwrap()).to_string(), "uint256,uint256");
    assert_eq!((session.used(), session.records()), (3, 4));
    // PUSH2 0104 CALLDATASIZE LT: eight words, and with the root nine records
    let eight = [0x61, 0x01, 0x04, 0x36, 0x10];
    let before = session.clone();
    assert_eq!(session.close(&eight, 0, None), Err(Refused::NoRoom.into()));
    assert_eq!(session, before, "a refused call changes nothing");
    let mut session = Session::growing(1, 9).unwrap();
    assert_eq!(session.close_into(&eight, 0, None, &mut [0; TYPES]).unwrap().list().unwrap().entries, 8);
    assert_eq!((session.used(), session.records()), (9, 9));
}

/// Other refusals let nothing grow.
#[test]
fn refusals_that_are_not_for_want_of_room() {
    let mut session = Session::growing(1, MOST_RECORDS).unwrap();
    let said = session.step_numbers(&[], &mut [], &mut [], &[0]);
    assert_eq!((said, session.records()), (Err(Refused::Sizes.into()), 1));
    let said = session.close_into(&TWO_WORDS, 0, None, &mut []).unwrap_err();
    assert_eq!((said, session.records()), (Refused::ShortTypes.into(), 1));
}

/// The stored runs of the published program, by values on a table that grows from one record, and in numbers on one that
/// is large from the start: the same answers, labels and facts.
#[test]
fn the_same_as_a_large_table() {
    let traces = stored();
    assert_eq!(traces.len(), 240);
    for trace in traces {
        let mut small = Session::growing(1, MOST_RECORDS).unwrap();
        let mut large = Session::new(1_480).unwrap();
        for step in &trace.steps {
            let (mut slots, mut entries) = (step.slots.as_flattened().to_vec(), step.entries.as_flattened().to_vec());
            let (mut stack, mut memory) =
                (Stack::try_from(&slots[..]).unwrap(), Memory::try_from(&entries[..]).unwrap());
            let taken = small.step(&trace.code, &mut stack, &mut memory, &Step::try_from(&step.numbers).unwrap());
            assert_eq!(taken, large.step_numbers(&trace.code, &mut slots, &mut entries, &step.numbers));
            assert_eq!((stack.numbers(), memory.numbers()), (&slots[..], &entries[..]));
        }
        let packed = trace.packed.then_some(trace.word);
        assert_eq!(small.close(&trace.code, trace.start, packed), large.close(&trace.code, trace.start, packed));
        assert!(small.facts().eq(large.facts()) && small.head() == large.head());
        assert!(small.records() < 2 * small.used() as usize);
    }
}

/// As tools/replay.py writes them: a name in 40 bytes, its length, how many bytes the trace has, and these in runs: how
/// many zeros, how many other bytes, and these.
fn stored() -> Vec<Trace> {
    let file = concat!(env!("CARGO_MANIFEST_DIR"), "/../../tools/published.stdin");
    let (bytes, mut at, mut traces) = (std::fs::read(file).unwrap(), 0, Vec::new());
    while at < bytes.len() {
        let length = u32::from_le_bytes(bytes[at + 44..at + 48].try_into().unwrap()) as usize;
        at += 48;
        let mut trace = Vec::new();
        while trace.len() < length {
            let (zeros, others) = (usize::from(bytes[at]), usize::from(bytes[at + 1]));
            trace.resize(trace.len() + zeros, 0);
            trace.extend(&bytes[at + 2..at + 2 + others]);
            at += 2 + others;
        }
        traces.push(Trace::from_bytes(&trace).unwrap());
    }
    traces
}
