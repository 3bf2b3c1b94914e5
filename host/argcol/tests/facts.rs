//! The facts as values.

mod common;

use argcol::*;
use common::*;

fn take(session: &mut Session, step: &Step) {
    session.step(&[], &mut Stack::from([Slot::default()]), &mut Memory::new(), step).unwrap();
}

/// Path, kind, count, name and confidence.
type Shown = (Vec<u32>, Kind, u32, Option<Type>, u32);

fn shown(session: &Session) -> Vec<Shown> {
    session.facts().map(|fact| (fact.path, fact.kind, fact.count, fact.name, fact.confidence)).collect()
}

#[test]
fn an_array_and_an_address() {
    let mut session = Session::new(64).unwrap();
    let root = (vec![], Kind::None, 0, None, 0);
    assert_eq!(shown(&session), std::slice::from_ref(&root));
    take(&mut session, &load(4));
    take(&mut session, &load_at(Arg::at(0, 1).with_added(4)));
    take(&mut session, &times_32(Arg::at(0, 2)));
    take(&mut session, &load(36));
    let mask = Word([0, 0, 0, u32::MAX, u32::MAX, u32::MAX, u32::MAX, u32::MAX]);
    take(&mut session, &Step::new(op::AND).on_both(labelled(Arg::at(32, 1)), mask.into()));
    let array = (vec![0], Kind::Array, 1, None, 0);
    let address = (vec![32], Kind::None, 0, Some(Type::Address), 5);
    assert_eq!(shown(&session), [root, array, address]);
    assert_eq!(session.facts().size_hint(), (0, Some(session.used() as usize)));
    let mut facts = session.facts();
    assert_eq!((facts.by_ref().count(), facts.next(), facts.size_hint()), (3, None, (0, Some(0))));
}

/// A record that is not seen, here the one of a not-bool mark, is no fact; a fact's number is its record's.
#[test]
fn seen_records_alone() {
    let mut session = Session::new(8).unwrap();
    take(&mut session, &Step::new(op::MUL).on_both(labelled(Arg::at(64, 1)), Slot::plain(3)));
    assert_eq!((session.used(), shown(&session).len()), (2, 1));
    take(&mut session, &load(4));
    take(&mut session, &load_at(Arg::at(0, 3).with_added(68)));
    let facts: Vec<Fact> = session.facts().collect();
    let records: Vec<(u32, &[u32])> = facts.iter().map(|fact| (fact.record, &fact.path[..])).collect();
    assert_eq!(records, [(1, &[][..]), (3, &[0]), (4, &[0, 0])]);
    for fact in &facts {
        let numbers = &session.table()[RECORD * (fact.record as usize - 1)..][..RECORD];
        let kind = [Kind::None, Kind::Dynamic, Kind::Array][numbers[7] as usize];
        assert_eq!((numbers[4], kind, numbers[8], numbers[10]), (1, fact.kind, fact.count, fact.confidence));
    }
}

/// Every name that a record may have, in a table got in another way.
#[test]
fn names() {
    let mut codes: Vec<u32> = vec![1, 2, 3, 4];
    codes.extend((1..=32).flat_map(|n| [1000 + 8 * n, 2000 + 8 * n, 3000 + n]));
    let used = codes.len() as u32 + 1;
    let mut table = ROOT.to_vec();
    table[2] = 2;
    for (n, code) in (2..).zip(&codes) {
        table.extend([32 * n, 1, 0, if n == used { 0 } else { n + 1 }, 1, 0, 0, 0, 0, *code, 20]);
    }
    let session = Session::from_numbers(Head::new(used, 1), table).unwrap();
    let named: Vec<Vec<u16>> = session.facts().skip(1).map(|fact| fact.name.unwrap().codes()).collect();
    assert_eq!(named, codes.iter().map(|code| vec![*code as u16]).collect::<Vec<_>>());
    assert!(session.facts().skip(1).all(|fact| fact.confidence == 20 && fact.path == [32 * fact.record]));
}

/// One below the other, keys from the root down.
#[test]
fn paths() {
    let mut session = Session::new(8).unwrap();
    for (offset, path) in [(32, 1), (64, 2), (96, 3)] {
        take(&mut session, &load_at(Arg::at(offset, path).with_added(4)));
    }
    let paths: Vec<Vec<u32>> = session.facts().map(|fact| fact.path).collect();
    assert_eq!(paths, [vec![], vec![32], vec![32, 64], vec![32, 64, 96]]);
}

/// A closing's list says no more than the facts: here each argument is one of them.
#[test]
fn facts_after_a_closing() {
    let mut session = Session::new(8).unwrap();
    session.close(&TWO_WORDS, 0, None).unwrap();
    let paths: Vec<Vec<u32>> = session.facts().map(|fact| fact.path).collect();
    assert_eq!(paths, [vec![], vec![0], vec![32]]);
}
