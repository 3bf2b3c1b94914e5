//! Closings that are taken: their answers, the code that they read, and the lists that they give.

mod common;

use argcol::*;
use common::*;

fn step(session: &mut Session, step: &Step) -> Taken {
    session.step(&[], &mut Stack::from([Slot::default()]), &mut Memory::new(), step).unwrap()
}

/// Entries, codes, what is left and the head's length.
fn codes(closing: Closing<Codes>) -> Option<(u32, usize, u32, u32)> {
    closing.list().map(|codes| (codes.entries, codes.codes, codes.left, codes.head_length))
}

#[test]
fn a_closing_is_none_over_or_granted() {
    let mut session = Session::new(100).unwrap();
    let closing = session.close(&[], 0, None).unwrap();
    assert_eq!((closing.to_string(), closing.outcome), ("none".into(), Outcome::None));
    let mut types = vec![7; TYPES + 1];
    let closing = session.close_into(&[], 0, None, &mut types).unwrap();
    assert_eq!((closing.outcome, &types), (Outcome::None, &vec![7; TYPES + 1]), "none leaves the slice");

    step(&mut session, &load(4));
    assert_eq!(codes(session.close_into(&[], 0, None, &mut types).unwrap()), Some((1, 1, 8190, 32)));
    assert_eq!((types[0], &types[1..]), (1256, &[7; TYPES][..]), "what lies beyond the list keeps its value");

    // 64 keys one below the other, and one more
    let mut deep = Session::new(100).unwrap();
    for record in 1..=64 {
        let taken = step(&mut deep, &load_at(Arg::at(0, record).with_added(4)));
        assert_eq!(taken.made, record + 1..record + 2);
    }
    assert_eq!(granted(deep.close(&[], 0, None).unwrap()).left(), 8127);
    step(&mut deep, &load_at(Arg::at(0, 65).with_added(4)));
    let closing = deep.close(&[], 0, None).unwrap();
    assert_eq!((closing.list(), closing.to_string()), (None, "over".into()));
    assert_eq!((closing.outcome.clone(), closing.into_list()), (Outcome::Over, None));
    assert_eq!(deep.close_into(&[], 0, None, &mut types).unwrap().outcome, Outcome::Over);
}

/// As the documentation says: the fill stays, and steps may follow.
#[test]
fn steps_behind_a_closing() {
    let mut session = Session::new(8).unwrap();
    assert_eq!(granted(session.close(&TWO_WORDS, 0, None).unwrap()).to_string(), "uint256,uint256");
    assert_eq!(session.used(), 3);
    step(&mut session, &times_32(Arg::at(0, 3)));
    step(&mut session, &load(68));
    assert_eq!(granted(session.close(&[], 0, None).unwrap()).to_string(), "uint256,uint256[],uint256");
}

#[test]
fn the_packed_word_as_numbers_and_as_bytes() {
    let mut bytes = [0; 32];
    bytes[31] = 68;
    let word = Word::from(bytes);
    assert_eq!(word, Word([0, 0, 0, 0, 0, 0, 0, 68]));
    assert_eq!(<[u8; 32]>::from(word), bytes);
    // DUP1 PUSH1 fe AND CALLDATASIZE LT: the word says that two argument words are there
    let code = [0x80, 0x60, 0xfe, 0x16, 0x36, 0x10];
    let mut session = Session::new(8).unwrap();
    assert_eq!(granted(session.close(&code, 0, Some(word)).unwrap()).to_string(), "uint256,uint256");
    assert_eq!(session.used(), 3, "the fill stays");
    let mut session = Session::new(8).unwrap();
    assert_eq!(session.close(&code, 0, None).unwrap().outcome, Outcome::None);
    // the other code says it without a packed word
    assert_eq!(granted(session.close(&TWO_WORDS, 0, None).unwrap()).types(), [Type::Uint(256), Type::Uint(256)]);
}

/// DUP1 PUSH2 fffe AND CALLDATASIZE LT reads the packed word: it is there at every flag but 0.
#[test]
fn a_flag_of_the_packed_word() {
    let (code, word) = ([0x80, 0x61, 0xff, 0xfe, 0x16, 0x36, 0x10], [0, 0, 0, 0, 0, 0, 0, 4 + 32 * 3]);
    for (flag, kind, entries) in [(0, 1, 0), (1, 3, 3), (2, 3, 3), (u32::MAX, 3, 3)] {
        let (mut head, mut table, mut types) = (Head::default(), [0; RECORD * 4], [0; TYPES]);
        assert_eq!(raw::fresh(&mut head, &mut table), 0);
        let said = raw::closing(&mut head, &mut table, &code, 0, flag, &word, &mut types);
        assert_eq!((said.number, said.kind, said.entries, head.used), (0, kind, entries, 1 + entries));
    }
}

/// A list whose types take more codes than one each, by both closings and as the printer shows it.
#[test]
fn a_list_with_a_tuple() {
    let mut session = Session::new(8).unwrap();
    // argument 0 points to three words, and argument 1 is a word
    for added in [4, 36, 68] {
        step(&mut session, &load_at(Arg::at(0, 1).with_added(added)));
    }
    let triple = Type::Tuple(vec![Type::Uint(256), Type::Uint(256), Type::Uint(256)]);
    let list = granted(session.close(&[], 0, None).unwrap());
    assert_eq!((list.to_string(), list.types()), ("(uint256,uint256,uint256)".into(), &[triple.clone()][..]));
    assert_eq!((list.codes(), list.head_length()), (&[16_387, 1256, 1256, 1256][..], 32));
    assert_eq!(format!("{list:>27}|"), "  (uint256,uint256,uint256)|");

    step(&mut session, &load(36));
    let mut types = vec![7; TYPES];
    assert_eq!(codes(session.close_into(&[], 0, None, &mut types).unwrap()), Some((2, 5, 8186, 64)));
    assert_eq!((&types[..5], &types[5..]), (&[16_387, 1256, 1256, 1256, 1256][..], &[7; TYPES - 5][..]));
    let closing = session.close(&[], 0, None).unwrap();
    assert_eq!(closing.to_string(), "args 2 left 8186 head 64\n0 (uint256,uint256,uint256)\n1 uint256");
    let list = granted(closing);
    assert_eq!((list.types(), list.codes()), (&[triple, Type::Uint(256)][..], &types[..5]));
}

/// A checked length is read from the start pc on, behind one JUMPDEST.
#[test]
fn the_start_pc() {
    let code = [&[0x5b, 0x5b][..], &TWO_WORDS].concat();
    let close = |start| Session::new(8).unwrap().close(&code, start, None).unwrap();
    let close_into = |start| codes(Session::new(8).unwrap().close_into(&code, start, None, &mut [0; TYPES]).unwrap());
    for start in [1, 2] {
        assert_eq!(close(start).to_string(), "args 2 left 8188 head 64\n0 uint256\n1 uint256");
        assert_eq!(close_into(start), Some((2, 2, 8188, 64)));
    }
    for start in [0, 3, u32::MAX] {
        assert_eq!((close(start).outcome, close_into(start)), (Outcome::None, None));
    }
}
