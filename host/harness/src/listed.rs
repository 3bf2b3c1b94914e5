//! The differences of docs/DIFFERENCES.md, each with its smallest input: both sides do what is said there; of
//! difference 1, since the published U256 is not at hand, our side alone. And some of document 01's bench readings.

use crate::{
    compare::{self, Scene},
    core::*,
    plain::Plain,
    proved::{self, Proved},
};
use published::{Arg, Entry, Slot, State, Step, Tag};

fn scene(records: usize) -> Scene {
    let mut scene = Scene {
        head: Head::default(),
        table: vec![0; records * RECORD],
        code: Vec::new(),
        stack: Vec::new(),
        memory: Vec::new(),
    };
    assert_eq!(Plain.fresh(&mut scene.head, &mut scene.table), 0);
    scene
}

/// Plain and proved (if at hand) have to say the same.
fn step(scene: &mut Scene, step: &[u32]) -> u32 {
    let mut other = scene.clone();
    let said = Plain.step(&mut scene.head, &mut scene.table, &scene.code, &mut scene.stack, &mut scene.memory, step);
    if proved::AT_HAND {
        assert_eq!(
            Proved.step(&mut other.head, &mut other.table, &other.code, &mut other.stack, &mut other.memory, step),
            said
        );
        assert_eq!(
            (other.head, &other.table, &other.stack, &other.memory),
            (scene.head, &scene.table, &scene.stack, &scene.memory)
        );
    }
    said
}

fn close(scene: &mut Scene, start: u32) -> (Verdict, Vec<u16>) {
    let (mut other, mut types, closing) = (scene.clone(), vec![0; TYPES], Closing { start, packed: None });
    let said = Plain.close(&mut scene.head, &mut scene.table, &scene.code, &closing, &mut types);
    if proved::AT_HAND {
        let mut others = vec![0; TYPES];
        assert_eq!(Proved.close(&mut other.head, &mut other.table, &other.code, &closing, &mut others), said);
        assert_eq!((other.head, other.table, others), (scene.head, scene.table.clone(), types.clone()));
    }
    types.retain(|code| *code != 0);
    (said, types)
}

fn numbers(op: u32, first: (u32, [u32; 4]), second: (u32, [u32; 4])) -> Vec<u32> {
    let mut step = vec![0; STEP];
    step[0] = op;
    for (at, (word, label)) in [(2, first), (23, second)] {
        step[at + 7] = word;
        step[at + 8..at + 12].copy_from_slice(&label);
    }
    step
}

const BARE: [u32; 4] = [0; 4];

fn fresh_state() -> State {
    compare::state(&scene(1).table, Head::new(1, 1), &[vec![], vec![]])
}

/// After a load of word 0, which makes record 2, and a shift of what it points to by a word that is 0 but for one
/// number.
fn shifted(place: usize, number: u32) -> Scene {
    let mut scene = scene(4);
    scene.stack = vec![0; SLOT];
    assert_eq!(step(&mut scene, &numbers(0x35, (4, BARE), (0, BARE))), 0);
    let mut shift = numbers(0x1b, (0, BARE), (0, [2, 0, 2, 0]));
    shift[2 + place] = number;
    assert_eq!(step(&mut scene, &shift), 0);
    scene
}

/// The record's kind, count, name and confidence.
fn mark(scene: &Scene) -> &[u32] {
    &scene.table[RECORD + 7..2 * RECORD]
}

#[test]
fn one_a_shift_of_256_and_more_multiplies_by_0() {
    // places of a word, its lowest number last: at place 5 a number counts 2^64
    for (place, number) in [(5, 1), (5, 5), (5, u32::MAX), (0, 1 << 31), (6, 1), (7, 256)] {
        let mut scene = shifted(place, number);
        assert_eq!(mark(&scene), [0; 4]);
        assert_eq!(close(&mut scene, 0), (Verdict::Granted { entries: 1, left: 8190, length: 32 }, vec![1256]));
    }
    // by its lowest number alone 2^64 would be a shift of 0, which names bytes; and 2^64 + 5 one of 5, which marks an
    // array
    assert_eq!(mark(&shifted(7, 0)), [0, 0, 3, 10]);
    assert_eq!(mark(&shifted(7, 5)), [2, 1, 0, 0]);
}

#[test]
fn two_a_checked_length_below_four() {
    let mut scene = scene(4);
    scene.code = vec![0x60, 0, 0x36, 0x10];
    assert_eq!(close(&mut scene, 0), (Verdict::None, vec![]));
    // without overflow checks, as it is built here, the source reads nothing too
    if published::AT_HAND {
        assert_eq!(published::least_words(&scene.code, 0, None), None);
    }
}

#[test]
fn three_a_pick_is_taken_as_handed_in() {
    let mut scene = scene(4);
    scene.memory = vec![0; ENTRY];
    let mut copy = numbers(0x37, (4, BARE), (32, BARE));
    copy[44] = 1;
    assert_eq!(step(&mut scene, &copy), 0);
    assert_eq!(scene.memory[2..6], [2, 0, 1, 0]);
    if published::AT_HAND {
        let word = |n: u8| Slot { word: std::array::from_fn(|i| if i == 31 { n } else { 0 }), tag: Tag::None };
        let mut memory = vec![Entry { offset: 0, bytes: vec![9], tag: Tag::None }];
        published::analyze(
            &[],
            &mut fresh_state(),
            &mut Vec::new(),
            &mut memory,
            &Step { op: 0x37, pc: 0, args: [word(4), word(32)], load: None },
        );
        assert_eq!(memory[0].tag, Tag::None);
    }
}

/// Our side refuses the step by this number and leaves all as it was.
fn refused(scene: &mut Scene, handed: &[u32], number: u32) {
    let before = scene.clone();
    assert_eq!(step(scene, handed), number);
    assert_eq!(
        (scene.head, &scene.table, &scene.stack, &scene.memory),
        (before.head, &before.table, &before.stack, &before.memory)
    );
}

/// What the source makes of a step from a fresh state: whether it gives an error, and the state.
fn analyzed(code: &[u8], mut stack: Vec<Slot>, mut memory: Vec<Entry>, op: u8, args: [Slot; 2]) -> (bool, State) {
    let mut state = fresh_state();
    let failed = published::analyze(code, &mut state, &mut stack, &mut memory, &Step { op, pc: 0, args, load: None });
    (failed, state)
}

#[test]
fn four_an_argument_added_with_an_empty_stack() {
    refused(&mut scene(4), &numbers(0x01, (0, [2, 0, 1, 0]), (4, BARE)), 7);
    if published::AT_HAND {
        let arg = Slot { tag: Tag::Arg(Arg { offset: 0, path: vec![], added: 0, mask: None }), ..Slot::default() };
        let (failed, state) = analyzed(&[], Vec::new(), Vec::new(), 0x01, [arg, Slot::default()]);
        assert!(failed && state.not_bool.len() == 1);
    }
}

/// Arms that don't read the stack: LT, SHL of the second operand, AND with a mask that gives no type, and ISZERO of a
/// zero test, which alone names.
#[test]
fn four_other_arms_with_an_empty_stack() {
    let arg = |offset| Arg { offset, path: vec![], added: 0, mask: None };
    let (label, labelled) = ([2, 32, 1, 0], Slot { tag: Tag::Arg(arg(32)), ..Slot::default() });
    let five = Slot { word: std::array::from_fn(|i| if i == 31 { 5 } else { 0 }), tag: Tag::None };
    let tested = Slot { tag: Tag::ZeroTest(arg(32)), ..Slot::default() };
    for (op, first, second, args) in [
        (0x10, (0, label), (5, BARE), [labelled.clone(), five.clone()]),
        (0x1b, (5, BARE), (0, label), [five.clone(), labelled.clone()]),
        (0x16, (0, label), (5, BARE), [labelled.clone(), five.clone()]),
        (0x15, (0, [3, 32, 1, 0]), (0, BARE), [tested.clone(), Slot::default()]),
    ] {
        refused(&mut scene(4), &numbers(u32::from(op), first, second), 7);
        if published::AT_HAND {
            let (failed, state) = analyzed(&[], Vec::new(), Vec::new(), op, args);
            let names: Vec<u32> = state.facts.iter().map(|fact| fact.name).collect();
            let expected = if op == 0x15 { (vec![0, 1], 0) } else { (vec![0], 1) };
            assert_eq!((failed, (names, state.not_bool.len())), (false, expected), "{op:#x}");
        }
    }
}

#[test]
fn four_a_copy_to_a_wide_place() {
    let mut copy = numbers(0x37, (0, BARE), (0, BARE));
    copy[29] = 1;
    refused(&mut scene(4), &copy, 6);
    if published::AT_HAND {
        let mut far = Slot::default();
        far.word[27] = 1;
        assert_eq!(analyzed(&[], Vec::new(), Vec::new(), 0x37, [Slot::default(), far]), (false, fresh_state()));
    }
}

/// An unlabelled load of word 0, which the source takes whatever the sizes are.
fn load_of_word_0() -> (Vec<u32>, [Slot; 2]) {
    let word = std::array::from_fn(|i| if i == 31 { 4 } else { 0 });
    (numbers(0x35, (4, BARE), (0, BARE)), [Slot { word, tag: Tag::None }, Slot::default()])
}

#[test]
fn four_more_slots_entries_or_code_than_are_taken() {
    let (load, args) = load_of_word_0();
    for (slots, entries, bytes, number) in
        [(1_025, 0, 0, 4), (1, 1_025, 0, 4), (1, 0, 65_537, 3), (1_024, 1_024, 65_536, 0)]
    {
        let mut held =
            Scene { stack: vec![0; SLOT * slots], memory: vec![0; ENTRY * entries], code: vec![0; bytes], ..scene(4) };
        if number == 0 {
            assert_eq!((step(&mut held, &load), held.head.used), (0, 2), "the largest that are taken");
        } else {
            refused(&mut held, &load, number);
        }
        if published::AT_HAND {
            let memory = vec![Entry { offset: 0, bytes: Vec::new(), tag: Tag::None }; entries];
            let (failed, state) = analyzed(&held.code, vec![Slot::default(); slots], memory, 0x35, args.clone());
            assert!(!failed && state.facts.len() == 2, "the source goes on");
        }
    }
}

#[test]
fn four_a_closing_of_more_code_than_is_taken() {
    // PUSH1 24 CALLDATASIZE LT: one word is there
    let mut held = Scene { code: [&[0x60, 0x24, 0x36, 0x10][..], &[0; 65_533]].concat(), ..scene(4) };
    assert_eq!(close(&mut held, 0), (Verdict::Refused(3), vec![]));
    assert_eq!((held.head, &held.table), (scene(4).head, &scene(4).table));
    if published::AT_HAND {
        assert_eq!(
            published::close(&held.code, 0, None, &mut fresh_state()),
            published::Answer::Granted(8190, 1, vec![1256])
        );
    }
    held.code.pop();
    assert_eq!(close(&mut held, 0), (Verdict::Granted { entries: 1, left: 8190, length: 32 }, vec![1256]));
}

/// The source's list is empty for both; `published::close`, which tells them apart, asserts that.
#[test]
fn five_none_and_over() {
    assert_eq!(close(&mut scene(4), 0), (Verdict::None, vec![]));
    // a lone argument at key 262,112
    let mut over = scene(2);
    (over.head.used, over.table[2]) = (2, 2);
    over.table[RECORD..RECORD + 5].copy_from_slice(&[262_112, 1, 0, 0, 1]);
    let mut state = compare::state(&over.table, over.head, &compare::paths(&over.table, 2));
    assert_eq!(close(&mut over, 0), (Verdict::Over, vec![]));
    if published::AT_HAND {
        assert_eq!(published::close(&[], 0, None, &mut fresh_state()), published::Answer::None);
        assert_eq!(published::close(&[], 0, None, &mut state), published::Answer::Over);
    }
}

#[test]
fn p1_an_array() {
    let mut scene = scene(1480);
    for numbers in [
        numbers(0x35, (4, BARE), (0, BARE)),
        numbers(0x35, (0, [2, 0, 1, 4]), (0, BARE)),
        numbers(0x02, (0, [2, 0, 2, 0]), (32, BARE)),
    ] {
        scene.stack = vec![0; SLOT];
        assert_eq!(step(&mut scene, &numbers), 0);
    }
    assert_eq!(close(&mut scene, 0), (Verdict::Granted { entries: 1, left: 8189, length: 32 }, vec![5, 1256]));
}

#[test]
fn p7_and_p8_loads() {
    for (place, entries) in [(3, 0), (4, 1), (130_047, 4064), (130_048, 0)] {
        let mut scene = scene(4);
        scene.stack = vec![0; SLOT];
        assert_eq!(step(&mut scene, &numbers(0x35, (place, BARE), (0, BARE))), 0);
        match close(&mut scene, 0).0 {
            Verdict::None => assert_eq!(entries, 0),
            Verdict::Granted { entries: said, .. } => assert_eq!(said, entries),
            other => panic!("{other:?}"),
        }
    }
}

#[test]
fn p12_depth() {
    for (keys, left) in [(64, Some(8127)), (65, None)] {
        let mut scene = scene(80);
        for n in 0..keys {
            let f = &mut scene.table[(n + 1) * RECORD..];
            (f[1], f[4]) = (n as u32 + 1, 1);
            scene.table[n * RECORD + 2] = n as u32 + 2;
        }
        scene.head.used = keys as u32 + 1;
        match (close(&mut scene, 0).0, left) {
            (Verdict::Over, None) => (),
            (Verdict::Granted { left, .. }, Some(said)) => assert_eq!(left, said),
            other => panic!("{other:?}"),
        }
    }
}
