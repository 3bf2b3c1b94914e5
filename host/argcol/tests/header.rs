//! `argcol.h` and this crate say the same: version, widths, limits, offsets, kinds, refusals and codes.

use argcol::*;
use std::collections::BTreeMap;

/// The header's names without `ARGCOL_`, each with its number.
fn defined() -> BTreeMap<&'static str, u32> {
    let header = include_str!("../../../crates/argcol/argcol.h");
    let lines = header.lines().filter_map(|line| line.strip_prefix("#define ARGCOL_")?.split_once(' '));
    let mut names = BTreeMap::new();
    for (name, number) in lines {
        assert_eq!(names.insert(name, number.parse().unwrap()), None, "{name} is defined once");
    }
    names
}

/// The header's names that begin so, without that, by their numbers.
fn named(prefix: &str) -> Vec<(u32, &'static str)> {
    let all = defined();
    let mut names: Vec<_> =
        all.into_iter().filter_map(|(name, number)| Some((number, name.strip_prefix(prefix)?))).collect();
    names.sort();
    names
}

#[test]
fn the_version() {
    assert_eq!((defined()["VERSION"], raw::VERSION), (raw::version(), raw::version()));
}

#[test]
fn widths_and_limits() {
    let all = defined();
    for (name, number) in [
        ("WORD", 8),
        ("LABEL", LABEL),
        ("SLOT", SLOT),
        ("ENTRY", ENTRY),
        ("STEP", STEP),
        ("RECORD", RECORD),
        ("TYPES", TYPES),
        ("MOST_RECORDS", MOST_RECORDS),
        ("MOST_CODE", MOST_CODE),
        ("MOST_SLOTS", MOST_SLOTS),
        ("MOST_ENTRIES", MOST_ENTRIES),
        ("MOST_CODES", TYPES),
    ] {
        assert_eq!(all[name] as usize, number, "{name}");
    }
}

/// As many as there are, each by the name that it has here.
#[test]
fn refusals() {
    let named = named("REFUSED_");
    assert_eq!(named.len(), Refused::ALL.len());
    for ((number, name), refused) in named.into_iter().zip(Refused::ALL) {
        let words: String = format!("{refused:?}")
            .chars()
            .flat_map(|c| if c.is_uppercase() { vec!['_', c] } else { vec![c.to_ascii_uppercase()] })
            .collect();
        assert_eq!((number, format!("_{name}")), (refused.number(), words));
    }
    assert_eq!(defined()["TAKEN"], 0);
}

#[test]
fn offsets_of_labels_slots_and_entries() {
    let mask = Word([11, 12, 13, 14, 15, 16, 17, 18]);
    let arg = Arg { offset: 101, path: 102, added: 103, mask: Some(mask) };
    let all = defined();
    let at = |name: &str| all[name] as usize;
    for (label, kind) in [(Label::Arg(arg), "KIND_ARG"), (Label::ZeroTest(arg), "KIND_ZERO_TEST")] {
        let numbers = <[u32; LABEL]>::from(label);
        assert_eq!(numbers[at("LABEL_KIND")], all[kind]);
        let fields = ["LABEL_OFFSET", "LABEL_PATH", "LABEL_ADDED", "LABEL_MASKED"].map(|name| numbers[at(name)]);
        assert_eq!((fields, &numbers[at("LABEL_MASK")..]), ([101, 102, 103, 1], &mask.0[..]));
        let slot = <[u32; SLOT]>::from(Slot::new(Word([1, 2, 3, 4, 5, 6, 7, 8]), label));
        assert_eq!(
            (slot[at("SLOT_WORD")..][..8].to_vec(), &slot[at("SLOT_LABEL")..]),
            ((1..=8).collect(), &numbers[..])
        );
        let entry = <[u32; ENTRY]>::from(Entry { offset: 7, replaced: true, label });
        assert_eq!((entry[at("ENTRY_OFFSET")], entry[at("ENTRY_REPLACED")]), (7, 1));
        assert_eq!(entry[at("ENTRY_LABEL")..], numbers);
    }
    for (label, kind) in [(Label::None, "KIND_NONE"), (Label::CallData, "KIND_CALLDATA")] {
        assert_eq!(<[u32; LABEL]>::from(label)[at("LABEL_KIND")], all[kind]);
    }
}

#[test]
fn offsets_of_a_step() {
    let (first, second) = (Slot::plain(7).with_label(Label::CallData), Slot::new(Word::MAX, Arg::at(8, 9)));
    let load = Label::ZeroTest(Arg::at(5, 6));
    let numbers = <[u32; STEP]>::from(&Step::new(op::MLOAD).at(77).on_both(first, second).picking(3).loading(load));
    let all = defined();
    let at = |name: &str| all[name] as usize;
    let fields = ["STEP_OP", "STEP_PC", "STEP_PICK", "STEP_LOADED"].map(|name| numbers[at(name)]);
    assert_eq!(fields, [0x51, 77, 4, 1]);
    assert_eq!(numbers[at("STEP_FIRST")..][..SLOT], <[u32; SLOT]>::from(first));
    assert_eq!(numbers[at("STEP_SECOND")..][..SLOT], <[u32; SLOT]>::from(second));
    assert_eq!(numbers[at("STEP_LOAD")..], <[u32; LABEL]>::from(load));
}

/// A table with every field of a record another one, by the header's names.
#[test]
fn offsets_of_a_record() {
    let all = defined();
    let mut table = vec![0; 3 * RECORD];
    let mut put = |record: usize, fields: &[(&str, u32)]| {
        for (name, number) in fields {
            table[RECORD * (record - 1) + all[format!("RECORD_{name}").as_str()] as usize] = *number;
        }
    };
    put(1, &[("CHILD", 2), ("SEEN", 1)]);
    let array = all["RECORD_ARRAY"];
    put(2, &[("KEY", 32), ("PARENT", 1), ("NEXT", 3), ("SEEN", 1), ("KIND", array), ("COUNT", 3)]);
    put(3, &[("KEY", 64), ("PARENT", 1), ("SEEN", 1), ("NAME", all["BOOL"]), ("CONFIDENCE", 20), ("BLOCKED", 1)]);
    let session = Session::from_numbers(Head::new(3, 1), table).unwrap();
    let facts: Vec<Fact> = session.facts().collect();
    assert_eq!((&facts[1].path[..], facts[1].kind, facts[1].count), (&[32][..], Kind::Array, 3));
    assert_eq!((&facts[2].path[..], &facts[2].name, facts[2].confidence), (&[64][..], &Some(Type::Bool), 20));
    let mut fields: Vec<u32> = named("RECORD_").into_iter().map(|(number, _)| number).collect();
    // the three kinds are 0 to 2, and the eleven fields 0 to 10
    fields.sort();
    assert_eq!(fields, [0, 0, 1, 1, 2, 2, 3, 4, 5, 6, 7, 8, 9, 10]);
}

#[test]
fn type_codes() {
    let all = defined();
    let code = |name: &str, added: u16| all[name] as u16 + added;
    for (code, ty) in [
        (code("BOOL", 0), Type::Bool),
        (code("ADDRESS", 0), Type::Address),
        (code("BYTES", 0), Type::Bytes),
        (code("STRING", 0), Type::String),
        (code("UINT", 256), Type::Uint(256)),
        (code("INT", 8), Type::Int(8)),
        (code("FIXED_BYTES", 32), Type::FixedBytes(32)),
    ] {
        assert_eq!(ty.codes(), [code]);
    }
    let pair = Type::Array(Box::new(Type::Tuple(vec![Type::Bool, Type::Bool])));
    assert_eq!(pair.codes(), [code("ARRAY", 0), code("TUPLE", 2), 1, 1]);
}

/// The kinds of a closing's answer, by what the C function answers; a refusal writes none.
#[test]
fn kinds_of_an_answer() {
    let all = defined();
    let close = |used: u32, table: &[u32], code: &[u8]| {
        raw::closing(&mut Head::new(used, 1), &mut table.to_vec(), code, 0, 0, &[0; 8], &mut [0; TYPES]).kind
    };
    let root = [0, 0, 0, 0, 1, 0, 0, 0, 0, 0, 0];
    assert_eq!(close(0, &root, &[]), 0);
    assert_eq!(close(1, &root, &[]), all["NONE"]);
    let lone = |key| [&[0, 0, 2][..], &root[3..], &[key, 1, 0, 0, 1, 0, 0, 0, 0, 0, 0]].concat();
    assert_eq!((close(2, &lone(262_080), &[]), close(2, &lone(262_112), &[])), (all["GRANTED"], all["OVER"]));
}
