//! Labels, slots, entries and steps, to and from their numbers and texts.

use argcol::*;

#[test]
fn numbers_there_and_back() {
    let arg = Arg::at(64, 3).with_added(4);
    let mut load = [0; STEP];
    let (masked, zero) = (Label::ZeroTest(arg.masked(Word::MAX)), Label::Arg(arg.masked(Word::ZERO)));
    for label in [Label::None, Label::CallData, Label::Arg(arg), masked, zero] {
        let numbers = <[u32; LABEL]>::from(label);
        assert_eq!(Label::try_from(&numbers), Ok(label));
        let slot = Slot::plain(77).with_label(label);
        assert_eq!(Slot::try_from(&<[u32; SLOT]>::from(slot)), Ok(slot));
        let entry = Entry { offset: 32, replaced: true, label };
        assert_eq!(Entry::try_from(&<[u32; ENTRY]>::from(entry)), Ok(entry));
        let step = Step::new(0xff).at(9).on(slot).picking(4).loading(label);
        load = <[u32; STEP]>::from(&step);
        assert_eq!(Step::try_from(&load), Ok(step));
    }
    assert_eq!(&load[..3], [255, 9, 0]);
    assert_eq!((load[9], load[10], load[44], load[45]), (77, 2, 5, 1));
    let again = arg.with_added(36).masked(Word::new(1)).masked(Word::new(2));
    assert_eq!(again, Arg { offset: 64, path: 3, added: 36, mask: Some(Word::new(2)) });
    let mut numbers = <[u32; LABEL]>::from(Label::Arg(arg));
    assert_eq!(numbers, [2, 64, 3, 4, 0, 0, 0, 0, 0, 0, 0, 0, 0]);
    for (at, value) in [(0, 4), (0, 0), (0, 1), (4, 2), (12, 1)] {
        let kept = std::mem::replace(&mut numbers[at], value);
        assert!(Label::try_from(&numbers).is_err());
        numbers[at] = kept;
    }
    // no entry has the number after the last
    assert_eq!(<[u32; STEP]>::from(&Step::new(0).picking(u32::MAX))[44], u32::MAX);
}

#[test]
fn numbers_of_no_entry() {
    let mut numbers = <[u32; ENTRY]>::from(Entry { offset: 7, replaced: true, label: Label::CallData });
    assert_eq!(numbers[..4], [7, 1, 1, 0]);
    for (at, value, reason) in [
        (1, 2, "a replaced mark is 0 or 1"),
        (1, u32::MAX, "a replaced mark is 0 or 1"),
        (2, 4, "a label's kind is 0 to 3"),
        (3, 1, "what a label doesn't use is 0"),
        (14, 1, "what a label doesn't use is 0"),
    ] {
        let kept = std::mem::replace(&mut numbers[at], value);
        assert_eq!(Entry::try_from(&numbers).unwrap_err().reason(), reason);
        numbers[at] = kept;
    }
    assert!(Entry::try_from(&numbers).is_ok());
}

#[test]
fn numbers_of_no_step() {
    let mut numbers = <[u32; STEP]>::from(&Step::new(op::MLOAD).loading(Label::CallData));
    assert_eq!((numbers[0], &numbers[44..47]), (0x51, &[0, 1, 1][..]));
    let load = "the load flag is 0 or 1, and without it there is no label";
    for (at, value, reason) in [
        (0, 256, "an opcode is at most 255"),
        (10, 4, "a label's kind is 0 to 3"),
        (43, 1, "what a label doesn't use is 0"),
        (45, 0, load),
        (45, 2, load),
        (46, 4, "a label's kind is 0 to 3"),
        (58, 1, "what a label doesn't use is 0"),
    ] {
        let kept = std::mem::replace(&mut numbers[at], value);
        let error = Step::try_from(&numbers).unwrap_err();
        assert_eq!((error.reason(), error.to_string()), (reason, reason.to_string()), "{at}");
        numbers[at] = kept;
    }
    assert!(Step::try_from(&numbers).is_ok());
}

#[test]
fn labels_as_text() {
    let arg = Arg::at(64, 3);
    for (label, text) in [
        (Label::None, "none"),
        (Label::CallData, "calldata"),
        (Label::Arg(arg), "arg 64 path 3"),
        (Label::ZeroTest(arg.with_added(4)), "zero-test 64 path 3 add 4"),
        (Label::Arg(arg.with_added(4).masked(Word::new(255))), "arg 64 path 3 add 4 mask 0xff"),
        (Label::ZeroTest(arg.masked(Word::new(1 << 32))), "zero-test 64 path 3 mask 0x100000000"),
    ] {
        assert_eq!((label.to_string(), format!("{label:>40}")), (text.into(), format!("{text:>40}")));
        let trace = trace::Trace::from_text(&format!("step STOP\nslot 0 {text}")).unwrap();
        let numbers = <[u32; LABEL]>::from(label);
        assert_eq!(trace.steps[0].slots[0][8..], numbers, "the text form of traces has the same words");
    }
}
