//! Stacks and memories, which are the numbers that the core is lent.

use argcol::*;

fn some_slots() -> Vec<Slot> {
    let arg = Arg::at(32, 1).with_added(4);
    vec![
        Slot::plain(7),
        Slot::plain(8).with_label(Label::CallData),
        Slot::new(Word::MAX, arg.masked(Word::new(255))),
        Slot::plain(9).with_label(Label::ZeroTest(arg)),
        Slot::plain(10),
    ]
}

fn some_entries() -> Vec<Entry> {
    let entry = |(i, slot): (u32, Slot)| Entry { offset: 32 * i, replaced: i == 2, label: slot.label };
    (0..).zip(some_slots()).map(entry).collect()
}

#[test]
fn dup_and_swap() {
    let slots = some_slots();
    for n in 1..=5 {
        let (mut stack, mut list) = (Stack::from(&slots[..]), slots.clone());
        stack.dup(n).unwrap();
        list.push(slots[5 - n]);
        assert!(stack.iter().eq(list), "DUP{n}");
    }
    for n in 0..5 {
        let (mut stack, mut list) = (Stack::from(&slots[..]), slots.clone());
        stack.swap(n).unwrap();
        list.swap(4, 4 - n);
        assert!(stack.iter().eq(list), "SWAP{n}");
    }
}

/// The same as a list of slots, whatever is done.
#[test]
fn a_stack_as_a_list() {
    let (mut stack, mut list) = (Stack::new(), Vec::new());
    for slot in some_slots() {
        stack.push(slot);
        list.push(slot);
    }
    for (place, slot) in list.iter_mut().enumerate() {
        assert_eq!(stack.get(place), Some(*slot));
        *slot = Slot::plain(place as u64);
        stack.set(place, *slot).unwrap();
    }
    let numbers: Vec<u32> = list.iter().flat_map(|slot| <[u32; SLOT]>::from(*slot)).collect();
    assert_eq!((stack.numbers(), stack.len(), stack.is_empty()), (&numbers[..], list.len(), false));
    assert_eq!((stack.top(), stack.get(list.len())), (list.last().copied(), None));
    stack.truncate(4);
    list.truncate(4);
    while let Some(slot) = list.pop() {
        assert_eq!(stack.pop(), Some(slot));
    }
    assert_eq!((stack.pop(), stack.top(), stack.len(), stack.is_empty()), (None, None, 0, true));
}

#[test]
fn places_that_a_stack_has_not() {
    let mut stack = Stack::from(&some_slots()[..]);
    let before = stack.clone();
    for n in [0, 6, usize::MAX] {
        assert_eq!(stack.dup(n).unwrap_err().there, 5, "DUP{n}");
    }
    for n in [5, 6, usize::MAX] {
        assert_eq!(stack.swap(n).unwrap_err().there, 5, "SWAP{n}");
        assert_eq!(stack.set(n, Slot::default()).unwrap_err().to_string(), "there is no such place among 5");
    }
    assert_eq!(stack, before);
    let mut empty = Stack::new();
    assert!(empty.dup(1).is_err() && empty.swap(0).is_err() && empty.set(0, Slot::default()).is_err());
}

#[test]
fn a_memory_as_a_list() {
    let mut memory = Memory::with_capacity(2);
    let mut list = some_entries();
    memory.extend(list.clone());
    assert_eq!((memory.len(), memory.is_empty(), memory.get(5)), (5, false, None));
    let numbers: Vec<u32> = list.iter().flat_map(|entry| <[u32; ENTRY]>::from(*entry)).collect();
    assert_eq!(memory.numbers(), numbers);
    for place in 0..5 {
        assert_eq!(memory.get(place), Some(list[place]));
        memory.set(place, list[4 - place]).unwrap();
    }
    list.reverse();
    assert!(memory.iter().eq(list.iter().copied()));
    assert_eq!(memory.set(5, Entry::default()).unwrap_err().there, 5);
    memory.push(Entry::at(7, Label::None));
    assert_eq!(memory.pop(), Some(Entry::at(7, Label::None)));
    memory.truncate(1);
    assert!(memory.iter().eq([list[0]]));
    memory.clear();
    assert_eq!((memory.pop(), memory.is_empty()), (None, true));
}

#[test]
fn iteration() {
    let (slots, entries) = (some_slots(), some_entries());
    let (stack, memory): (Stack, Memory) = (slots.iter().copied().collect(), entries.iter().copied().collect());
    assert_eq!((stack.iter().len(), memory.iter().len()), (5, 5));
    assert!(
        stack.iter().rev().eq(slots.iter().rev().copied()) && memory.iter().rev().eq(entries.iter().rev().copied())
    );
    assert!((&stack).into_iter().eq(slots.clone()) && (&memory).into_iter().eq(entries.clone()));
    assert_eq!((format!("{stack:?}"), format!("{memory:?}")), (format!("{slots:?}"), format!("{entries:?}")));
    assert_eq!((Stack::from(&slots[..]), Memory::from(&entries[..])), (stack.clone(), memory.clone()));
    assert!(stack.into_iter().eq(slots) && memory.into_iter().rev().eq(entries.into_iter().rev()));
}

/// Numbers are taken exactly if each part is well formed and whole.
#[test]
fn from_numbers() {
    let (stack, memory) = (Stack::from(&some_slots()[..]), Memory::from(&some_entries()[..]));
    assert_eq!(
        (Stack::try_from(stack.numbers()), Memory::try_from(memory.numbers())),
        (Ok(stack.clone()), Ok(memory.clone()))
    );
    let none: &[u32] = &[];
    assert_eq!((Stack::try_from(none), Memory::try_from(none)), (Ok(Stack::new()), Ok(Memory::new())));
    for length in [1, SLOT - 1, SLOT + 1, 5 * SLOT - 1] {
        let reason = Stack::try_from(&stack.numbers()[..length]).unwrap_err().reason();
        assert_eq!(reason, "a stack is whole slots of 21 numbers");
    }
    for length in [1, ENTRY - 1, ENTRY + 1, 5 * ENTRY - 1] {
        let reason = Memory::try_from(&memory.numbers()[..length]).unwrap_err().reason();
        assert_eq!(reason, "a memory is whole entries of 15 numbers");
    }
    for (at, value, reason) in [(8, 4, "a label's kind is 0 to 3"), (4 * SLOT + 20, 1, "what a label doesn't use is 0")]
    {
        let mut numbers = stack.numbers().to_vec();
        numbers[at] = value;
        assert_eq!(Stack::try_from(&numbers[..]).unwrap_err().reason(), reason);
    }
    for (at, value, reason) in
        [(1, 2, "a replaced mark is 0 or 1"), (4 * ENTRY + 14, 1, "what a label doesn't use is 0")]
    {
        let mut numbers = memory.numbers().to_vec();
        numbers[at] = value;
        assert_eq!(Memory::try_from(&numbers[..]).unwrap_err().reason(), reason);
    }
}
