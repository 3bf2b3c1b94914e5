//! Types, their codes and their texts.

use argcol::*;

#[test]
fn the_text_of_types() {
    use Type::*;
    let pair = Tuple(vec![Uint(8), Array(Box::new(Address))]);
    assert_eq!(pair.to_string(), "(uint8,address[])");
    assert_eq!(format!("{pair:>20}|"), "   (uint8,address[])|");
    let all = vec![
        Bool,
        Address,
        Bytes,
        String,
        Uint(256),
        Int(8),
        FixedBytes(32),
        Array(Box::new(Array(Box::new(pair.clone())))),
    ];
    let codes: Vec<u16> = all.iter().flat_map(Type::codes).collect();
    assert_eq!(text(&codes).unwrap(), "bool,address,bytes,string,uint256,int8,bytes32,(uint8,address[])[][]");
    assert_eq!(Type::from_codes(&codes).unwrap(), all);
    assert_eq!(text(&[]).unwrap(), "");
    let mut out = [b'x'; 6];
    assert_eq!((text_into(&[1], &mut out), &out), (Ok(4), b"boolxx"));
    // the longest text there is
    assert_eq!(text(&[1256; TYPES]).unwrap(), vec!["uint256"; TYPES].join(","));
    for odd in
        [Uint(7), Uint(1008), Int(264), FixedBytes(0), FixedBytes(33), Tuple(vec![Bool]), Array(Box::new(Uint(9)))]
    {
        assert_eq!(odd.to_string(), format!("{odd:?}"), "no ABI type has a text");
    }
    for code in 0..=u16::MAX {
        // a code is of a type exactly if the proved call takes it
        assert_eq!(Type::from_codes(&[code]).is_ok(), text(&[code]).is_ok(), "{code}");
    }
}

/// A list of codes is one of types exactly if the proved call takes it, and the codes come back.
#[test]
fn lists_of_codes() {
    let some = [1, 1256, 5, 16_386, 16_387, 6];
    let mut lists: Vec<Vec<u16>> = vec![vec![]];
    for _ in 0..5 {
        lists = lists.iter().flat_map(|list| some.map(|code| [&list[..], &[code]].concat())).chain([vec![]]).collect();
    }
    for list in lists {
        let types = Type::from_codes(&list);
        assert_eq!(types.is_ok(), text(&list).is_ok(), "{list:?}");
        if let Ok(types) = types {
            assert_eq!(types.iter().flat_map(Type::codes).collect::<Vec<u16>>(), list);
            assert_eq!(types.iter().map(Type::to_string).collect::<Vec<_>>().join(","), text(&list).unwrap());
        }
    }
}

fn on_a_threads_stack(run: impl FnOnce() + Send + 'static) {
    std::thread::Builder::new().stack_size(2 << 20).spawn(run).unwrap().join().unwrap();
}

/// The deepest types that a list of codes can stand for are read, written, shown, copied and dropped on the stack that
/// a thread has by default.
#[test]
fn the_deepest_types() {
    on_a_threads_stack(|| {
        let arrays = [&[5; TYPES - 1][..], &[1256]].concat();
        let types = Type::from_codes(&arrays).unwrap();
        assert_eq!((types.len(), types[0].codes()), (1, arrays.clone()));
        assert_eq!(types[0].to_string(), "uint256".to_string() + &"[]".repeat(TYPES - 1));
        assert!(types[0].clone().codes() == arrays);
        let levels =
            std::iter::successors(Some(&types[0]), |ty| if let Type::Array(inner) = ty { Some(inner) } else { None });
        assert_eq!(levels.count(), TYPES);
        drop(types);
        // a pair whose second part is a pair, and so on
        let tuples = [&[16_386, 1].repeat(TYPES / 2 - 1)[..], &[2]].concat();
        let types = Type::from_codes(&tuples).unwrap();
        assert_eq!((types.len(), types[0].codes()), (1, tuples.clone()));
        assert!(types[0].clone().codes() == tuples);
        drop(types);
    });
}

#[test]
fn copies() {
    use Type::*;
    // parts of all kinds, some of them no ABI types
    let pair = Tuple(vec![Int(0), FixedBytes(99)]);
    let ty = Tuple(vec![Uint(7), Array(Box::new(Tuple(vec![]))), pair, Bool, Address, Bytes, String]);
    assert_eq!(ty.clone(), ty);
}

#[test]
fn more_codes_than_a_list_has() {
    let reason = |codes: &[u16]| Type::from_codes(codes).unwrap_err().reason();
    for length in [TYPES + 1, 1_000_000] {
        for codes in [vec![1; length], vec![5; length], [&vec![5; length - 1][..], &[1]].concat()] {
            assert_eq!(reason(&codes), "a list has at most 8,192 codes");
        }
    }
    assert_eq!((reason(&[5]), reason(&[6])), ("a type's codes are cut short", "no type has this code"));
    assert_eq!(Type::from_codes(&[1; TYPES]).unwrap(), vec![Type::Bool; TYPES]);
    // made by hand, such a type has no text
    let half = Type::Tuple(vec![Type::Bool; TYPES / 2]);
    let whole = Type::Tuple(vec![half.clone(), half]);
    assert_eq!(whole.to_string(), format!("{whole:?}"));
}
