//! Words: from and to integers, bytes and text.

use argcol::*;

#[test]
fn from_integers_and_back() {
    let high = Word([0, 0, 0, 0, 0x0102_0304, 0x0506_0708, 0x090a_0b0c, 0x0d0e_0f10]);
    let value = 0x0102_0304_0506_0708_090a_0b0c_0d0e_0f10_u128;
    assert_eq!((Word::from(value), u128::try_from(high)), (high, Ok(value)));
    assert_eq!(Word::from(u64::MAX), Word([0, 0, 0, 0, 0, 0, u32::MAX, u32::MAX]));
    let words = [Word::from(7_u8), 7_u16.into(), 7_u32.into(), 7_u64.into(), 7_u128.into(), 7_usize.into()];
    assert_eq!(words, [Word::new(7); 6]);
    assert_eq!([Word::from(false), true.into()], [Word::ZERO, Word::new(1)]);
    let signed = [7_i8.try_into(), 7_i16.try_into(), 7_i32.try_into(), 7_i64.try_into(), 7_i128.try_into()];
    assert_eq!(signed, [Ok(Word::new(7)); 5]);
    assert_eq!(Word::try_from(i128::MAX).unwrap(), Word::from(i128::MAX as u128));
    assert!(Word::try_from(-1_i8).is_err() && Word::try_from(i64::MIN).is_err() && Word::try_from(-1_isize).is_err());
}

#[test]
fn integers_that_are_too_small() {
    for bits in 0..256 {
        let word = Word(std::array::from_fn(|i| if i == 7 - bits / 32 { 1 << (bits % 32) } else { 0 }));
        assert_eq!(u8::try_from(word).ok(), 1_u8.checked_shl(bits as u32));
        assert_eq!(u16::try_from(word).ok(), 1_u16.checked_shl(bits as u32));
        assert_eq!(u32::try_from(word).ok(), 1_u32.checked_shl(bits as u32));
        assert_eq!(u64::try_from(word).ok(), 1_u64.checked_shl(bits as u32));
        assert_eq!(usize::try_from(word).ok(), 1_usize.checked_shl(bits as u32));
        assert_eq!(u128::try_from(word).ok(), 1_u128.checked_shl(bits as u32));
        assert_eq!(word.to_u64(), 1_u64.checked_shl(bits as u32));
    }
}

#[test]
fn as_bytes() {
    let bytes: [u8; 32] = std::array::from_fn(|i| 0x10 + i as u8);
    let numbers =
        [0x1011_1213, 0x1415_1617, 0x1819_1a1b, 0x1c1d_1e1f, 0x2021_2223, 0x2425_2627, 0x2829_2a2b, 0x2c2d_2e2f];
    assert_eq!(Word::from(bytes), Word(numbers));
    assert_eq!(<[u8; 32]>::from(Word::from(numbers)), bytes);
    assert_eq!(<[u32; 8]>::from(Word(numbers)), numbers);
}

/// 2^256 - 1.
const MAX: &str = "115792089237316195423570985008687907853269984665640564039457584007913129639935";

#[test]
fn as_text() {
    for (text, hex, word) in [
        ("0", "0x0", Word::ZERO),
        ("4294967295", "0xffffffff", Word::new(u32::MAX.into())),
        ("4294967296", "0x100000000", Word::new(1 << 32)),
        ("1000000000", "0x3b9aca00", Word::new(1_000_000_000)),
        ("1000000000000000000", "0xde0b6b3a7640000", Word::new(1_000_000_000_000_000_000)),
        ("340282366920938463463374607431768211455", "0xffffffffffffffffffffffffffffffff", u128::MAX.into()),
        (MAX, &format!("0x{}", "f".repeat(64)), Word::MAX),
    ] {
        assert_eq!(
            (word.to_string(), format!("{word:#x}"), format!("{word:x}")),
            (text.into(), hex.into(), hex[2..].into())
        );
        assert_eq!(format!("{word:X}"), hex[2..].to_uppercase());
        assert_eq!((text.parse(), hex.parse()), (Ok(word), Ok(word)));
    }
    for value in [0_u128, 7, 999_999_999, 1_000_000_000, u64::MAX.into(), 10_u128.pow(27) + 1, u128::MAX - 1] {
        let word = Word::from(value);
        assert_eq!((word.to_string(), format!("{word:x}")), (value.to_string(), format!("{value:x}")));
    }
}

#[test]
fn as_text_of_a_width() {
    let word = Word::new(255);
    assert_eq!(format!("{word:5}|{word:<5}|{word:05}|{word:^5}"), "  255|255  |00255| 255 ");
    assert_eq!(format!("{word:5x}|{word:#06x}|{word:<#6x}|{word:#X}"), "   ff|0x00ff|0xff  |0xFF");
    assert_eq!(format!("{:064x}", Word::MAX), "f".repeat(64));
}

#[test]
fn what_is_no_text_of_a_word() {
    let reason = |text: &str| text.parse::<Word>().unwrap_err().to_string();
    assert_eq!(("0x00Ff".parse(), "007".parse()), (Ok(Word::new(255)), Ok(Word::new(7))));
    for text in ["", "0x"] {
        assert_eq!(reason(text), "a word has a digit at least");
    }
    for text in ["+5", "-5", "-0", " 5", "5 ", "1_000", "ff", "0X5", "٣", "0x+5", "0x-5", "0xg", "0x 5", "0x0x5"] {
        assert_eq!(reason(text), "a word is decimal digits, or hex digits behind 0x", "{text}");
    }
    // 2^256, and zeros ahead of what fits
    let over = MAX.replace("9935", "9936");
    for text in [&over, &format!("{MAX}0"), &format!("0x1{}", "0".repeat(64)), &"9".repeat(1_000)] {
        assert_eq!(reason(text), "a word is below 2^256", "{text}");
    }
    assert_eq!(format!("0x{}5", "0".repeat(100)).parse(), Ok(Word::new(5)));
}
