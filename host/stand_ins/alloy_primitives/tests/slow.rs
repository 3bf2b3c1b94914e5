//! Every operation against a slow form on lists of bits, lowest first.

use alloy_primitives::{I256, U256, uint};

type Bits = Vec<bool>;

fn bits(x: U256) -> Bits {
    x.to_be_bytes().iter().rev().flat_map(|byte| (0..8).map(move |i| byte >> i & 1 == 1)).collect()
}

fn number(bits: &[bool]) -> U256 {
    let mut bytes = [0; 32];
    for (at, _) in bits.iter().take(256).enumerate().filter(|(_, b)| **b) {
        bytes[31 - at / 8] |= 1 << (at % 8);
    }
    U256::from_be_bytes(bytes)
}

fn plus(a: &[bool], b: &[bool]) -> Bits {
    let mut carry = false;
    let mut out: Bits = (0..a.len().max(b.len()))
        .map(|i| {
            let (x, y) = (a.get(i) == Some(&true), b.get(i) == Some(&true));
            let sum = x ^ y ^ carry;
            carry = x && y || carry && (x || y);
            sum
        })
        .collect();
    out.push(carry);
    out
}

fn is_less(a: &[bool], b: &[bool]) -> bool {
    let at = |x: &[bool], i: usize| x.get(i) == Some(&true);
    (0..a.len().max(b.len())).rev().find(|&i| at(a, i) != at(b, i)).is_some_and(|i| at(b, i))
}

/// The one number that gives `a` if `b` is added: bit by bit with a borrow.
fn minus(a: &[bool], b: &[bool]) -> Bits {
    let mut borrow = false;
    (0..a.len())
        .map(|i| {
            let (x, y) = (a[i], b.get(i) == Some(&true));
            let out = x ^ y ^ borrow;
            borrow = !x && (y || borrow) || y && borrow;
            out
        })
        .collect()
}

fn times(a: &[bool], b: &[bool]) -> Bits {
    let mut out = vec![false; 512];
    for (at, _) in b.iter().enumerate().filter(|(_, bit)| **bit) {
        let up: Bits = std::iter::repeat_n(false, at).chain(a.iter().copied()).collect();
        out = plus(&out, &up);
        out.truncate(512);
    }
    out
}

/// School division of any number of bits: quotient and rest.
fn divided(a: &[bool], b: &[bool]) -> (Bits, Bits) {
    let (mut quotient, mut rest) = (vec![false; a.len()], Bits::new());
    for at in (0..a.len()).rev() {
        rest.insert(0, a[at]);
        if !is_less(&rest, b) {
            rest = minus(&rest, b);
            quotient[at] = true;
        }
    }
    (quotient, rest)
}

struct Random(u64);

impl Random {
    fn next(&mut self) -> u64 {
        self.0 ^= self.0 << 13;
        self.0 ^= self.0 >> 7;
        self.0 ^= self.0 << 17;
        self.0
    }

    /// Numbers of every length, near powers of two, and small ones.
    fn word(&mut self) -> U256 {
        let limbs = U256::from_limbs(std::array::from_fn(|_| self.next()));
        match self.next() % 6 {
            0 => limbs,
            1 => limbs >> (self.next() % 256) as usize,
            2 => U256::ONE << (self.next() % 256) as usize,
            3 => (U256::ONE << (self.next() % 256) as usize) - U256::ONE,
            4 => !(limbs >> (self.next() % 256) as usize),
            _ => U256::from(self.next() % 300),
        }
    }
}

#[test]
fn each_operation() {
    let mut random = Random(0x9e37_79b9_7f4a_7c15);
    let edges = [U256::ZERO, U256::ONE, U256::MAX, U256::ONE << 255usize, U256::ONE << 64usize, U256::ONE << 32usize];
    for round in 0..600 {
        let pick = |i: usize, r: &mut Random| if round < 36 { edges[round / [1, 6][i] % 6] } else { r.word() };
        let (x, y, z) = (pick(0, &mut random), pick(1, &mut random), random.word());
        let (a, b, c) = (bits(x), bits(y), bits(z));
        assert_eq!(number(&a), x);
        let mut turned = x.to_be_bytes();
        turned.reverse();
        assert_eq!((x.to_le_bytes(), U256::from_le_bytes(turned)), (turned, x));
        assert_eq!(x + y, number(&plus(&a, &b)));
        assert_eq!(x - y, number(&minus(&a, &b)));
        assert_eq!(x * y, number(&times(&a, &b)));
        assert_eq!(x < y, is_less(&a, &b));
        assert_eq!(x > y, is_less(&b, &a));
        assert_eq!(x == y, a == b);
        let each = |f: fn(bool, bool) -> bool| number(&a.iter().zip(&b).map(|(p, q)| f(*p, *q)).collect::<Bits>());
        assert_eq!((x & y, x | y, x ^ y), (each(|p, q| p && q), each(|p, q| p || q), each(|p, q| p != q)));
        assert_eq!(!x, number(&a.iter().map(|p| !p).collect::<Bits>()));
        assert_eq!(x.is_zero(), a.iter().all(|p| !p));
        assert_eq!(x.bit_len(), a.iter().rposition(|p| *p).map_or(0, |at| at + 1));
        assert_eq!(x.leading_zeros(), a.iter().rev().take_while(|p| !**p).count());
        assert!((0..300).all(|at| x.bit(at) == (a.get(at) == Some(&true))));
        for by in [0, 1, 7, 8, 63, 64, 65, 128, 160, 255, 256, 300, (random.next() % 256) as usize] {
            let up: Bits = std::iter::repeat_n(false, by).chain(a.iter().copied()).collect();
            let down: Bits = a.iter().copied().skip(by).collect();
            assert_eq!((x << by, x >> by), (number(&up), number(&down)));
            assert_eq!((x << U256::from(by), x >> U256::from(by)), (x << by, x >> by));
            let signed: Bits = a.iter().copied().skip(by).chain(std::iter::repeat_n(a[255], by)).collect();
            assert_eq!(I256::from_raw(x).asr(by).into_raw(), number(&signed[signed.len() - 256..]), "{x:?} {by}");
        }
        let shift = if y < U256::from(256) { Some(y.to::<usize>()) } else { None };
        assert_eq!((x << y, x >> y), shift.map_or((U256::ZERO, U256::ZERO), |by| (x << by, x >> by)));
        if !y.is_zero() {
            let (quotient, rest) = divided(&a, &b);
            assert_eq!((x / y, x % y), (number(&quotient), number(&rest)));
            let size = |bits: &Bits| if bits[255] { minus(&vec![false; 256], bits) } else { bits.clone() };
            let signed = |bits: Bits, negative: bool| {
                if negative { number(&minus(&vec![false; 256], &bits)) } else { number(&bits) }
            };
            let (quotient, mut rest) = divided(&size(&a), &size(&b));
            rest.resize(256, false);
            assert_eq!(
                I256::from_raw(x).wrapping_div(I256::from_raw(y)).into_raw(),
                signed(quotient, a[255] != b[255])
            );
            assert_eq!((I256::from_raw(x) % I256::from_raw(y)).into_raw(), signed(rest, a[255]));
        }
        if round % 4 == 0 {
            let rest = |wide: &[bool]| if z.is_zero() { U256::ZERO } else { number(&divided(wide, &c).1) };
            assert_eq!(x.add_mod(y, z), rest(&plus(&a, &b)));
            assert_eq!(x.mul_mod(y, z), rest(&times(&a, &b)));
        }
        assert_eq!(u8::try_from(x).ok(), (8..256).all(|i| !a[i]).then(|| x.to_le_bytes()[0]));
        assert_eq!(u16::try_from(x).is_ok(), (16..256).all(|i| !a[i]));
        assert_eq!(
            u32::try_from(x).ok(),
            (32..256).all(|i| !a[i]).then(|| u32::from_le_bytes(x.to_le_bytes()[..4].try_into().unwrap()))
        );
        assert_eq!(
            usize::try_from(x).ok(),
            (64..256).all(|i| !a[i]).then(|| usize::from_le_bytes(x.to_le_bytes()[..8].try_into().unwrap()))
        );
    }
}

#[test]
fn powers() {
    let mut random = Random(7);
    for exponent in 0..40u32 {
        let x = random.word();
        let slow = (0..exponent).fold(U256::ONE, |product, _| product * x);
        assert_eq!(x.pow(U256::from(exponent)), slow);
    }
    assert_eq!(U256::from(2).pow(U256::from(255)), U256::ONE << 255usize);
    assert_eq!(U256::from(2).pow(U256::from(256)), U256::ZERO);
    // 3^(2^256) is 1 modulo 2^256
    assert_eq!(U256::from(3).pow(U256::MAX) * U256::from(3), U256::ONE);
}

#[test]
fn literals_and_bytes() {
    const SMALL: U256 = uint!(31_U256);
    const BYTES: [u8; 32] = uint!(131072_U256).to_be_bytes();
    assert_eq!(SMALL, U256::from(31u8));
    assert_eq!(BYTES[29..], [2, 0, 0]);
    assert_eq!(U256::from_le_bytes(BYTES), U256::from(2) << 232);
    assert!(matches!(U256::from(31u32), SMALL));
    assert_eq!((U256::from(true), U256::from(false)), (U256::ONE, U256::ZERO));
}
