//! Labels as numbers, and an argument's label taken apart.

use super::numbers::*;
use crate::core::LABEL;

pub type Label = [u32; LABEL];

#[derive(Clone, Copy, PartialEq)]
pub struct Arg {
    pub offset: u32,
    pub path: u32,
    pub added: u32,
    pub mask: Option<[u32; 8]>,
}

/// Is the label well formed? What its kind does not use has to be 0.
pub fn is_label(label: &[u32], used: u32) -> bool {
    let (kind, path, masked) = (label[0], label[2], label[4]);
    let rest = |from: usize| label[from..].iter().all(|n| *n == 0);
    match kind {
        0 | CALL_DATA => rest(1),
        ARG | ZERO_TEST => masked <= 1 && (masked == 1 || rest(5)) && path >= 1 && path <= used,
        _ => false,
    }
}

pub fn arg_label(kind: u32, arg: Arg) -> Label {
    let mut label = [0; LABEL];
    label[..5].copy_from_slice(&[kind, arg.offset, arg.path, arg.added, u32::from(arg.mask.is_some())]);
    label[5..].copy_from_slice(&arg.mask.unwrap_or([0; 8]));
    label
}

/// What a label of this kind, an argument or a zero test, says; none for one of another kind.
pub fn value(label: &[u32], kind: u32) -> Option<Arg> {
    let mask = (label[4] == 1).then(|| label[5..13].try_into().unwrap());
    (label[0] == kind).then(|| Arg { offset: label[1], path: label[2], added: label[3], mask })
}
