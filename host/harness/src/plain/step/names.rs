//! The arms that name an argument by what is done with it.

use super::Run;
use crate::plain::{
    code::{guard_failure, is_division_check},
    labels::{Arg, arg_label, value},
    numbers::*,
    words::{mask_type, small},
};

impl Run<'_> {
    pub fn call(&mut self) {
        if let Some(arg) = self.arg(0) {
            self.mark(arg);
            self.name(arg, ADDRESS, 20);
        }
    }

    pub fn store_byte(&mut self) {
        if let Some(arg) = self.arg(0) {
            self.mark(arg);
            self.name(arg, 1008, 12);
        }
    }

    pub fn divide_signed(&mut self) {
        if let Some((arg, _)) = self.first(|_| true) {
            self.mark(arg);
            self.name(arg, 2256, 8);
        }
    }

    pub fn sign_extend(&mut self) {
        if let (Some(arg), Some(size @ 0..=31)) = (self.arg(1), small(&self.words[0])) {
            self.name(arg, 2000 + 8 * (size + 1), 20);
        }
    }

    pub fn byte(&mut self) {
        if let Some(arg) = self.arg(1) {
            self.name(arg, 3032, 4);
        }
    }

    pub fn shift_right(&mut self) {
        let (Some(arg), true) = (self.arg(1), self.active) else {
            return;
        };
        if let Some(width @ 1..=255) = small(&self.words[0])
            && guard_failure(self.code, self.pc, true).is_some()
        {
            match width {
                1 => self.name(arg, BOOL, 20),
                160 => self.name(arg, ADDRESS, 20),
                _ if width % 8 == 0 => self.name(arg, 1000 + width, 20),
                _ => (),
            }
        }
    }

    pub fn and(&mut self) {
        if let Some((arg, other)) = self.first(|arg| arg.mask.is_none()) {
            self.mark(arg);
            let mask = self.words[other];
            if mask_type(&mask) != 0 {
                self.name(arg, mask_type(&mask), 5);
                self.put_label(arg_label(ARG, Arg { mask: Some(mask), ..arg }));
            }
        }
    }

    pub fn equal(&mut self) {
        let (Some(first), Some(second)) = (self.arg(0), self.arg(1)) else {
            return;
        };
        let (bare, masked) = if first.mask.is_none() { (first, second) } else { (second, first) };
        if let (None, Some(mask)) = (bare.mask, masked.mask)
            && bare == (Arg { mask: None, ..masked })
            && mask_type(&mask) != 0
        {
            self.name(bare, mask_type(&mask), 20);
        }
    }

    pub fn is_zero(&mut self) {
        if let Some(arg) = self.arg(0) {
            self.put_label(arg_label(ZERO_TEST, arg));
        } else if let Some(arg) = value(&self.labels[0], ZERO_TEST)
            && !is_division_check(self.code, self.pc)
        {
            self.name(arg, BOOL, 5);
        }
    }
}
