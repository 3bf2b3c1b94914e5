//! 256-bit numbers: what the published source uses of the crate of this name. Sums, differences, products and powers
//! are taken modulo 2^256, and a shift by 256 or more gives 0 whatever the shift's low bits are (docs/DIFFERENCES.md,
//! 1: the crate may look at them).

// the limbs of several numbers go side by side
#![allow(clippy::needless_range_loop)]

mod signed;
mod unsigned;

pub use signed::I256;
pub use unsigned::U256;

/// The crate's own name for where conversion errors live.
pub mod ruint {
    use std::{error, fmt, marker::PhantomData};

    #[derive(Clone, Copy, Debug, PartialEq, Eq)]
    pub struct FromUintError<T>(pub(crate) PhantomData<T>);

    impl<T> fmt::Display for FromUintError<T> {
        fn fmt(&self, f: &mut fmt::Formatter) -> fmt::Result {
            f.write_str("the number does not fit")
        }
    }

    impl<T: fmt::Debug> error::Error for FromUintError<T> {}
}

/// `uint!(31_U256)`: a decimal literal with the type's name behind it.
#[macro_export]
macro_rules! uint {
    ($literal:tt) => {
        const { $crate::U256::from_literal(stringify!($literal)) }
    };
}
