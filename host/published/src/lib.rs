//! The published source as it stands, behind numbers, paths and codes. Without the source (`build.rs` says where it is
//! looked for) only the plain forms below are here, and `AT_HAND` is false.

#![allow(dead_code, unused_imports, unexpected_cfgs, clippy::all)]

mod forms;
pub use forms::*;

#[cfg(have_source)]
mod whole {
    include!(concat!(env!("OUT_DIR"), "/source/points.rs"));
}

#[cfg(have_source)]
include!(concat!(env!("OUT_DIR"), "/source/modules.rs"));

#[cfg(have_source)]
pub(crate) type DynSolType = alloy_dyn_abi::DynSolType;
#[cfg(have_source)]
pub(crate) type Selector = [u8; 4];

#[cfg(have_source)]
pub use arguments::probe::{analyze, arguments, close, guard_failure, least_words, mask_type, timed, watch};

#[cfg(not(have_source))]
mod absent;
#[cfg(not(have_source))]
pub use absent::{analyze, arguments, close, guard_failure, least_words, mask_type, points, timed, watch};

pub const AT_HAND: bool = cfg!(have_source);

mod counters {
    use std::sync::atomic::{AtomicU64, Ordering::Relaxed};

    static COUNTS: [AtomicU64; 1024] = [const { AtomicU64::new(0) }; 1024];

    pub(crate) fn hit(point: usize) -> bool {
        COUNTS[point].fetch_add(1, Relaxed);
        true
    }

    pub(crate) fn miss(point: usize) -> bool {
        !hit(point)
    }

    pub fn count(point: usize) -> u64 {
        COUNTS[point].load(Relaxed)
    }
}
pub(crate) use counters::{hit, miss};

/// Kind, line, text and count of each counted point; none unless the build put counters in.
#[cfg(have_source)]
pub fn points() -> Vec<(&'static str, u32, &'static str, u64)> {
    whole::POINTS.iter().enumerate().map(|(i, &(kind, line, text))| (kind, line, text, counters::count(i))).collect()
}
