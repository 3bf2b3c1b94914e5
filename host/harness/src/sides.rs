//! Which of the three sides are there, and which were asked for.

use crate::{proved, raw};

/// The sides beside the plain reading.
#[derive(Clone, Copy, Debug, PartialEq, Eq)]
pub struct Sides {
    pub source: bool,
    pub archive: bool,
}

impl Sides {
    pub const NONE: Self = Self { source: false, archive: false };
    pub const SOURCE: Self = Self { source: true, archive: false };
    pub const ALL: Self = Self { source: true, archive: true };

    pub fn at_hand() -> Self {
        Self { source: published::AT_HAND, archive: proved::AT_HAND }
    }

    /// Those that the environment names, as it did when this program was built or does now.
    pub fn named() -> Self {
        let named = |name, built: Option<&str>| {
            std::env::var_os(name).is_some_and(|value| !value.is_empty())
                || built.is_some_and(|value| !value.is_empty())
        };
        Self {
            source: named("ARGCOL_RUST_SRC", option_env!("ARGCOL_RUST_SRC")),
            archive: named("ARGCOL_ARCHIVE", option_env!("ARGCOL_ARCHIVE")),
        }
    }

    pub fn or(self, other: Self) -> Self {
        Self { source: self.source || other.source, archive: self.archive || other.archive }
    }

    /// What is missing of these, in words. With no other side than the plain reading nothing is compared.
    pub fn missing(self, there: Self) -> Vec<&'static str> {
        if there == Self::NONE {
            return vec!["neither the archive nor the published source is at hand: there is nothing to compare"];
        }
        let source = "the published source is asked for and not at hand (ARGCOL_RUST_SRC, when this program is built)";
        let archive = "the archive is asked for and not at hand (ARGCOL_ARCHIVE, when this program is built)";
        let parts = [(self.source && !there.source, source), (self.archive && !there.archive, archive)];
        parts.into_iter().filter_map(|(missing, text)| missing.then_some(text)).collect()
    }
}

/// Whether an archive that is there is the one that this program declares.
pub fn other_version() -> Option<String> {
    let version = if cfg!(have_archive) { archive_version() } else { raw::VERSION };
    let ours = raw::VERSION;
    (version != ours).then(|| format!("libargcol.a is of version {version} and this program of version {ours}"))
}

#[cfg(have_archive)]
fn archive_version() -> u32 {
    raw::version()
}

#[cfg(not(have_archive))]
fn archive_version() -> u32 {
    raw::VERSION
}

/// Says which of the three sides are there.
pub fn say() {
    let there = Sides::at_hand();
    let part = |there: bool, name: &str| if there { format!(", {name}") } else { String::new() };
    println!("sides: plain reading{}{}", part(there.archive, "proved core"), part(there.source, "published source"));
    if !there.source {
        println!("the published source is not at hand: its comparisons are passed over");
    }
    if !there.archive {
        println!("the archive is not at hand: comparisons with the proved core are passed over");
    }
}

#[cfg(test)]
mod tests {
    use super::*;

    #[test]
    fn what_is_asked_for_and_missing() {
        let archive = Sides { source: false, archive: true };
        for asked in [Sides::NONE, Sides::SOURCE, archive, Sides::ALL] {
            assert_eq!(asked.missing(Sides::NONE).len(), 1);
        }
        for there in [Sides::SOURCE, archive, Sides::ALL] {
            assert_eq!(Sides::NONE.missing(there).len(), 0);
            assert_eq!(Sides::SOURCE.missing(there).len(), usize::from(!there.source));
            assert_eq!(archive.missing(there).len(), usize::from(!there.archive));
            let missing = usize::from(!there.source) + usize::from(!there.archive);
            assert_eq!(Sides::ALL.missing(there).len(), missing);
            assert_eq!(Sides::SOURCE.or(archive).missing(there), Sides::ALL.missing(there));
        }
        assert_eq!(other_version(), None);
    }
}
