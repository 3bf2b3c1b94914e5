use crate::{raw, refused::Refused};
use core::fmt;

/// Why a call gave no answer. Whatever it was handed is as it was.
#[derive(Clone, Copy, Debug, PartialEq, Eq, Hash)]
#[non_exhaustive]
pub enum Error {
    /// A question of document 01 was answered with "no".
    Refused(Refused),
    /// The archive that is linked is of another version than this crate.
    Version {
        /// The archive's version; this crate's is [`raw::VERSION`].
        archive: u32,
    },
    /// The archive answered with a number that this crate does not know: it is none of this crate's version.
    Unknown {
        /// What the number should be.
        what: &'static str,
        /// The number.
        number: u32,
    },
}

impl Error {
    /// The refusal, if it is one.
    ///
    /// ```
    /// use argcol::{Refused, Session};
    ///
    /// assert_eq!(Session::new(0).unwrap_err().refused(), Some(Refused::RecordCount));
    /// ```
    pub const fn refused(self) -> Option<Refused> {
        match self {
            Self::Refused(refused) => Some(refused),
            _ => None,
        }
    }

    /// Of the number that a call returned.
    #[inline]
    pub(crate) fn check(number: u32) -> Result<(), Self> {
        if number == 0 { Ok(()) } else { Err(Self::of(number)) }
    }

    #[cold]
    pub(crate) fn of(number: u32) -> Self {
        let unknown = Self::Unknown { what: "a refusal", number };
        Refused::from_number(number).map_or(unknown, Self::Refused)
    }

    /// Whether the archive's functions are those that this crate declares.
    #[inline]
    pub(crate) fn check_version() -> Result<(), Self> {
        Self::same_version(raw::version())
    }

    #[inline]
    fn same_version(archive: u32) -> Result<(), Self> {
        if archive == raw::VERSION { Ok(()) } else { Err(Self::Version { archive }) }
    }
}

impl From<Refused> for Error {
    fn from(refused: Refused) -> Self {
        Self::Refused(refused)
    }
}

impl fmt::Display for Error {
    fn fmt(&self, f: &mut fmt::Formatter<'_>) -> fmt::Result {
        match self {
            Self::Refused(refused) => refused.fmt(f),
            Self::Version { archive } => {
                let ours = raw::VERSION;
                write!(
                    f,
                    "libargcol.a is of version {archive} and this crate of version {ours}: build both from one tree"
                )
            }
            Self::Unknown { what, number } => {
                write!(f, "libargcol.a answered {number} for {what}, which this crate does not know")
            }
        }
    }
}

impl core::error::Error for Error {}

#[cfg(test)]
mod tests {
    use super::*;
    use alloc::string::ToString;

    #[test]
    fn another_version_is_an_error() {
        assert_eq!(Error::same_version(raw::VERSION), Ok(()));
        for archive in [0, raw::VERSION + 1, u32::MAX] {
            let error = Error::same_version(archive).unwrap_err();
            let text = alloc::format!("libargcol.a is of version {archive} and this crate of version {}", raw::VERSION);
            assert!(error == Error::Version { archive } && error.to_string().starts_with(&text), "{error}");
            assert_eq!(error.refused(), None);
        }
    }

    #[test]
    fn a_number_is_nothing_a_refusal_or_unknown() {
        assert_eq!(Error::check(0), Ok(()));
        for refused in Refused::ALL {
            assert_eq!(Error::check(refused.number()), Err((*refused).into()));
        }
        for number in [Refused::ALL.len() as u32 + 1, 99, u32::MAX] {
            let error = Error::check(number).unwrap_err();
            assert_eq!((error, error.refused()), (Error::Unknown { what: "a refusal", number }, None));
            let text = alloc::format!("libargcol.a answered {number} for a refusal, which this crate does not know");
            assert_eq!(error.to_string(), text);
        }
    }
}
