//! What a stack and a memory share: iteration, conversions, and `Debug`.

/// For a struct with one field, a `Vec` of arrays of numbers that are well formed.
macro_rules! held {
    (
        $held:ident, $field:ident, $value:ident, $width:ident, $iter:ident, $into_iter:ident,
        $what:literal, $whole:literal
    ) => {
        #[doc = concat!("The ", $what, ".")]
        #[derive(Clone, Debug)]
        pub struct $iter<'a>(core::slice::Iter<'a, [u32; $width]>);

        #[doc = concat!("The ", $what, ", taken out of it.")]
        #[derive(Clone, Debug)]
        pub struct $into_iter(alloc::vec::IntoIter<[u32; $width]>);

        $crate::held::iterates!($iter<'_>, $value);
        $crate::held::iterates!($into_iter, $value);

        impl<'a> IntoIterator for &'a $held {
            type Item = $value;
            type IntoIter = $iter<'a>;

            fn into_iter(self) -> $iter<'a> {
                self.iter()
            }
        }

        impl IntoIterator for $held {
            type Item = $value;
            type IntoIter = $into_iter;

            fn into_iter(self) -> $into_iter {
                $into_iter(self.$field.into_iter())
            }
        }

        impl FromIterator<$value> for $held {
            fn from_iter<I: IntoIterator<Item = $value>>(values: I) -> Self {
                Self { $field: values.into_iter().map(Into::into).collect() }
            }
        }

        impl Extend<$value> for $held {
            fn extend<I: IntoIterator<Item = $value>>(&mut self, values: I) {
                self.$field.extend(values.into_iter().map(<[u32; $width]>::from));
            }
        }

        impl<const N: usize> From<[$value; N]> for $held {
            fn from(values: [$value; N]) -> Self {
                values.into_iter().collect()
            }
        }

        impl From<&[$value]> for $held {
            fn from(values: &[$value]) -> Self {
                values.iter().copied().collect()
            }
        }

        impl TryFrom<&[u32]> for $held {
            type Error = $crate::numbers::BadNumbers;

            fn try_from(numbers: &[u32]) -> Result<Self, Self::Error> {
                let (rows, []) = numbers.as_chunks() else { return Err($crate::numbers::BadNumbers($whole)) };
                rows.iter().try_for_each(|row| $value::try_from(row).map(drop))?;
                Ok(Self { $field: rows.to_vec() })
            }
        }

        impl core::fmt::Debug for $held {
            fn fmt(&self, f: &mut core::fmt::Formatter<'_>) -> core::fmt::Result {
                f.debug_list().entries(self).finish()
            }
        }
    };
}

/// An iterator over arrays of numbers gives values.
macro_rules! iterates {
    ($iter:ty, $value:ident) => {
        impl Iterator for $iter {
            type Item = $value;

            fn next(&mut self) -> Option<$value> {
                self.0.next().map(|numbers| $value::read(&numbers))
            }

            fn size_hint(&self) -> (usize, Option<usize>) {
                self.0.size_hint()
            }
        }

        impl DoubleEndedIterator for $iter {
            fn next_back(&mut self) -> Option<$value> {
                self.0.next_back().map(|numbers| $value::read(&numbers))
            }
        }

        impl ExactSizeIterator for $iter {}
        impl core::iter::FusedIterator for $iter {}
    };
}

pub(crate) use {held, iterates};
