//! A hasher with a fixed start. Sets over it hold what other sets hold; the order in which they go through it is not
//! looked at by the source.

pub mod fast {
    use std::hash::{BuildHasher, Hasher};

    #[derive(Clone, Copy, Default, Debug)]
    pub struct FixedState;

    #[derive(Clone, Copy, Debug)]
    pub struct Folded(u64);

    impl BuildHasher for FixedState {
        type Hasher = Folded;

        #[inline]
        fn build_hasher(&self) -> Folded {
            Folded(0x2437_54a3_a0d3_0831)
        }
    }

    impl Folded {
        /// The halves of the whole product, folded: one multiplication for eight bytes, as in the crate.
        #[inline]
        fn fold(&mut self, number: u64) {
            let product = u128::from(self.0 ^ number) * 0x9e37_79b9_7f4a_7c15;
            self.0 = product as u64 ^ (product >> 64) as u64;
        }
    }

    impl Hasher for Folded {
        #[inline]
        fn write(&mut self, bytes: &[u8]) {
            let (eights, rest) = bytes.as_chunks();
            let (fours, rest) = rest.as_chunks();
            eights.iter().for_each(|part| self.fold(u64::from_le_bytes(*part)));
            fours.iter().for_each(|part| self.fold(u32::from_le_bytes(*part).into()));
            rest.iter().for_each(|byte| self.fold((*byte).into()));
        }

        #[inline]
        fn write_usize(&mut self, number: usize) {
            self.fold(number as u64);
        }

        #[inline]
        fn finish(&self) -> u64 {
            self.0
        }
    }
}

#[cfg(test)]
mod tests {
    use super::fast::FixedState;
    use std::collections::HashSet;

    #[test]
    fn a_set_holds_what_a_list_holds() {
        let (mut set, mut list): (HashSet<Vec<u32>, FixedState>, Vec<Vec<u32>>) = Default::default();
        let mut x = 1u32;
        for _ in 0..3000 {
            x = x.wrapping_mul(1_664_525).wrapping_add(1_013_904_223);
            let path: Vec<u32> = (0..x >> 30).map(|i| (x >> (8 + 3 * i) & 7) * 32).collect();
            assert_eq!(set.contains(&path), list.contains(&path));
            assert_eq!(set.insert(path.clone()), !list.contains(&path));
            if !list.contains(&path) {
                list.push(path);
            }
        }
        assert_eq!(set.len(), list.len());
    }
}
