//! Stand-in for the crate bitvec: what the text calls, and no more. Bits past the length are 0 in the last word.

pub mod vec {
    use std::ops::{BitAndAssign, Deref};

    const WORD: usize = u64::BITS as usize;

    #[derive(Clone, Debug)]
    pub struct BitVec {
        words: Vec<u64>,
        len: usize,
    }

    /// What `get` answers: it stands for the bit, and is compared through its `Deref`.
    pub struct BitRef(bool);

    impl Deref for BitRef {
        type Target = bool;
        fn deref(&self) -> &bool {
            &self.0
        }
    }

    impl BitVec {
        pub fn repeat(bit: bool, len: usize) -> Self {
            let mut words = vec![if bit { u64::MAX } else { 0 }; len.div_ceil(WORD)];
            if bit && !len.is_multiple_of(WORD) {
                *words.last_mut().unwrap() = (1 << (len % WORD)) - 1;
            }
            Self { words, len }
        }

        pub fn set(&mut self, index: usize, bit: bool) {
            assert!(index < self.len, "index {index} past a length of {}", self.len);
            let mask = 1 << (index % WORD);
            if bit {
                self.words[index / WORD] |= mask;
            } else {
                self.words[index / WORD] &= !mask;
            }
        }

        pub fn get(&self, index: usize) -> Option<BitRef> {
            (index < self.len).then(|| BitRef(self.words[index / WORD] >> (index % WORD) & 1 == 1))
        }

        pub fn not_any(&self) -> bool {
            self.words.iter().all(|&word| word == 0)
        }

        pub fn count_ones(&self) -> usize {
            self.words.iter().map(|word| word.count_ones() as usize).sum()
        }

        pub fn iter_ones(&self) -> impl Iterator<Item = usize> + '_ {
            (0..self.len).filter(|&index| self.words[index / WORD] >> (index % WORD) & 1 == 1)
        }
    }

    impl BitAndAssign<&BitVec> for BitVec {
        /// Past the end of the right side the bits are taken as 0.
        fn bitand_assign(&mut self, other: &BitVec) {
            for (at, word) in self.words.iter_mut().enumerate() {
                *word &= other.words.get(at).copied().unwrap_or(0);
            }
        }
    }
}

#[macro_export]
macro_rules! bitvec {
    ($bit:literal; $len:expr) => {
        $crate::vec::BitVec::repeat($bit == 1, $len)
    };
}
