//! One bit per cell in 64-bit words.

const WORD_BITS: usize = 64;

#[derive(Clone, PartialEq, Eq, Debug)]
pub struct Words(pub Vec<u64>);

impl Words {
    /// All bits 0.
    pub fn with_bits(bits: usize) -> Self {
        Words(vec![0; Self::words_for(bits)])
    }

    /// The bits below `bits` that are wanted.
    pub fn of(bits: usize, wanted: impl Fn(usize) -> bool) -> Self {
        let mut words = Words::with_bits(bits);
        (0..bits).filter(|&bit| wanted(bit)).for_each(|bit| words.put(bit, true));
        words
    }

    pub fn words_for(bits: usize) -> usize {
        bits.div_ceil(WORD_BITS)
    }

    pub fn put(&mut self, bit: usize, value: bool) {
        let mask = 1 << (bit % WORD_BITS);
        let word = &mut self.0[bit / WORD_BITS];
        *word = if value { *word | mask } else { *word & !mask };
    }

    pub fn lowest(&self) -> Option<usize> {
        let word = self.0.iter().position(|&word| word != 0)?;
        Some(WORD_BITS * word + self.0[word].trailing_zeros() as usize)
    }
}
