//! A small generator of numbers (splitmix64): the same seed, the same vectors.

/// The state of the generator.
pub struct Random(u64);

impl Random {
    /// A generator that starts from a seed.
    pub fn new(seed: u64) -> Random {
        Random(seed)
    }

    /// The next 64 bits.
    pub fn bits(&mut self) -> u64 {
        self.0 = self.0.wrapping_add(0x9e37_79b9_7f4a_7c15);
        let mut z = self.0;
        z = (z ^ (z >> 30)).wrapping_mul(0xbf58_476d_1ce4_e5b9);
        z = (z ^ (z >> 27)).wrapping_mul(0x94d0_49bb_1331_11eb);
        z ^ (z >> 31)
    }

    /// A number below `bound`, which is above zero.
    pub fn below(&mut self, bound: u64) -> u64 {
        self.bits() % bound
    }

    /// A number within `lo..=hi`, a range of less than 2^64 numbers.
    pub fn within(&mut self, lo: u64, hi: u64) -> u64 {
        lo + self.below(hi - lo + 1)
    }

    /// A number of any size: each number of bits is as likely as any other.
    pub fn any_size(&mut self) -> u64 {
        let shift = self.below(64);
        self.bits() >> shift
    }

    /// True once in `n` times.
    pub fn once_in(&mut self, n: u64) -> bool {
        self.below(n) == 0
    }

    /// One of the entries of a list.
    pub fn pick<'a, T>(&mut self, list: &'a [T]) -> &'a T {
        &list[self.below(list.len() as u64) as usize]
    }

    /// A text of bytes, each one of `alphabet`.
    pub fn text(&mut self, alphabet: &[u8], length: usize) -> Vec<u8> {
        (0..length).map(|_| *self.pick(alphabet)).collect()
    }

    /// The text with one byte changed, put in, left out, doubled, or cut off.
    pub fn damage(&mut self, text: &[u8], alphabet: &[u8]) -> Vec<u8> {
        let mut text = text.to_vec();
        let at = self.below(text.len() as u64 + 1) as usize;
        let byte = *self.pick(alphabet);
        match self.below(8) {
            0..=2 if at < text.len() => text[at] = byte,
            3 if at < text.len() => drop(text.remove(at)),
            4 if at < text.len() => text.insert(at, text[at]),
            5 => text.truncate(at),
            _ => text.insert(at, byte),
        }
        text
    }
}
