//! A small xorshift generator, so that the same seed gives the same cases on
//! every machine.

pub struct Random(u64);

impl Random {
    /// `seed` is not 0: xorshift would stay there.
    pub fn new(seed: u64) -> Self {
        assert_ne!(seed, 0);
        let mut random = Random(seed);
        // A seed with few one bits takes a few steps to spread.
        for _ in 0..16 {
            random.next();
        }
        random
    }

    fn next(&mut self) -> u64 {
        self.0 ^= self.0 << 13;
        self.0 ^= self.0 >> 7;
        self.0 ^= self.0 << 17;
        self.0
    }

    /// A number from 0 up to, without, `end`.
    pub fn below(&mut self, end: usize) -> usize {
        ((self.next() >> 32) % end as u64) as usize
    }

    /// True once in `count` times.
    pub fn once_in(&mut self, count: usize) -> bool {
        self.below(count) == 0
    }

    pub fn pick<'a, T: ?Sized>(&mut self, from: &[&'a T]) -> &'a T {
        from[self.below(from.len())]
    }

    pub fn byte(&mut self) -> u8 {
        self.below(256) as u8
    }

    /// A scalar value; each length in UTF-8 is as likely as the others.
    pub fn scalar(&mut self) -> char {
        const ENDS: [usize; 5] = [0, 0x80, 0x800, 0x1_0000, 0x11_0000];
        let length = 1 + self.below(4);
        let (low, high) = (ENDS[length - 1], ENDS[length]);
        loop {
            let value = low + self.below(high - low);
            // None for a surrogate: then another one.
            if let Some(scalar) = char::from_u32(value as u32) {
                return scalar;
            }
        }
    }
}
