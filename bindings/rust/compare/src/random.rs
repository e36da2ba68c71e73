//! Random values: the same for the same seed.

/// A source of random values (xorshift64*).
pub struct Random {
    state: u64,
}

impl Random {
    pub fn new(seed: u64) -> Random {
        // No state is zero.
        Random {
            state: seed.wrapping_mul(0x9e37_79b9_7f4a_7c15) | 1,
        }
    }

    fn next(&mut self) -> u64 {
        self.state ^= self.state >> 12;
        self.state ^= self.state << 25;
        self.state ^= self.state >> 27;
        self.state.wrapping_mul(0x2545_f491_4f6c_dd1d)
    }

    /// A number below another one, which isn't zero.
    pub fn below(&mut self, end: usize) -> usize {
        ((self.next() >> 16) % end as u64) as usize
    }

    /// A number of 64 bits: of any size, and often one at a limit.
    pub fn u64(&mut self) -> u64 {
        let bits = [1, 7, 8, 15, 16, 31, 32, 63, 64][self.below(9)];
        let all = u64::MAX >> (64 - bits);
        match self.below(4) {
            0 => all,
            1 => all.wrapping_add(1),
            _ => self.next() & all,
        }
    }

    pub fn u32(&mut self) -> u32 {
        self.u64() as u32
    }

    pub fn u16(&mut self) -> u16 {
        self.u64() as u16
    }

    pub fn u8(&mut self) -> u8 {
        self.u64() as u8
    }

    pub fn bool(&mut self) -> bool {
        self.below(2) == 1
    }

    pub fn one_of<T: Copy>(&mut self, values: &[T]) -> T {
        values[self.below(values.len())]
    }

    pub fn array<const N: usize>(&mut self) -> [u8; N] {
        std::array::from_fn(|_| self.u8())
    }

    pub fn bytes(&mut self, most: usize) -> Vec<u8> {
        let count = self.below(most + 1);
        (0..count).map(|_| self.u8()).collect()
    }

    /// Characters of a set.
    pub fn text(&mut self, characters: &str, count: usize) -> String {
        let characters = characters.as_bytes();
        (0..count)
            .map(|_| char::from(self.one_of(characters)))
            .collect()
    }

    /// Two numbers, of which the first isn't greater, and that aren't the least and the greatest together.
    pub fn range(&mut self, greatest: u64) -> (u64, u64) {
        let (a, b) = (self.u64() & greatest, self.u64() & greatest);
        let (min, max) = (a.min(b), a.max(b));
        if max - min == greatest {
            (1, greatest)
        } else {
            (min, max)
        }
    }
}
