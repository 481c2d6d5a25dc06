//! Random inputs, the same in every run.

/// SplitMix64.
pub struct Random(u64);

impl Random {
    /// Each case has its own start, so that it can be run alone.
    pub fn new(seed: u64, case: u64) -> Random {
        Random(seed ^ Random(case).draw())
    }

    pub fn draw(&mut self) -> u64 {
        self.0 = self.0.wrapping_add(0x9e37_79b9_7f4a_7c15);
        let z = self.0;
        let z = (z ^ z >> 30).wrapping_mul(0xbf58_476d_1ce4_e5b9);
        let z = (z ^ z >> 27).wrapping_mul(0x94d0_49bb_1331_11eb);
        z ^ z >> 31
    }

    pub fn below(&mut self, end: usize) -> usize {
        (self.draw() % end as u64) as usize
    }

    pub fn one_in(&mut self, n: usize) -> bool {
        self.below(n) == 0
    }

    /// With a chance in millionths.
    pub fn hit(&mut self, chance: usize) -> bool {
        self.below(1_000_000) < chance
    }

    pub fn pick<T: Copy>(&mut self, from: &[T]) -> T {
        from[self.below(from.len())]
    }

    /// A length, now and then one off.
    pub fn near(&mut self, right: usize) -> usize {
        if self.one_in(15) {
            self.pick(&[right - 1, right + 1])
        } else {
            right
        }
    }

    /// Numbers, now and then another in the place of one.
    pub fn wild<const N: usize>(&mut self, right: [u32; N], wild: [u32; N]) -> [u32; N] {
        std::array::from_fn(|place| self.pick(&[right[place], right[place], right[place], wild[place]]))
    }

    /// A number of any length in bits.
    pub fn number(&mut self) -> u32 {
        (self.draw() >> 32) as u32 >> self.below(32)
    }

    /// A byte of a stream: small, the end of a group, or any.
    fn byte(&mut self) -> u8 {
        let any = self.draw() as u8;
        match self.below(5) {
            0 => any,
            1 => any | 0x80,
            2 => self.pick(&[0x00, 0x01, 0x0f, 0x10, 0x7f, 0x80, 0xff]),
            _ => any % 4,
        }
    }

    pub fn bytes(&mut self, len: usize) -> Vec<u8> {
        (0..len).map(|_| self.byte()).collect()
    }

    /// A list of 0 and 1: empty, sparse, dense or full.
    pub fn bits(&mut self, size: usize) -> Vec<u8> {
        let sparse = size.max(1);
        let of = self.pick(&[sparse, sparse, 40, 8, 2]);
        let full = self.one_in(16);
        (0..size).map(|_| u8::from(full || self.one_in(of))).collect()
    }

    /// A list of any size. Now and then a long one, whose skips take three groups.
    pub fn list(&mut self) -> Vec<u8> {
        if !self.one_in(500) {
            let size = self.below(700) / (1 + self.below(16));
            return self.bits(size);
        }
        let mut list = vec![0; 20_000];
        (0..20).for_each(|_| list[self.below(20_000)] = 1);
        list
    }

    /// The same bytes with one damage: a bit flipped, a number spliced in, made longer, a byte more or less.
    pub fn damaged(&mut self, bytes: &[u8]) -> Vec<u8> {
        let mut bytes = bytes.to_vec();
        if bytes.is_empty() {
            return self.bytes(1);
        }
        let place = self.below(bytes.len());
        match self.below(6) {
            0 | 1 => bytes[place] ^= 1 << self.below(8),
            2 => {
                bytes[place] |= 0x80;
                bytes.insert(place + 1, 0);
            }
            3 => {
                let number: &[u8] = self.pick(&[
                    &[0x80, 0x00],
                    &[0x80, 0x80, 0x80, 0x80, 0x00],
                    &[0x80, 0x80, 0x80, 0x80, 0x80],
                    &[0xff, 0xff, 0xff, 0xff, 0x0f],
                    &[0xff, 0xff, 0xff, 0xff, 0x10],
                    &[0xff, 0xff, 0xff, 0xff, 0x8f, 0x00],
                ]);
                bytes.splice(place..place, number.iter().copied());
            }
            4 => bytes.insert(place, self.byte()),
            _ => {
                bytes.remove(place);
            }
        }
        bytes
    }
}
