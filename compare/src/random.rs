//! A deterministic random generator (splitmix64): one seed, one list of inputs.

pub struct Random {
    state: u64,
}

impl Random {
    pub const fn new(seed: u64) -> Random {
        Random { state: seed }
    }

    pub fn number(&mut self) -> u64 {
        self.state = self.state.wrapping_add(0x9E37_79B9_7F4A_7C15);
        let mut z = self.state;
        z = (z ^ (z >> 30)).wrapping_mul(0xBF58_476D_1CE4_E5B9);
        z = (z ^ (z >> 27)).wrapping_mul(0x94D0_49BB_1331_11EB);
        z ^ (z >> 31)
    }

    /// A number below the limit, which is not zero.
    pub fn below(&mut self, limit: usize) -> usize {
        (self.number() % limit as u64) as usize
    }

    /// A number from least to most, both included.
    pub fn between(&mut self, least: usize, most: usize) -> usize {
        least + self.below(most - least + 1)
    }

    /// True once in so many times.
    pub fn once_in(&mut self, times: usize) -> bool {
        self.below(times) == 0
    }

    pub fn octets(&mut self, length: usize) -> Vec<u8> {
        let mut octets = Vec::with_capacity(length + 8);
        while octets.len() < length {
            octets.extend(self.number().to_le_bytes());
        }
        octets.truncate(length);
        octets
    }

    pub fn pick<'a, T>(&mut self, list: &'a [T]) -> &'a T {
        &list[self.below(list.len())]
    }

    /// Picks from a list in which each item has its share.
    pub fn pick_by_share<'a, T>(&mut self, list: &'a [T], share: fn(&T) -> usize) -> &'a T {
        let mut rest = self.below(list.iter().map(share).sum());
        for item in list {
            if rest < share(item) {
                return item;
            }
            rest -= share(item);
        }
        unreachable!("the shares add up")
    }

    /// Flips one bit of the octets, which are not empty.
    pub fn flip_a_bit(&mut self, octets: &mut [u8]) {
        let octet = self.below(octets.len());
        octets[octet] ^= 0x80 >> self.below(8);
    }
}
