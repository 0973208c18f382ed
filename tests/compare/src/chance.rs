//! Chance with a seed: the splitmix64 generator, so that a seed gives the same feeds everywhere.

pub struct Chance {
    state: u64,
}

impl Chance {
    pub fn of_seed(seed: u64) -> Chance {
        Chance { state: seed }
    }

    /// The next 64 bits.
    pub fn draw(&mut self) -> u64 {
        self.state = self.state.wrapping_add(0x9e37_79b9_7f4a_7c15);
        let mut mixed = self.state;
        mixed = (mixed ^ (mixed >> 30)).wrapping_mul(0xbf58_476d_1ce4_e5b9);
        mixed = (mixed ^ (mixed >> 27)).wrapping_mul(0x94d0_49bb_1331_11eb);
        mixed ^ (mixed >> 31)
    }

    /// A number from 0 on, and below `count`, which is at least 1 and below 2 to the 32nd.
    pub fn below(&mut self, count: usize) -> usize {
        (((self.draw() >> 32) * count as u64) >> 32) as usize
    }

    /// A number from `least` to `most`, both possible.
    pub fn between(&mut self, least: usize, most: usize) -> usize {
        least + self.below(most - least + 1)
    }

    /// As `between`, with the two ends and their neighbours more often than the rest.
    pub fn near_ends(&mut self, least: usize, most: usize) -> usize {
        match self.below(8) {
            0 => least,
            1 => most,
            2 => (least + 1).min(most),
            3 => most.saturating_sub(1).max(least),
            _ => self.between(least, most),
        }
    }

    /// Yes in so many of a hundred draws.
    pub fn in_hundred(&mut self, share: usize) -> bool {
        self.below(100) < share
    }

    /// One of several.
    pub fn one_of<T: Copy>(&mut self, all: &[T]) -> T {
        all[self.below(all.len())]
    }
}

#[cfg(test)]
mod tests {
    use super::*;

    /// The first numbers of splitmix64 for the seed 1234567, as they are published.
    #[test]
    fn it_is_splitmix64() {
        let mut chance = Chance::of_seed(1_234_567);
        let drawn: Vec<u64> = (0..3).map(|_| chance.draw()).collect();
        assert_eq!(
            drawn,
            [
                6_457_827_717_110_365_317,
                3_203_168_211_198_807_973,
                9_817_491_932_198_370_423
            ]
        );
    }

    #[test]
    fn every_number_comes_and_no_other() {
        let mut chance = Chance::of_seed(1);
        let mut seen = [false; 5];
        for _ in 0..1000 {
            seen[chance.between(3, 7) - 3] = true;
            let number = chance.near_ends(3, 4);
            assert!(number == 3 || number == 4);
        }
        assert_eq!(seen, [true; 5]);
    }
}
