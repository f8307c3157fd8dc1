//! A small generator of numbers, the same on every machine: splitmix64.

/// Numbers determined by a seed.
#[derive(Clone, Debug)]
pub struct Rng {
    state: u64,
}

impl Rng {
    /// The sequence of a seed.
    pub fn new(seed: u64) -> Rng {
        Rng { state: seed }
    }

    /// The next 64 bits.
    pub fn next_bits(&mut self) -> u64 {
        self.state = self.state.wrapping_add(0x9e37_79b9_7f4a_7c15);
        let mut mixed = self.state;
        mixed = (mixed ^ (mixed >> 30)).wrapping_mul(0xbf58_476d_1ce4_e5b9);
        mixed = (mixed ^ (mixed >> 27)).wrapping_mul(0x94d0_49bb_1331_11eb);
        mixed ^ (mixed >> 31)
    }

    /// A number from `low` to `high`, both included. The slight lean of the
    /// remainder towards low numbers doesn't matter here.
    pub fn between(&mut self, low: u32, high: u32) -> u32 {
        let width = u64::from(high - low) + 1;
        low + (self.next_bits() % width) as u32
    }

    /// True in so many of 100 cases.
    pub fn chance(&mut self, percent: u32) -> bool {
        self.between(0, 99) < percent
    }

    /// One of the choices, none if there are none.
    pub fn pick<'a, T>(&mut self, choices: &'a [T]) -> Option<&'a T> {
        let last = u32::try_from(choices.len().checked_sub(1)?).ok()?;
        choices.get(self.between(0, last) as usize)
    }

    /// Puts a list into another order.
    pub fn shuffle<T>(&mut self, list: &mut [T]) {
        for place in 1..list.len() {
            let other = self.between(0, place as u32) as usize;
            list.swap(place, other);
        }
    }
}

#[cfg(test)]
mod tests {
    use super::*;

    /// The published first numbers of splitmix64 for seed 0.
    #[test]
    fn splitmix64_from_zero() {
        let mut rng = Rng::new(0);
        assert_eq!(rng.next_bits(), 0xe220_a839_7b1d_cdaf);
        assert_eq!(rng.next_bits(), 0x6e78_9e6a_a1b9_65f4);
        assert_eq!(rng.next_bits(), 0x06c4_5d18_8009_454f);
    }

    #[test]
    fn bounds_are_met_and_kept() {
        let mut rng = Rng::new(1);
        let numbers: Vec<u32> = (0..1000).map(|_| rng.between(3, 6)).collect();
        assert_eq!(numbers.iter().min(), Some(&3));
        assert_eq!(numbers.iter().max(), Some(&6));
        assert_eq!(rng.pick::<u8>(&[]), None);
    }
}
