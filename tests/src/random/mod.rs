//! Seeded random charts, inputs and calls, the same everywhere for one seed.

pub mod calls;
pub mod charts;
pub mod damage;
pub mod inputs;
pub mod operations;
pub mod searches;

use crate::analysis::{Merge, Order, Settings, Stop};

const DEFAULT_SEED: u64 = 20_260_421;

/// SplitMix64: small, without dependencies, and good enough to choose tests with.
#[derive(Clone, Debug)]
pub struct Random(u64);

impl Random {
    pub fn new(seed: u64) -> Self {
        Random(seed)
    }

    fn next_word(&mut self) -> u64 {
        self.0 = self.0.wrapping_add(0x9E37_79B9_7F4A_7C15);
        let mut mixed = self.0;
        mixed = (mixed ^ (mixed >> 30)).wrapping_mul(0xBF58_476D_1CE4_E5B9);
        mixed = (mixed ^ (mixed >> 27)).wrapping_mul(0x94D0_49BB_1331_11EB);
        mixed ^ (mixed >> 31)
    }

    /// A number below `bound`, which is not 0.
    pub fn below(&mut self, bound: usize) -> usize {
        (self.next_word() % bound as u64) as usize
    }

    pub fn between(&mut self, low: i32, high: i32) -> i32 {
        low + self.below((high - low) as usize + 1) as i32
    }

    pub fn percent(&mut self, percent: usize) -> bool {
        self.below(100) < percent
    }

    pub fn pick<T: Copy>(&mut self, items: &[T]) -> T {
        items[self.below(items.len())]
    }

    pub fn shuffle<T>(&mut self, items: &mut [T]) {
        for last in (1..items.len()).rev() {
            items.swap(last, self.below(last + 1));
        }
    }

    /// Permitted settings, as often with merge sep as with join.
    pub fn settings(&mut self) -> Settings {
        let (sep, join) = (&permitted_settings()[..2], &permitted_settings()[2..]);
        match self.percent(50) {
            true => self.pick(sep),
            false => self.pick(join),
        }
    }
}

/// Merge sep with stop join is not permitted, which leaves six.
pub fn permitted_settings() -> [Settings; 6] {
    let set = |merge, stop, order| Settings { merge, stop, order };
    [
        set(Merge::Sep, Stop::Sep, Order::Old),
        set(Merge::Sep, Stop::Sep, Order::New),
        set(Merge::Join, Stop::Sep, Order::Old),
        set(Merge::Join, Stop::Sep, Order::New),
        set(Merge::Join, Stop::Join, Order::Old),
        set(Merge::Join, Stop::Join, Order::New),
    ]
}

/// `TARKNOTTER_SEED`, or the fixed one.
pub fn seed() -> u64 {
    environment_number("TARKNOTTER_SEED").unwrap_or(DEFAULT_SEED)
}

/// `TARKNOTTER_COUNT`, or the test's own.
pub fn count(default: usize) -> usize {
    environment_number("TARKNOTTER_COUNT").map_or(default, |count| count as usize)
}

/// As `count`, but never below `default`: for tests that have to meet everything.
pub fn count_at_least(default: usize) -> usize {
    count(default).max(default)
}

/// A value that is no number must not pass for the default.
fn environment_number(variable: &str) -> Option<u64> {
    let value = std::env::var(variable).ok()?;
    Some(value.parse().unwrap_or_else(|_| panic!("{variable} is not a number: {value}")))
}

#[cfg(test)]
mod tests {
    use super::Random;

    /// One seed makes the same tests everywhere: the numbers published with SplitMix64.
    #[test]
    fn the_published_numbers() {
        let mut random = Random::new(1_234_567);
        let numbers = [(); 5].map(|()| random.next_word());
        assert_eq!(
            numbers,
            [
                6_457_827_717_110_365_317,
                3_203_168_211_198_807_973,
                9_817_491_932_198_370_423,
                4_593_380_528_125_082_431,
                16_408_922_859_458_223_821,
            ]
        );
    }
}
