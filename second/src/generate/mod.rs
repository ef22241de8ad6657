//! Inputs made from a seed alone, for this program and the other one.

pub mod codings;
pub mod contents;
pub mod fax;
pub mod fax_calls;
pub mod follow;
pub mod frames;
pub mod late;
pub mod list;
pub mod payloads;
pub mod records;
pub mod text;
pub mod trial;
pub mod unit;

use std::io::{self, Write};

/// A small deterministic generator: splitmix64.
#[derive(Clone, Debug)]
pub struct Random {
    state: u64,
}

impl Random {
    /// A generator from a seed.
    pub fn new(seed: u64) -> Self {
        Random { state: seed }
    }

    /// The next 64 bits.
    pub fn bits(&mut self) -> u64 {
        self.state = self.state.wrapping_add(0x9e37_79b9_7f4a_7c15);
        let mut bits = self.state;
        bits = (bits ^ (bits >> 30)).wrapping_mul(0xbf58_476d_1ce4_e5b9);
        bits = (bits ^ (bits >> 27)).wrapping_mul(0x94d0_49bb_1331_11eb);
        bits ^ (bits >> 31)
    }

    /// A number from 0 to below the bound, which is not 0.
    pub fn below(&mut self, bound: usize) -> usize {
        (self.bits() % bound as u64) as usize
    }

    /// A number from low to high, both reached.
    pub fn between(&mut self, low: usize, high: usize) -> usize {
        low + self.below(high - low + 1)
    }

    /// A small number from low to high, both reached.
    pub fn small(&mut self, low: u8, high: u8) -> u8 {
        self.between(usize::from(low), usize::from(high)) as u8
    }

    /// Any octet.
    pub fn octet(&mut self) -> u8 {
        self.bits() as u8
    }

    /// Some octets.
    pub fn octets(&mut self, count: usize) -> Vec<u8> {
        (0..count).map(|_| self.octet()).collect()
    }

    /// True one time in so many.
    pub fn one_in(&mut self, times: usize) -> bool {
        self.below(times) == 0
    }

    /// One of a list that is not empty.
    pub fn pick<T: Copy>(&mut self, list: &[T]) -> T {
        list[self.below(list.len())]
    }
}

/// Prints so many lines, each with its LF. A scene gives some lines, perhaps none,
/// that belong together. The very last line may lack its LF.
fn print_lines(
    output: &mut impl Write,
    count: u64,
    lf_missing_at_end: bool,
    mut scene: impl FnMut() -> Vec<Vec<u8>>,
) -> io::Result<()> {
    let mut printed = 0;
    while printed < count {
        for line in scene() {
            if printed == count {
                break;
            }
            printed += 1;
            output.write_all(&line)?;
            if !(printed == count && lf_missing_at_end) {
                output.write_all(b"\n")?;
            }
        }
    }
    output.flush()
}

#[cfg(test)]
mod tests {
    use super::*;

    #[test]
    fn the_same_seed_gives_the_same_numbers() {
        let mut one = Random::new(7);
        let mut other = Random::new(7);
        for _ in 0..100 {
            assert_eq!(one.bits(), other.bits());
        }
        assert_ne!(Random::new(7).bits(), Random::new(8).bits());
    }

    #[test]
    fn splitmix64_known_numbers() {
        let mut random = Random::new(1_234_567);
        let known: [u64; 5] = [
            6_457_827_717_110_365_317,
            3_203_168_211_198_807_973,
            9_817_491_932_198_370_423,
            4_593_380_528_125_082_431,
            16_408_922_859_458_223_821,
        ];
        for number in known {
            assert_eq!(random.bits(), number);
        }
    }

    #[test]
    fn bounds_are_reached_and_kept() {
        let mut random = Random::new(1);
        let mut seen = [false; 5];
        for _ in 0..1000 {
            seen[random.between(3, 7) - 3] = true;
        }
        assert_eq!(seen, [true; 5]);
    }
}
