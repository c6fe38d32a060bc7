//! A deterministic generator (splitmix64), so that a run can be repeated from its printed seed.

use std::sync::OnceLock;
use std::time::{SystemTime, UNIX_EPOCH};

pub struct Rng(u64);

/// The run's seed: ZOLBINE_SEED as a number, a fresh one where it is `clock`, else always the same.
pub fn seed() -> u64 {
    static SEED: OnceLock<u64> = OnceLock::new();
    *SEED.get_or_init(|| match std::env::var("ZOLBINE_SEED").as_deref() {
        Err(_) => 1,
        Ok("clock") => {
            let now = SystemTime::now().duration_since(UNIX_EPOCH);
            now.expect("the clock stands after 1970").as_nanos() as u64
        }
        Ok(number) => number.parse().expect("ZOLBINE_SEED is a decimal number or `clock`"),
    })
}

impl Rng {
    /// A stream of its own for each seed and label.
    pub fn new(seed: u64, label: &str) -> Rng {
        let mut rng = Rng(seed);
        for byte in label.bytes() {
            rng.0 = rng.next() ^ u64::from(byte);
        }
        rng
    }

    fn next(&mut self) -> u64 {
        self.0 = self.0.wrapping_add(0x9e37_79b9_7f4a_7c15);
        let mut z = self.0;
        z = (z ^ (z >> 30)).wrapping_mul(0xbf58_476d_1ce4_e5b9);
        z = (z ^ (z >> 27)).wrapping_mul(0x94d0_49bb_1331_11eb);
        z ^ (z >> 31)
    }

    /// A number below `limit`.
    pub fn below(&mut self, limit: usize) -> usize {
        (self.next() % limit as u64) as usize
    }

    pub fn u32(&mut self) -> u32 {
        self.next() as u32
    }

    pub fn bytes(&mut self, length: usize) -> Vec<u8> {
        let mut bytes: Vec<u8> = (0..length.div_ceil(8)).flat_map(|_| self.next().to_le_bytes()).collect();
        bytes.truncate(length);
        bytes
    }

    pub fn pick<'a, T>(&mut self, items: &'a [T]) -> &'a T {
        &items[self.below(items.len())]
    }

    /// True once in `times`.
    pub fn one_in(&mut self, times: usize) -> bool {
        self.below(times) == 0
    }
}

#[cfg(test)]
mod tests {
    use super::*;

    #[test]
    fn a_stream_repeats_and_labels_part_streams() {
        let first = Rng::new(7, "a").bytes(32);
        assert_eq!(first, Rng::new(7, "a").bytes(32));
        assert_ne!(first, Rng::new(7, "b").bytes(32));
        assert_ne!(first, Rng::new(8, "a").bytes(32));
    }
}
