//! Arguments of a call outside a record: n, round and key table, and each of them made wrong.

use super::noise;
use super::refusals::{on_part, spoiler, Spoiler};
use crate::fleet::{self, Fleet};
use crate::guarded::Guarded;
use crate::reference::lms::PUBLIC_KEY;
use crate::rng::Rng;

#[derive(Clone)]
pub struct Arguments {
    pub n: u32,
    pub round: u32,
    pub keys: Vec<u8>,
}

impl Arguments {
    pub fn of(fleet: Fleet) -> Arguments {
        Arguments { n: fleet.n, round: fleet.round, keys: fleet.key_table() }
    }

    /// Random ones, mostly of a small fleet.
    pub fn noise(rng: &mut Rng) -> Arguments {
        let n = 1 + rng.below(3) as u32;
        let keys = noise::keys(n, rng);
        let n = if rng.one_in(8) { noise::number(33, rng) } else { n };
        Arguments { n, round: noise::number(1024, rng), keys }
    }

    /// Numbers out of range, those among them that a narrower type would cut down to right ones, and wrong key tables.
    pub fn spoilers(fleet: Fleet) -> Vec<Spoiler<Arguments>> {
        let Fleet { n, round } = fleet;
        let mut spoilers: Vec<Spoiler<Arguments>> = Vec::new();
        for wrong in [0, 33, 34, 64, 256 + n, 65_536 + n, 1 << 31, u32::MAX] {
            spoilers.push(spoiler(1, format!("n of {wrong}"), move |case: &mut Arguments, _| case.n = wrong));
        }
        for wrong in [1024, 1024 + round, 65_535, 65_536 + round, 1 << 31 | round, u32::MAX] {
            spoilers.push(spoiler(3, format!("round {wrong}"), move |case: &mut Arguments, _| case.round = wrong));
        }
        spoilers.extend(on_part(key_spoilers(n), |case: &mut Arguments| &mut case.keys));
        spoilers
    }
}

/// Tables of other lengths, and a type that isn't allowed in the first, a middle and the last key.
pub fn key_spoilers(n: u32) -> Vec<Spoiler<Vec<u8>>> {
    let whole = PUBLIC_KEY * n as usize;
    let longer = fleet::table(2 * n);
    let mut spoilers: Vec<Spoiler<Vec<u8>>> = Vec::new();
    for length in [0, 1, whole - 1, whole + 1, whole - PUBLIC_KEY, whole + PUBLIC_KEY, 2 * whole] {
        let keys = longer[..length].to_vec();
        spoilers.push(spoiler(5, format!("keys of {length} bytes"), move |it, _| *it = keys.clone()));
    }
    for seat in [0, n / 2, n - 1] {
        // A byte of the two types, and another number there; 5 and 3 are allowed only in the stand-alone check.
        for (at, byte) in [(0, 6), (2, 1), (3, 5), (3, 7), (3, 4), (4, 0x80), (6, 4), (7, 3), (7, 5), (7, 6)] {
            let what = format!("key {seat} with byte {at} of its types {byte:#04x}");
            spoilers.push(spoiler(5, what, move |keys: &mut Vec<u8>, _| {
                let place = keys.get_mut(PUBLIC_KEY * seat as usize + at);
                place.into_iter().for_each(|place| *place = byte);
            }));
        }
    }
    spoilers
}

/// Buffers that a call was lent and must leave as they were.
pub fn untouched(lent: &[(&str, &Guarded, &[u8])]) -> Result<(), String> {
    lent.iter().try_for_each(|(name, buffer, contents)| buffer.expect(name, contents))
}
