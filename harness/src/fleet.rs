//! A fleet's keys, and the messages of its seats: honest ones, two of one seat, or with a wrong leaf.

use std::sync::OnceLock;

use crate::compare::progress;
use crate::keys::Key;
use crate::memo::Memo;
use crate::parallel;
use crate::reference::lms::{Types, N};
use crate::reference::messages::{signed_bytes, Evidence, EvidenceEntry, Full, FullEntry, Notice, Submit, Value};
use crate::reference::quorum;
use crate::rng::{seed, Rng};

/// The first n of the run's 32 seats in one of its rounds.
#[derive(Clone, Copy, Debug)]
pub struct Fleet {
    pub n: u32,
    pub round: u32,
}

/// The rounds that the seats can sign in: the first, the last, one of the scripts, and one of more than a byte.
pub fn rounds() -> [u32; 4] {
    let mut rng = Rng::new(seed(), "rounds");
    [0, 5, 256 + rng.below(767) as u32, 1023]
}

fn keys() -> &'static [Key] {
    static KEYS: OnceLock<Vec<Key>> = OnceLock::new();
    KEYS.get_or_init(|| {
        let seats: Vec<u32> = (0..32).collect();
        let key =
            |seat: &u32| Key::with_leaves(Types::ENGINE, &rounds(), &mut Rng::new(seed(), &format!("seat {seat}")));
        let keys = parallel::map(&seats, key);
        progress("the reference made the keys of 32 seats");
        keys
    })
}

/// A seat's key, for a program that signs by itself.
pub fn key(seat: u32) -> &'static Key {
    &keys()[seat as usize]
}

/// Layouts around the edges of their order, which goes by the first byte that differs, without a sign.
pub fn layouts() -> Vec<Value> {
    let random: Value = Rng::new(seed(), "layouts").bytes(32).try_into().expect("32 bytes");
    let with = |mut value: Value, at: usize, byte: u8| {
        value[at] = byte;
        value
    };
    vec![
        [0; 32],
        with([0; 32], 31, 1),
        with([0xff; 32], 0, 0x7f),
        with([0; 32], 0, 0x80),
        [0xff; 32],
        random,
        with(random, 31, !random[31]),
        with(random, 0, !random[0]),
    ]
}

/// So many different ones of them.
pub fn some_layouts<const COUNT: usize>(rng: &mut Rng) -> [Value; COUNT] {
    let mut all = layouts();
    [0; COUNT].map(|_| all.swap_remove(rng.below(all.len())))
}

/// Two signatures of a seat over one layout differ by their randomizer; a hand stands for one of them.
pub const HANDS: u32 = 2;

impl Fleet {
    pub fn k(self) -> u32 {
        quorum::k(self.n)
    }

    pub fn seats(self) -> Vec<u32> {
        (0..self.n).collect()
    }

    pub fn key_table(self) -> Vec<u8> {
        table(self.n)
    }

    pub fn signature(self, seat: u32, value: &Value, hand: u32) -> Vec<u8> {
        sign(seat, self.round, &signed_bytes(self.round, seat, value), hand)
    }

    pub fn submit(self, seat: u32, value: &Value, hand: u32) -> Submit {
        Submit { round: self.round, seat, value: *value, signature: self.signature(seat, value, hand) }
    }

    pub fn notice(self, seat: u32, value: &Value) -> Notice {
        Notice { round: self.round, seat, value: *value }
    }

    pub fn full(self, sender: u32, value: &Value, seats: &[u32], hand: u32) -> Full {
        let entry = |&seat: &u32| FullEntry { seat, signature: self.signature(seat, value, hand) };
        Full { round: self.round, sender, value: *value, entries: seats.iter().map(entry).collect() }
    }

    /// All seats with the same two values.
    pub fn evidence(self, lower: (&Value, u32), higher: (&Value, u32), seats: &[u32]) -> Evidence {
        let entries = seats.iter().map(|&seat| self.pair(seat, lower, higher)).collect();
        Evidence { round: self.round, entries }
    }

    /// A seat's two values, each with the hand that signs it.
    pub fn pair(self, seat: u32, lower: (&Value, u32), higher: (&Value, u32)) -> EvidenceEntry {
        EvidenceEntry {
            seat,
            lower: *lower.0,
            higher: *higher.0,
            over_lower: self.signature(seat, lower.0, lower.1),
            over_higher: self.signature(seat, higher.0, higher.1),
        }
    }
}

/// The public keys of the first n seats; beyond a fleet's 32 the last key stands again.
pub fn table(n: u32) -> Vec<u8> {
    let keys = keys();
    (0..n as usize).flat_map(|seat| keys[seat.min(31)].public.clone()).collect()
}

/// A seat's signature over any bytes, under the leaf of one of the run's rounds.
pub fn sign(seat: u32, leaf: u32, message: &[u8], hand: u32) -> Vec<u8> {
    static SIGNATURES: Memo<(u32, u32, Vec<u8>, u32), Vec<u8>> = Memo::new();
    SIGNATURES.answer((seat, leaf, message.to_vec(), hand), |_| {
        assert!(rounds().contains(&leaf), "no leaf of the keys: {leaf}");
        let randomizer = Rng::new(seed(), &format!("randomizer {seat} {leaf} {hand}")).bytes(N);
        key(seat).sign(leaf, &randomizer, message)
    })
}

/// This many of n seats, rising.
pub fn some_seats(n: u32, count: u32, rng: &mut Rng) -> Vec<u32> {
    some_of((0..n).collect(), count, rng)
}

/// This many of the seats, in their order.
pub fn some_of(mut seats: Vec<u32>, count: u32, rng: &mut Rng) -> Vec<u32> {
    while seats.len() > count as usize {
        seats.remove(rng.below(seats.len()));
    }
    seats
}

/// The fewest double signers that split a fleet of n boats: with half of the others they make up k, on either side.
pub fn fewest_to_split(n: u32) -> u32 {
    let k = quorum::k(n);
    (0..=n).find(|&double| double + (n - double) / 2 >= k).expect("all boats of a fleet are k at least")
}

#[cfg(test)]
mod tests {
    use super::fewest_to_split;

    /// A fleet of less than four has to sign twice as a whole.
    #[test]
    fn double_signers_that_split_a_fleet() {
        assert_eq!([4, 7, 10, 31, 32].map(fewest_to_split), [2, 3, 4, 11, 12]);
        assert!((1..=3).all(|n| fewest_to_split(n) == n));
    }
}
