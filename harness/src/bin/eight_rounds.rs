//! Writes what the mother ship of examples/mother_ship.c is given, to standard output: examples/eight_rounds.bin, with the keys of
//! the run's seed. The ship has seat 0 of a fleet of 7, and all boats sign one layout in each of the eight rounds.

use std::io::Write;

use harness::keys::Key;
use harness::parallel;
use harness::reference::lms::{Types, N};
use harness::reference::messages::{signed_bytes, two_bytes, Submit, Value};
use harness::rng::{seed, Rng};

const SEATS: [u32; 7] = [0, 1, 2, 3, 4, 5, 6];
/// Not rising, some of one byte and some of two, the last leaf among them.
const ROUNDS: [u32; 8] = [257, 3, 1023, 40, 512, 5, 258, 41];

fn submit(seat: u32, key: &Key, round: u32, value: Value) -> Submit {
    let randomizer = Rng::new(seed(), &format!("mother ship, randomizer {seat} {round}")).bytes(N);
    let signature = key.sign(round, &randomizer, &signed_bytes(round, seat, &value));
    Submit { round, seat, value, signature }
}

fn main() {
    let key = |seat: &u32| {
        Key::with_leaves(Types::ENGINE, &ROUNDS, &mut Rng::new(seed(), &format!("mother ship, seat {seat}")))
    };
    let keys = parallel::map(&SEATS, key);
    let mut bytes: Vec<u8> = keys.iter().flat_map(|key| key.public.clone()).collect();
    for round in ROUNDS {
        let value = Rng::new(seed(), &format!("mother ship, layout {round}")).bytes(32).try_into().expect("32 bytes");
        let submits: Vec<Submit> = SEATS.iter().map(|&seat| submit(seat, &keys[seat as usize], round, value)).collect();
        bytes.extend(two_bytes(round));
        bytes.extend(value);
        bytes.extend(&submits[0].signature);
        bytes.extend(submits[1..].iter().flat_map(Submit::write));
    }
    std::io::stdout().write_all(&bytes).expect("standard output");
}
