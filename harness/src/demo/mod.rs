//! The demonstration: a fleet in the terminal, sound, with a slow boat, with double signers, and with more of them than two
//! certificates show; and the harbour office, which makes one pack of the boats' evidence. Its text follows from the calls' answers, and
//! an answer that breaks a promise to the fleet is reported.

mod boat;
mod expected;
pub mod options;
mod round;
mod screens;

use std::ops::Range;
use std::sync::atomic::{AtomicU32, Ordering};

use crate::compare::progress;
use crate::confirmer::{Engine, EvidenceCheck, Joining};
use crate::parallel;
use crate::reference::quorum::t0;
use crate::rng::Rng;
use crate::subject;
pub use boat::Boat;
use options::Options;
use round::{Fleet, Layout, Pack, Played, Side};
use screens::Screens;

/// The calls that the demonstration is run with.
#[derive(Clone, Copy)]
pub struct Calls<'a> {
    pub signatures: &'a dyn subject::Calls,
    pub engine: &'a dyn Engine,
    pub evidence: &'a dyn EvidenceCheck,
    pub joining: &'a dyn Joining,
}

/// The text shown; the promises broken, none where all is well; and the rounds with evidence, as the harbour office gets them.
pub struct Told {
    pub text: String,
    pub faults: Vec<String>,
    pub handed_in: Vec<HandedIn>,
}

/// A round's key table and the packs that the boats handed in, each with the name of its file.
pub struct HandedIn {
    pub round: u32,
    pub keys: (String, Vec<u8>),
    pub packs: Vec<(String, Vec<u8>)>,
}

/// Boats with their keys; progress goes to standard error.
pub fn boats(calls: Calls, n: u32, seed: u64) -> Vec<Boat> {
    let made = AtomicU32::new(0);
    let seats: Vec<u32> = (0..n).collect();
    parallel::map(&seats, |&seat| {
        let boat = Boat::make(calls, seat, seed);
        progress(&format!("key {} of {n} made", made.fetch_add(1, Ordering::Relaxed) + 1));
        boat
    })
}

/// The whole demonstration, by boats of the options' number and seed.
pub fn told_by(calls: Calls, boats: &[Boat], options: &Options) -> Told {
    let layout = |name| {
        let value = Rng::new(options.seed, &format!("layout {name}")).bytes(32);
        Layout { name, value: value.try_into().expect("32 bytes") }
    };
    let layouts = ['A', 'B', 'C'].map(layout);
    let fleet = |n: u32| {
        let boats = &boats[..n as usize];
        Fleet { calls, options, boats, keys: boats.iter().flat_map(|boat| boat.public.clone()).collect() }
    };
    let (usual, larger) = (fleet(options.n), fleet(options.larger()));
    let sound = usual.play(1, agreed(options.n, layouts[0]), None);
    let slow = usual.play(2, agreed(options.n, layouts[0]), Some(options.slow));
    let apart = usual.play(3, two_sides(options, layouts), None);
    let three = larger.play(4, three_sides(options.larger(), layouts), None);
    let played = [&sound, &slow, &apart, &three];
    Told {
        text: Screens::of(options, layouts, played),
        faults: played.map(expected::faults).concat(),
        handed_in: [(&apart, &usual), (&three, &larger)].into_iter().filter_map(handed_in).collect(),
    }
}

/// What the office gets of a round; nothing where there is no evidence.
fn handed_in((played, fleet): (&Played, &Fleet)) -> Option<HandedIn> {
    let round = played.number;
    let named = |seat: u32| {
        let name = move |(place, pack): (u32, &Pack)| {
            (format!("round-{round}-boat-{seat}-{place}.pack"), pack.sent.bytes.clone())
        };
        (1..).zip(played.packs(seat)).map(name).collect::<Vec<_>>()
    };
    let packs: Vec<(String, Vec<u8>)> = played.honest().into_iter().flat_map(named).collect();
    let keys = (format!("round-{round}.keys"), fleet.keys.clone());
    (!packs.is_empty()).then_some(HandedIn { round, keys, packs })
}

/// All boats sign one layout.
fn agreed(n: u32, layout: Layout) -> Vec<Side> {
    vec![Side { layout, honest: (0..n).collect(), double: Vec::new() }]
}

/// The honest boats sign one layout or the other, and the double signers both.
fn two_sides(options: &Options, [a, b, _]: [Layout; 3]) -> Vec<Side> {
    let Options { n, double_signers, .. } = *options;
    let honest = n - double_signers;
    let half = honest.div_ceil(2);
    let side = |layout, honest: Range<u32>, double: Range<u32>| Side {
        layout,
        honest: honest.collect(),
        double: double.collect(),
    };
    vec![side(a, 0..half, honest..n), side(b, half..honest, honest..n)]
}

/// An honest boat for each of three layouts, and double signers that make up k with it. Each layout lacks t0 boats: the two other
/// honest ones, and t0 - 2 double signers, which sign the other two layouts. So of two certificates that conflict with a third, each
/// shows t0 - 2 double signers that the other one doesn't.
fn three_sides(n: u32, layouts: [Layout; 3]) -> Vec<Side> {
    let lacking = t0(n) - 2;
    let side = |place: u32| {
        let lack = 3 + place * lacking..3 + (place + 1) * lacking;
        let double = (3..n).filter(|seat| !lack.contains(seat)).collect();
        Side { layout: layouts[place as usize], honest: vec![place], double }
    };
    [0, 1, 2].map(side).into()
}

#[cfg(test)]
mod tests {
    use super::*;
    use crate::reference::quorum::k;
    use crate::reference::seats::{mask, size};

    #[test]
    fn three_certificates() {
        for n in 13..=32 {
            let sides = three_sides(n, ['A', 'B', 'C'].map(|name| Layout { name, value: [0; 32] }));
            let honest = sides.iter().fold(0, |honest, side| honest | mask(&side.honest));
            for turn in 0..3 {
                let [first, second, third] = [0, 1, 2].map(|place| sides[(turn + place) % 3].signers());
                assert_eq!([size(first), size(first & honest)], [k(n), 1]);
                assert_eq!([size(first & third & !second), size(first & second & !third)], [t0(n) - 2; 2]);
            }
        }
    }
}
