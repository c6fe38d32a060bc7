//! Openings: every seat of every fleet, and each operand made wrong.

use crate::compare::arguments::{untouched, Arguments};
use crate::compare::refusals::{on_part, spoiled, spoiler};
use crate::compare::{equal, noise, run};
use crate::confirmer::Engine;
use crate::fleet::{rounds, Fleet};
use crate::guarded::Guarded;
use crate::reference::engine;
use crate::reference::record::{Opened, Record};
use crate::rng::{seed, Rng};

#[derive(Clone)]
struct Case {
    what: String,
    seat: u32,
    arguments: Arguments,
    expected: u32,
}

fn compare(subject: &dyn Engine, case: &Case, rng: &mut Rng) -> Result<(), String> {
    let Arguments { n, round, keys } = &case.arguments;
    let (n, seat, round) = (*n, case.seat, *round);
    let record = match case.expected {
        0 => Record { n, seat, round, ..Record::default() },
        _ => Record::default(),
    };
    let lent_keys = Guarded::new(keys, rng);
    let answer = subject.open(n, seat, round, lent_keys.lent());
    let told = || {
        let expected = Opened { number: case.expected, record };
        equal("the reference's answer", engine::open(n, seat, round, keys), expected)?;
        equal("the answer", answer, expected)?;
        untouched(&[("keys", &lent_keys, keys)])
    };
    told().map_err(|difference| format!("n = {n}, seat {seat}, round {round}, {}: {difference}", case.what))
}

/// A call with random bytes.
pub fn noise(subject: &dyn Engine, rng: &mut Rng) -> Result<u32, String> {
    let arguments = Arguments::noise(rng);
    let seat = noise::number(2, rng);
    let expected = engine::open(arguments.n, seat, arguments.round, &arguments.keys).number;
    compare(subject, &Case { what: "random bytes".to_string(), seat, arguments, expected }, rng)?;
    Ok(expected)
}

pub fn battery(subject: &dyn Engine) {
    let mut rng = Rng::new(seed(), "opening");
    let mut cases = Vec::new();
    for n in 1..=32 {
        let fleet = Fleet { n, round: *rng.pick(&rounds()) };
        let right = |seat| Case { what: String::new(), seat, arguments: Arguments::of(fleet), expected: 0 };
        cases.extend((0..n).map(right));
        let mut spoilers = on_part(Arguments::spoilers(fleet), |case: &mut Case| &mut case.arguments);
        for wrong in [n, n + 1, 32, 33, 256, 65_536, 1 << 31, u32::MAX] {
            spoilers.push(spoiler(2, format!("seat {wrong}"), move |case: &mut Case, _| case.seat = wrong));
        }
        let spoiled = spoiled(&spoilers, 100, &mut rng, |_| right(n - 1));
        cases.extend(spoiled.into_iter().map(|wrong| Case {
            expected: wrong.number(),
            what: wrong.what,
            ..wrong.case
        }));
    }
    run("open", &cases, |case, rng| compare(subject, case, rng));
}
