//! A right submit, SUBMIT, NOTICE and FULL, and each operand of theirs made wrong, alone and together.

use super::records::{opened, seats_with, submitted};
use super::{both, Call, Case, Subject};
use crate::compare::arguments::key_spoilers;
use crate::compare::messages::{self, PACKS};
use crate::compare::refusals::{lengths, on_part, spoiled, spoiler, Spoiler};
use crate::compare::{equal, long, noise, resized, run, sized, LOWER_TREE};
use crate::fleet::{layouts, rounds, some_seats, Fleet};
use crate::reference::layout::{self, SIGNATURE};
use crate::reference::messages::{Full, Notice, Submit, Value};
use crate::reference::record::{First, Own, Record};
use crate::reference::seats::mask;
use crate::rng::{seed, Rng};

pub fn battery(subject: Subject) {
    let mut rng = Rng::new(seed(), "refusals");
    let mut cases = Vec::new();
    let sizes: Vec<u32> = if long() { (1..=32).collect() } else { vec![1, 2, 3, 4, 7, 32] };
    for n in sizes {
        let fleet = Fleet { n, round: *rng.pick(&rounds()) };
        for (base, mut spoilers) in kinds(fleet, &mut rng) {
            spoilers.extend(shared_spoilers(fleet));
            cases.push((format!("n = {n}, {}", base.name), 0, base.case.clone()));
            let spoiled = spoiled(&spoilers, sized(150), &mut rng, |_| base.case.clone());
            cases.extend(
                spoiled
                    .into_iter()
                    .map(|wrong| (format!("n = {n}, {}: {}", base.name, wrong.what), wrong.number(), wrong.case)),
            );
        }
    }
    run("refusals", &cases, |(what, number, case), rng| {
        let compared =
            both(subject, case, rng).and_then(|after| equal("the reference's number", after.number, *number));
        compared.map_err(|difference| format!("{what}: {difference}"))
    });
}

struct Base {
    name: &'static str,
    case: Case,
}

/// Right operands in a fleet: a seat's layout, and a message of each kind.
struct Right {
    seat: u32,
    value: Value,
    submit: Submit,
    notice: Notice,
    full: Full,
}

impl Right {
    fn new(fleet: Fleet, rng: &mut Rng) -> Right {
        let (seat, other) = (rng.below(fleet.n as usize) as u32, rng.below(fleet.n as usize) as u32);
        let value = *rng.pick(&layouts());
        let seats = seats_with(fleet, other, rng);
        let full = fleet.full(other, &value, &seats, 0);
        Right { seat, value, submit: fleet.submit(other, &value, 0), notice: fleet.notice(other, &value), full }
    }

    /// The five kinds of call. Before the own submit seats are kept.
    fn calls(&self, fleet: Fleet, rng: &mut Rng) -> [Base; 5] {
        let Right { seat, value, .. } = *self;
        let kept = some_seats(fleet.n, rng.below(fleet.n as usize + 1) as u32, rng);
        let unsaid = Record { kept: mask(&kept), ..opened(fleet, seat) };
        let said = submitted(fleet, seat, value);
        let own = Call::Submit { value: value.to_vec(), signature: fleet.signature(seat, &value, 0) };
        let mut base = |name, record, call| {
            let (store, out) = (rng.bytes(layout::store(fleet.n)), rng.bytes(layout::out(fleet.n)));
            Base { name, case: Case { record, keys: fleet.key_table(), store, call, out } }
        };
        [
            base("submit", unsaid, own),
            base("SUBMIT", said, Call::Step { message: self.submit.write() }),
            base("early SUBMIT", unsaid, Call::Step { message: self.submit.write() }),
            base("NOTICE", unsaid, Call::Step { message: self.notice.write() }),
            base("FULL", unsaid, Call::Step { message: self.full.write() }),
        ]
    }
}

/// Every buffer of every length around its own, in each kind of call.
pub fn lengths_around(subject: Subject, n: u32, rng: &mut Rng) -> Result<usize, String> {
    let fleet = Fleet { n, round: *rng.pick(&rounds()) };
    let mut calls = 0;
    for Base { name, case } in Right::new(fleet, rng).calls(fleet, rng) {
        let mut buffers: Vec<Part> = vec![|case| &mut case.keys, |case| &mut case.store, |case| &mut case.out];
        match &case.call {
            Call::Submit { .. } => buffers.extend([value_of as Part, signature_of]),
            Call::Step { .. } => buffers.push(message_of),
        }
        for (place, buffer) in buffers.into_iter().enumerate() {
            let right = buffer(&mut case.clone()).clone();
            for length in noise::around(right.len()) {
                let mut case = case.clone();
                *buffer(&mut case) = resized(&right, length, rng);
                let compared = both(subject, &case, rng);
                compared.map_err(|difference| format!("{name}, buffer {place} of {length} bytes: {difference}"))?;
                calls += 1;
            }
        }
    }
    Ok(calls)
}

type Part = fn(&mut Case) -> &mut Vec<u8>;

/// The kinds of call, each right, with the changes that make that kind alone wrong.
fn kinds(fleet: Fleet, rng: &mut Rng) -> Vec<(Base, Vec<Spoiler<Case>>)> {
    let right = Right::new(fleet, rng);
    let in_step = |mut wrong: Vec<Spoiler<Vec<u8>>>| {
        wrong.extend(evidence_instead(fleet));
        on_part(wrong, message_of)
    };
    let spoilers = [
        own_spoilers(fleet, right.seat, right.value),
        in_step(messages::submit(fleet, &right.submit)),
        in_step(messages::submit(fleet, &right.submit)),
        in_step(messages::notice(fleet, &right.notice)),
        in_step(messages::full(fleet, &right.full)),
    ];
    right.calls(fleet, rng).into_iter().zip(spoilers).collect()
}

/// Right evidence instead of the message: "to a step it is a wrong command".
fn evidence_instead(fleet: Fleet) -> [Spoiler<Vec<u8>>; 2] {
    let (lower, higher) = (layouts()[0], layouts()[1]);
    PACKS.map(|pack| {
        let evidence = (pack.write)(&fleet.evidence((&lower, 0), (&higher, 0), &fleet.seats()));
        spoiler(9, format!("{} instead", pack.name), move |message: &mut Vec<u8>, _| *message = evidence.clone())
    })
}

fn message_of(case: &mut Case) -> &mut Vec<u8> {
    match &mut case.call {
        Call::Step { message } => message,
        Call::Submit { .. } => panic!("no step"),
    }
}

fn value_of(case: &mut Case) -> &mut Vec<u8> {
    match &mut case.call {
        Call::Submit { value, .. } => value,
        Call::Step { .. } => panic!("no submit"),
    }
}

fn signature_of(case: &mut Case) -> &mut Vec<u8> {
    match &mut case.call {
        Call::Submit { signature, .. } => signature,
        Call::Step { .. } => panic!("no submit"),
    }
}

/// Changes that make a submit alone wrong.
fn own_spoilers(fleet: Fleet, seat: u32, value: Value) -> Vec<Spoiler<Case>> {
    let mut spoilers = Vec::new();
    spoilers.push(spoiler(8, "a second time", move |case: &mut Case, _| case.record = submitted(fleet, seat, value)));
    let mut other = value;
    other[0] ^= 0xff;
    spoilers.push(spoiler(8, "a second time, another value", move |case: &mut Case, _| {
        case.record = submitted(fleet, seat, other);
    }));
    spoilers.extend(lengths(9, "value", &[0, 1, 31, 33, 64], value_of));
    spoilers.extend(lengths(
        9,
        "signature",
        &[0, 1, LOWER_TREE, SIGNATURE - 1, SIGNATURE + 1, 2 * SIGNATURE],
        signature_of,
    ));
    for at in [0, 31] {
        spoilers.push(spoiler(14, format!("value changed at byte {at}"), move |case, _| value_of(case)[at] ^= 1));
    }
    spoilers.extend(on_part(messages::signatures(fleet, "", seat, &value, 0), signature_of));
    spoilers
}

type Change = fn(&mut Record);

/// 4 to 7. A record is made impossible whatever it was before.
fn shared_spoilers(fleet: Fleet) -> Vec<Spoiler<Case>> {
    let Fleet { n, .. } = fleet;
    let records: [(&str, Change); 9] = [
        ("n of 0", |record| record.n = 0),
        ("n of 33", |record| record.n = 33),
        ("seat at n", |record| record.seat = record.n),
        ("round 1024", |record| record.round = 1024),
        ("notices heard 3", |record| record.notices.heard = 3),
        ("confirmed without a first certificate", |record| (record.confirmed, record.first) = (true, First::default())),
        ("guilty without a first certificate", |record| (record.guilty, record.first) = (1, First::default())),
        ("seats collected without a submission", |record| record.own = Own { collected: 1, ..Own::default() }),
        ("seats kept after a submission", |record| (record.own.submitted, record.kept) = (true, 1)),
    ];
    let mut spoilers: Vec<Spoiler<Case>> = Vec::new();
    for (what, spoil) in records {
        spoilers.push(spoiler(4, what, move |case: &mut Case, _| spoil(&mut case.record)));
    }
    spoilers.extend(on_part(key_spoilers(n), |case: &mut Case| &mut case.keys));
    let (store, out) = (layout::store(n), layout::out(n));
    spoilers.extend(lengths(6, "store", &[0, 1, store / 2, store - 1], |case: &mut Case| &mut case.store));
    let short = [0, layout::NOTICE, layout::SUBMIT, out - layout::EVIDENCE_ENTRY, out - 1];
    spoilers.extend(lengths(7, "out", &short, |case: &mut Case| &mut case.out));
    spoilers
}
