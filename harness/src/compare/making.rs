//! Evidence and the lower certificate from two in hand: pairs in both orders, and each operand made wrong.

use super::arguments::{untouched, Arguments};
use super::refusals::{lengths, on_part, spoiled, spoiler, Spoiler};
use super::{equal, long, messages, noise, run, two};
use crate::confirmer::{Lower, LowerCopy, Making};
use crate::fleet::{rounds, some_layouts, some_seats, Fleet};
use crate::guarded::Guarded;
use crate::reference::evidence::{check_evidence, lower_certificate, make_evidence};
use crate::reference::layout::{self, evidence_out};
use crate::reference::messages::{Full, Value, EVIDENCE, FULL};
use crate::reference::quorum;
use crate::reference::record::{Verdict, Written};
use crate::reference::seats::mask;
use crate::rng::{seed, Rng};

/// The calls under test; the lower certificate only where there is one.
#[derive(Clone, Copy)]
pub struct Subject<'a> {
    pub making: &'a dyn Making,
    pub lower: Option<&'a dyn Lower>,
}

#[derive(Clone)]
struct Case {
    what: String,
    arguments: Arguments,
    certificates: [Vec<u8>; 2],
    out: Vec<u8>,
    /// The answer of the maker, and the mask of the seats that its evidence names.
    made: Written,
    named: u32,
    /// Index of the certificate handed back as the lower one.
    lower: Option<usize>,
}

fn compare(subject: Subject, case: &Case, rng: &mut Rng) -> Result<(), String> {
    let Arguments { n, round, keys } = &case.arguments;
    let (n, round) = (*n, *round);
    let mut told = || {
        let (answer, out) = both(subject.making, &case.arguments, &case.certificates, &case.out, rng)?;
        equal("the reference's answer", answer, case.made)?;
        if answer.number == 0 {
            equal("the command", out[0], EVIDENCE)?;
            let verdict = check_evidence(n, round, keys, &out[..answer.written as usize]);
            equal("the evidence", verdict, Verdict { number: 0, mask: case.named })?;
        }
        let [first, second] = &case.certificates;
        let part = case.lower.map_or(&[][..], |which| &case.certificates[which]);
        equal("the reference's lower one", lower_certificate(n, round, keys, first, second) == part, true)?;
        subject.lower.map_or(Ok(()), |lower| compare_lower(lower, case, rng))
    };
    told().map_err(|difference| format!("n = {n}, {}: {difference}", case.what))
}

/// The answer of the reference and the subject with `out` after it, or their difference.
fn both(
    subject: &dyn Making,
    arguments: &Arguments,
    certificates: &[Vec<u8>; 2],
    out: &[u8],
    rng: &mut Rng,
) -> Result<(Written, Vec<u8>), String> {
    let subject = |n: u32, round: u32, keys: &[u8], first: &[u8], second: &[u8], out: &mut [u8]| {
        subject.make_evidence(n, round, keys, first, second, out)
    };
    two::both([&subject, &make_evidence], arguments, certificates, out, rng)
}

/// The lower one is the whole of a lent buffer, or nothing.
fn compare_lower(subject: &dyn Lower, case: &Case, rng: &mut Rng) -> Result<(), String> {
    let Arguments { n, round, keys } = &case.arguments;
    let lent = [0, 1].map(|which| Guarded::new(&case.certificates[which], rng));
    let lower = subject.lower_certificate(*n, *round, keys, lent[0].lent(), lent[1].lent());
    let whole = case.lower.map(|which| lent[which].lent());
    equal("the length of the lower one", lower.len(), whole.map_or(0, <[u8]>::len))?;
    equal("the place of the lower one", whole.is_none_or(|whole| whole.as_ptr() == lower.as_ptr()), true)
}

/// The lower one as a copy: in an out buffer of its length, in one that has room for either certificate and more, and in one
/// that is a byte too short.
fn compare_copy(subject: &dyn LowerCopy, case: &Case, rng: &mut Rng) -> Result<(), String> {
    let Arguments { n, round, keys } = &case.arguments;
    let [first, second] = &case.certificates;
    let lower = lower_certificate(*n, *round, keys, first, second);
    let mut told = |length: usize| {
        let out = rng.bytes(length);
        let fits = lower.len() <= length;
        let expected = if fits { [lower, &out[lower.len()..]].concat() } else { out.clone() };
        let lent_keys = Guarded::new(keys, rng);
        let lent = [Guarded::new(first, rng), Guarded::new(second, rng)];
        let mut lent_out = Guarded::new(&out, rng);
        let (one, other) = (lent[0].lent(), lent[1].lent());
        let number = subject.copy_lower(*n, *round, lent_keys.lent(), one, other, lent_out.lent_mut());
        equal("the answer", number, if fits { 0 } else { 7 })?;
        lent_out.expect("out", &expected)?;
        untouched(&[("keys", &lent_keys, keys), ("first", &lent[0], first), ("second", &lent[1], second)])
    };
    let mut lengths = vec![lower.len(), first.len().max(second.len()) + 70];
    lengths.extend(lower.len().checked_sub(1));
    lengths.into_iter().try_for_each(|length| {
        told(length).map_err(|difference| format!("n = {n}, {}, out of {length} bytes: {difference}", case.what))
    })
}

/// Every buffer of every length around its own.
pub fn lengths_around(subject: &dyn Making, n: u32, rng: &mut Rng) -> Result<usize, String> {
    let fleet = Fleet { n, round: *rng.pick(&rounds()) };
    let Case { arguments, certificates, .. } = right(fleet, &pair(fleet, rng), rng);
    let out = rng.bytes(evidence_out(n));
    two::lengths_around(&arguments, &certificates, &out, rng, |arguments, certificates, out, rng| {
        both(subject, arguments, certificates, out, rng)
    })
}

/// A call with random bytes.
pub fn noise(subject: &dyn Making, rng: &mut Rng) -> Result<u32, String> {
    let arguments = Arguments::noise(rng);
    let k = quorum::k(arguments.n.clamp(1, 3));
    let certificates = [0, 1].map(|_| {
        let mut full = noise::bytes(layout::full(k), rng);
        if rng.below(8) > 0 {
            noise::head(&mut full, FULL, arguments.round, rng);
            noise::certificate(&mut full, k, rng);
        }
        full
    });
    let out = noise::bytes(layout::evidence(k), rng);
    Ok(both(subject, &arguments, &certificates, &out, rng)?.0.number)
}

pub fn battery(subject: Subject) {
    run("make_evidence and lower_certificate", &cases(), |case, rng| compare(subject, case, rng));
}

/// The lower one alone, on the same cases.
pub fn copies(subject: &dyn LowerCopy) {
    run("lower_certificate as a copy", &cases(), |case, rng| compare_copy(subject, case, rng));
}

fn cases() -> Vec<Case> {
    let mut rng = Rng::new(seed(), "making");
    let mut cases = Vec::new();
    for n in 1..=32 {
        let fleet = Fleet { n, round: *rng.pick(&rounds()) };
        let pairs = if n <= 7 { 12 } else { 2 };
        cases.extend((0..pairs).flat_map(|_| both_orders(fleet, &mut rng)));
        if long() || [1, 2, 3, 4, 7].contains(&n) {
            cases.extend(refusals(fleet, &mut rng));
        }
        cases.extend(in_another_fleet(fleet, &mut rng));
    }
    cases
}

/// Two certificates with different values, the lower first; their seats are chosen apart.
fn pair(fleet: Fleet, rng: &mut Rng) -> [Full; 2] {
    let mut values: [Value; 2] = some_layouts(rng);
    values.sort();
    values.map(|value| {
        let sender = rng.below(fleet.n as usize) as u32;
        fleet.full(sender, &value, &some_seats(fleet.n, fleet.k(), rng), rng.below(2) as u32)
    })
}

fn right(fleet: Fleet, [lower, higher]: &[Full; 2], rng: &mut Rng) -> Case {
    let named = mask(&lower.seats()) & mask(&higher.seats());
    let spare = *rng.pick(&[0, 0, 1, 70]);
    Case {
        what: String::new(),
        arguments: Arguments::of(fleet),
        certificates: [lower.write(), higher.write()],
        out: rng.bytes(evidence_out(fleet.n) + spare),
        made: Written { number: 0, written: layout::evidence(named.count_ones()) as u32 },
        named,
        lower: Some(0),
    }
}

fn refused(what: impl Into<String>, number: u32, case: Case) -> Case {
    Case { what: what.into(), made: Written { number, written: 0 }, lower: None, ..case }
}

fn both_orders(fleet: Fleet, rng: &mut Rng) -> [Case; 2] {
    let lower_first = right(fleet, &pair(fleet, rng), rng);
    let mut higher_first = Case { lower: Some(1), ..lower_first.clone() };
    higher_first.certificates.reverse();
    [lower_first, higher_first]
}

/// A certificate counts wherever k and its seats fit.
fn in_another_fleet(fleet: Fleet, rng: &mut Rng) -> Vec<Case> {
    let Fleet { n, round } = fleet;
    let larger = Fleet { n: n + 1, round };
    if larger.n > 32 {
        return Vec::new();
    }
    let case = right(fleet, &pair(fleet, rng), rng);
    let moved = Case { arguments: Arguments::of(larger), out: rng.bytes(evidence_out(larger.n)), ..case };
    match larger.k() == fleet.k() {
        true => vec![Case { what: "certificates of a fleet with as many to confirm".to_string(), ..moved }],
        false => vec![refused("certificates of a smaller fleet", 9, moved)],
    }
}

fn refusals(fleet: Fleet, rng: &mut Rng) -> Vec<Case> {
    let full = pair(fleet, rng);
    let base = right(fleet, &full, rng);
    let mut spoilers = on_part(Arguments::spoilers(fleet), |case: &mut Case| &mut case.arguments);
    let short = [0, layout::evidence(0), layout::evidence(fleet.k() - 1), evidence_out(fleet.n) - 1];
    spoilers.extend(lengths(7, "out", &short, |case: &mut Case| &mut case.out));
    let in_first = on_part(messages::full(fleet, &full[0]), |case: &mut Case| &mut case.certificates[0]);
    let in_second = on_part(messages::full(fleet, &full[1]), |case: &mut Case| &mut case.certificates[1]);
    spoilers.extend(in_first);
    spoilers.extend(in_second.into_iter().map(|second| second.after(1)));
    spoilers.extend(equal_values(fleet, &full, rng).into_iter().map(|equal| equal.after(2)));
    let spoiled = spoiled(&spoilers, 300, rng, |_| base.clone());
    let cases = spoiled.into_iter().map(|wrong| {
        // The lower certificate needs no out buffer.
        let lower = if wrong.number_without(Some(7)).is_none() { Some(0) } else { None };
        let number = wrong.number();
        Case { lower, ..refused(wrong.what, number, wrong.case) }
    });
    cases.collect()
}

/// Two certificates over one value: the same one twice, and two of different seats.
fn equal_values(fleet: Fleet, [lower, higher]: &[Full; 2], rng: &mut Rng) -> [Spoiler<Case>; 2] {
    let same = higher.write();
    let other = fleet.full(lower.sender, &higher.value, &some_seats(fleet.n, fleet.k(), rng), 1).write();
    [
        spoiler(15, "the second twice", move |case: &mut Case, _| case.certificates[0] = same.clone()),
        spoiler(15, "another over the second's value", move |case: &mut Case, _| case.certificates[0] = other.clone()),
    ]
}
