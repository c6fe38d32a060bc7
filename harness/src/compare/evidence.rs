//! The evidence check: right evidence of every size by either command, each operand and each field made wrong, alone and together.

use super::arguments::{untouched, Arguments};
use super::messages::{two_faced, unordered, Pack, OLD_PACK, PACK, PACKS};
use super::refusals::{on_part, spoiled};
use super::{equal, flip_bit, long, messages, noise, resized, run};
use crate::confirmer::EvidenceCheck;
use crate::fleet::{rounds, some_layouts, some_seats, Fleet, HANDS};
use crate::guarded::Guarded;
use crate::reference::evidence;
use crate::reference::layout::{ENTRY_SEAT_AT, ENTRY_SIGNATURES_AT, EVIDENCE_COUNT_AT, ROUND_AT, SIGNATURE};
use crate::reference::messages::{Evidence, Value};
use crate::reference::record::Verdict;
use crate::reference::seats::mask;
use crate::rng::{seed, Rng};

#[derive(Clone)]
struct Case {
    what: String,
    arguments: Arguments,
    evidence: Vec<u8>,
    expected: Verdict,
}

fn compare(subject: &dyn EvidenceCheck, case: &Case, rng: &mut Rng) -> Result<(), String> {
    let compared = both(subject, &case.arguments, &case.evidence, rng);
    let told = compared.and_then(|verdict| equal("the reference's answer", verdict, case.expected));
    told.map_err(|difference| format!("n = {}, {}: {difference}", case.arguments.n, case.what))
}

/// The verdict of the reference and the subject, or their difference.
pub fn both(
    subject: &dyn EvidenceCheck,
    arguments: &Arguments,
    evidence: &[u8],
    rng: &mut Rng,
) -> Result<Verdict, String> {
    let Arguments { n, round, keys } = arguments;
    let lent_keys = Guarded::new(keys, rng);
    let lent_evidence = Guarded::new(evidence, rng);
    let answer = subject.check_evidence(*n, *round, lent_keys.lent(), lent_evidence.lent());
    let reference = evidence::check_evidence(*n, *round, keys, evidence);
    equal("the answer", answer, reference)?;
    untouched(&[("keys", &lent_keys, keys), ("evidence", &lent_evidence, evidence)])?;
    Ok(reference)
}

/// Every buffer of every length around its own.
pub fn lengths_around(subject: &dyn EvidenceCheck, n: u32, rng: &mut Rng) -> Result<usize, String> {
    let fleet = Fleet { n, round: *rng.pick(&rounds()) };
    let arguments = Arguments::of(fleet);
    let mut calls = 0;
    for pack in PACKS {
        let evidence = (pack.write)(&any_evidence(fleet, pack, &[n - 1], rng));
        for length in noise::around(arguments.keys.len()) {
            let keys = resized(&arguments.keys, length, rng);
            both(subject, &Arguments { keys, ..arguments.clone() }, &evidence, rng)?;
            calls += 1;
        }
        for length in noise::around(evidence.len()) {
            both(subject, &arguments, &resized(&evidence, length, rng), rng)?;
            calls += 1;
        }
    }
    Ok(calls)
}

/// Random bytes as evidence, mostly with a head and entries.
pub fn noise_pack(pack: Pack, round: u32, rng: &mut Rng) -> Vec<u8> {
    let count = 1 + rng.below(2) as u32;
    let mut evidence = noise::bytes(pack.length(count), rng);
    if rng.below(4) > 0 {
        noise::head(&mut evidence, pack.command, round, rng);
        noise::set(&mut evidence, pack.count_at, &[count as u8]);
        noise::entries(&mut evidence, pack.entries_at, pack.entry, pack.entry_command, rng);
    }
    evidence
}

/// A call with random bytes.
pub fn noise(subject: &dyn EvidenceCheck, pack: Pack, rng: &mut Rng) -> Result<u32, String> {
    let arguments = Arguments::noise(rng);
    let evidence = noise_pack(pack, arguments.round, rng);
    Ok(both(subject, &arguments, &evidence, rng)?.number)
}

pub fn battery(subject: &dyn EvidenceCheck) {
    let mut rng = Rng::new(seed(), "evidence");
    let mut cases = Vec::new();
    for n in 1..=32 {
        let fleet = Fleet { n, round: *rng.pick(&rounds()) };
        for pack in PACKS {
            cases.extend(right_ones(fleet, pack, &mut rng));
            cases.extend(in_other_fleets(fleet, pack, &mut rng));
            if long() || [1, 2, 3, 4, 7, 10, 31, 32].contains(&n) {
                cases.extend(refusals(fleet, pack, 1, &mut rng));
                cases.extend(refusals(fleet, pack, n.min(3), &mut rng));
            }
        }
        cases.extend(one_of_each(fleet, &mut rng));
        cases.extend(both_commands(fleet));
    }
    for pack in PACKS {
        cases.extend(every_byte(Fleet { n: 4, round: rounds()[2] }, pack, &mut rng));
    }
    run("check_evidence", &cases, |case, rng| compare(subject, case, rng));
}

fn accepted(what: impl Into<String>, fleet: Fleet, pack: Pack, evidence: &Evidence) -> Case {
    let expected = Verdict { number: 0, mask: mask(&evidence.seats()) };
    let what = format!("{}, {}", pack.name, what.into());
    Case { what, arguments: Arguments::of(fleet), evidence: (pack.write)(evidence), expected }
}

fn refused(what: impl Into<String>, number: u32, case: Case) -> Case {
    Case { what: case.what.clone() + &what.into(), expected: Verdict { number, mask: 0 }, ..case }
}

/// Two layouts, the lower first.
fn two_layouts(rng: &mut Rng) -> (Value, Value) {
    let [one, other] = some_layouts(rng);
    (one.min(other), one.max(other))
}

/// Right evidence on the seats, each with values of its own where the command has room for them.
pub fn any_evidence(fleet: Fleet, pack: Pack, seats: &[u32], rng: &mut Rng) -> Evidence {
    let hands = [0; 2].map(|_| rng.below(HANDS as usize) as u32);
    let once = two_layouts(rng);
    let pair = |&seat: &u32| {
        let (lower, higher) = if pack.has_values_each() { two_layouts(rng) } else { once };
        fleet.pair(seat, (&lower, hands[0]), (&higher, hands[1]))
    };
    Evidence { round: fleet.round, entries: seats.iter().map(pair).collect() }
}

/// Each seat alone, and sets around t0 + 1, k and n.
fn right_ones(fleet: Fleet, pack: Pack, rng: &mut Rng) -> Vec<Case> {
    let Fleet { n, .. } = fleet;
    let mut sets: Vec<Vec<u32>> = [0, n / 2, n - 1].map(|seat| vec![seat]).to_vec();
    for count in [2, n - fleet.k() + 1, fleet.k(), n] {
        sets.push(some_seats(n, count.min(n), rng));
    }
    let case = |seats: Vec<u32>| {
        let evidence = any_evidence(fleet, pack, &seats, rng);
        accepted(format!("right evidence on seats {seats:?}"), fleet, pack, &evidence)
    };
    sets.into_iter().map(case).collect()
}

/// Evidence isn't bound to n; only its seats and its count are.
fn in_other_fleets(fleet: Fleet, pack: Pack, rng: &mut Rng) -> Vec<Case> {
    let Fleet { n, round } = fleet;
    let last = any_evidence(fleet, pack, &[n - 1], rng);
    let mut cases = Vec::new();
    if n < 32 {
        cases.push(accepted("evidence in a larger fleet", Fleet { n: n + 1, round }, pack, &last));
    }
    if n > 1 {
        let smaller = Fleet { n: n - 1, round };
        cases.push(refused("evidence in a smaller fleet", 11, accepted("", smaller, pack, &last)));
        let all = any_evidence(fleet, pack, &fleet.seats(), rng);
        cases.push(refused("more entries than seats", 9, accepted("", smaller, pack, &all)));
    }
    for other in rounds().into_iter().filter(|&other| other != round) {
        let case = accepted("", Fleet { n, round: other }, pack, &last);
        cases.push(refused(format!("evidence of round {round} in round {other}"), 10, case));
    }
    cases
}

fn refusals(fleet: Fleet, pack: Pack, count: u32, rng: &mut Rng) -> Vec<Case> {
    let right = any_evidence(fleet, pack, &some_seats(fleet.n, count, rng), rng);
    let base = accepted("", fleet, pack, &right);
    let mut cases = whole_entries(&base, pack);
    let mut spoilers = on_part(Arguments::spoilers(fleet), |case: &mut Case| &mut case.arguments);
    spoilers.extend(on_part(messages::evidence(fleet, pack, &right), |case: &mut Case| &mut case.evidence));
    let spoiled = spoiled(&spoilers, 100, rng, |_| base.clone());
    cases.extend(spoiled.into_iter().map(|wrong| refused(&wrong.what, wrong.number(), wrong.case)));
    cases
}

/// An entry too many or too few for the count.
fn whole_entries(base: &Case, pack: Pack) -> Vec<Case> {
    let mut longer = base.clone();
    longer.evidence.extend_from_within(pack.entries_at..pack.length(1));
    let mut shorter = base.clone();
    shorter.evidence.truncate(base.evidence.len() - pack.entry);
    vec![refused("an entry too many", 9, longer), refused("an entry too few", 9, shorter)]
}

/// "14 of any entry comes before 15 of any": an entry whose values aren't lower first, alone and with a bad signature in each
/// other one and in itself.
fn one_of_each(fleet: Fleet, rng: &mut Rng) -> Vec<Case> {
    let seats = some_seats(fleet.n, fleet.n.min(3), rng);
    let right = any_evidence(fleet, PACK, &seats, rng);
    let mut cases = Vec::new();
    for (place, entry) in right.entries.iter().enumerate() {
        let (what, wrong) = rng.pick(&unordered(fleet, entry)).clone();
        let mut evidence = right.clone();
        evidence.entries[place] = wrong;
        let base = accepted(format!("entry {place}: {what}"), fleet, PACK, &evidence);
        cases.push(refused("", 15, base.clone()));
        for other in 0..seats.len() {
            let mut case = base.clone();
            let signatures_at = PACK.length(other as u32) + ENTRY_SIGNATURES_AT;
            flip_bit(&mut case.evidence[signatures_at..][..2 * SIGNATURE], rng);
            cases.push(refused(format!("; entry {other}'s signatures damaged"), 14, case));
        }
    }
    cases
}

/// A pack of one entry that is read by either command: it checks under its own, and no signature does under the other.
fn both_commands(fleet: Fleet) -> Vec<Case> {
    let seat = fleet.n - 1;
    let (lower, higher) = two_faced(seat);
    let evidence = fleet.evidence((&lower, 0), (&higher, 0), &[seat]);
    let mut cases = Vec::new();
    for (pack, other) in [(PACK, OLD_PACK), (OLD_PACK, PACK)] {
        let right = accepted("with two faces", fleet, pack, &evidence);
        let mut turned = right.clone();
        turned.evidence[0] = other.command;
        cases.extend([right, refused(" and the other command", 14, turned)]);
    }
    cases
}

/// A bit of every byte. No bit makes a right message of another.
fn every_byte(fleet: Fleet, pack: Pack, rng: &mut Rng) -> Vec<Case> {
    let base = accepted("", fleet, pack, &any_evidence(fleet, pack, &[1], rng));
    let cases = (0..base.evidence.len()).map(|at| {
        let mut case = base.clone();
        flip_bit(&mut case.evidence[at..=at], rng);
        let garbles = [0, pack.count_at, pack.entries_at].contains(&at);
        let number = match at {
            _ if garbles => 9,
            ROUND_AT..EVIDENCE_COUNT_AT => 10,
            // Seat 1 as seat 0 or 3, or as a stranger.
            _ if at == pack.entries_at + ENTRY_SEAT_AT && case.evidence[at] >= 4 => 11,
            _ => 14,
        };
        refused(format!("a bit of byte {at}"), number, case)
    });
    cases.collect()
}
