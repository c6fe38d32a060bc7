//! One pack from two: packs of every size that share all, some or none of their seats, several one after another, and each operand
//! made wrong.

use std::collections::BTreeMap;

use super::arguments::Arguments;
use super::evidence::{any_evidence, both as both_verdicts, noise_pack};
use super::messages::{two_faced, OLD_PACK, PACK};
use super::refusals::{on_part, spoiled, spoiler, Spoiler};
use super::{equal, long, messages, noise, run, sized, two};
use crate::air;
use crate::confirmer::{EvidenceCheck, Joining};
use crate::fleet::{rounds, some_of, some_seats, Fleet, HANDS};
use crate::reference::evidence::{check_evidence, join_evidence};
use crate::reference::layout::{self, joined_out, ENTRY_SEAT_AT, ROUND_AT};
use crate::reference::messages::{Evidence, EvidenceEntry, Value};
use crate::reference::record::{Verdict, Written};
use crate::rng::{seed, Rng};

/// The call under test, and the check that must accept what it writes.
#[derive(Clone, Copy)]
pub struct Subject<'a> {
    pub joining: &'a dyn Joining,
    pub evidence: &'a dyn EvidenceCheck,
}

#[derive(Clone)]
struct Case {
    what: String,
    arguments: Arguments,
    packs: [Vec<u8>; 2],
    /// The length of `out`.
    out: usize,
    /// The pack written, or the refusal's number.
    joined: Result<Vec<u8>, u32>,
}

fn compare(subject: Subject, case: &Case, rng: &mut Rng) -> Result<(), String> {
    let mut told = || {
        let (answer, out) = both(subject.joining, &case.arguments, &case.packs, &rng.bytes(case.out), rng)?;
        match &case.joined {
            Err(number) => equal("the reference's answer", answer, Written { number: *number, written: 0 }),
            Ok(joined) => {
                equal("the reference's answer", answer, Written { number: 0, written: joined.len() as u32 })?;
                equal("the reference's pack", out.starts_with(joined), true)?;
                names_the_union(subject, &case.arguments, &case.packs, joined, rng)
            }
        }
    };
    told().map_err(|difference| format!("n = {}, {}: {difference}", case.arguments.n, case.what))
}

/// The answer of the reference and the subject with `out` after it, or their difference.
fn both(
    subject: &dyn Joining,
    arguments: &Arguments,
    packs: &[Vec<u8>; 2],
    out: &[u8],
    rng: &mut Rng,
) -> Result<(Written, Vec<u8>), String> {
    let subject = |n: u32, round: u32, keys: &[u8], first: &[u8], second: &[u8], out: &mut [u8]| {
        subject.join_evidence(n, round, keys, first, second, out)
    };
    two::both([&subject, &join_evidence], arguments, packs, out, rng)
}

/// "The result is accepted by the check and names exactly the union."
fn names_the_union(
    subject: Subject,
    arguments: &Arguments,
    packs: &[Vec<u8>],
    joined: &[u8],
    rng: &mut Rng,
) -> Result<(), String> {
    let Arguments { n, round, keys } = arguments;
    let named = |pack: &Vec<u8>| check_evidence(*n, *round, keys, pack).mask;
    let union = packs.iter().map(named).fold(0, |union, mask| union | mask);
    let verdict = both_verdicts(subject.evidence, arguments, joined, rng)?;
    equal("the joined pack", verdict, Verdict { number: 0, mask: union })
}

/// Every buffer of every length around its own.
pub fn lengths_around(subject: &dyn Joining, n: u32, rng: &mut Rng) -> Result<usize, String> {
    let fleet = Fleet { n, round: *rng.pick(&rounds()) };
    let packs = [0, n - 1].map(|seat| any_evidence(fleet, PACK, &[seat], rng).write());
    let out = rng.bytes(joined_out(n));
    two::lengths_around(&Arguments::of(fleet), &packs, &out, rng, |arguments, packs, out, rng| {
        both(subject, arguments, packs, out, rng)
    })
}

/// A call with random bytes.
pub fn noise(subject: &dyn Joining, rng: &mut Rng) -> Result<u32, String> {
    let arguments = Arguments::noise(rng);
    let packs = [0, 1].map(|_| noise_pack(PACK, arguments.round, rng));
    let out = noise::bytes(joined_out(arguments.n.clamp(1, 3)), rng);
    Ok(both(subject, &arguments, &packs, &out, rng)?.0.number)
}

pub fn battery(subject: Subject) {
    let mut rng = Rng::new(seed(), "joining");
    let (mut cases, mut several) = (Vec::new(), Vec::new());
    for n in (1..=32).filter(|n| long() || *n <= 8 || [13, 16, 31, 32].contains(n)) {
        let fleet = Fleet { n, round: *rng.pick(&rounds()) };
        cases.extend(right_ones(fleet, &mut rng));
        cases.extend(in_other_fleets(fleet, &mut rng));
        cases.extend(sizes(fleet, &mut rng));
        several.extend((0..sized(6)).map(|_| some_packs(fleet, &mut rng)));
    }
    for n in [1, 3, 7, 32].into_iter().chain([2, 4, 10, 31].into_iter().filter(|_| long())) {
        cases.extend(refusals(Fleet { n, round: *rng.pick(&rounds()) }, &mut rng));
    }
    run("join_evidence", &cases, |case, rng| compare(subject, case, rng));
    run("join_evidence, one after another", &several, |packs, rng| compare_several(subject, packs, rng));
    let garbled: Vec<usize> = (0..sized(2000)).collect();
    run("join_evidence, garbled on the way", &garbled, |_, rng| compare_garbled(subject, rng));
}

/// "the seats of either, rising, and a seat found in both has the pair of the pack named first"
fn joined(packs: &[Evidence]) -> Vec<u8> {
    let mut pairs: BTreeMap<u32, EvidenceEntry> = BTreeMap::new();
    for entry in packs.iter().rev().flat_map(|pack| &pack.entries) {
        pairs.insert(entry.seat, entry.clone());
    }
    Evidence { round: packs[0].round, entries: pairs.into_values().collect() }.write()
}

/// Right packs in an out buffer that is long enough.
fn right(what: impl Into<String>, fleet: Fleet, packs: &[Evidence; 2], rng: &mut Rng) -> Case {
    let spare = *rng.pick(&[0, 0, 1, 70, 3000]);
    let what = format!("{}: seats {:?} and {:?}", what.into(), packs[0].seats(), packs[1].seats());
    Case {
        what,
        arguments: Arguments::of(fleet),
        packs: [packs[0].write(), packs[1].write()],
        out: joined_out(fleet.n) + spare,
        joined: Ok(joined(packs)),
    }
}

fn refused(what: impl Into<String>, number: u32, case: Case) -> Case {
    Case { what: what.into(), joined: Err(number), ..case }
}

/// Packs on all kinds of sets, in both orders.
fn right_ones(fleet: Fleet, rng: &mut Rng) -> Vec<Case> {
    let mut cases = Vec::new();
    let mut both_orders = |what: &str, [one, other]: [Evidence; 2], rng: &mut Rng| {
        cases.push(right(what, fleet, &[one.clone(), other.clone()], rng));
        cases.push(right(what, fleet, &[other, one], rng));
    };
    for (what, sets) in sets(fleet.n, rng) {
        both_orders(what, sets.map(|seats| any_evidence(fleet, PACK, &seats, rng)), rng);
    }
    let pack = any_evidence(fleet, PACK, &any_seats(fleet.n, rng), rng);
    let resigned =
        Evidence { entries: pack.entries.iter().map(|entry| resigned(fleet, entry)).collect(), ..pack.clone() };
    both_orders("the same values, signed again", [pack.clone(), resigned], rng);
    let (low, high) = two_faced(fleet.n - 1);
    let two_faced = fleet.evidence((&low, 0), (&high, 0), &[fleet.n - 1]);
    both_orders("a pack with two faces", [pack.clone(), two_faced], rng);
    // Joined with itself a pack stays as it is.
    let same = Case { joined: Ok(pack.write()), ..right("the same pack twice", fleet, &[pack.clone(), pack], rng) };
    cases.push(same);
    cases
}

/// Some seats, one at least.
fn any_seats(n: u32, rng: &mut Rng) -> Vec<u32> {
    let count = 1 + rng.below(n as usize) as u32;
    some_seats(n, count, rng)
}

/// Two sets of seats, neither of them empty.
fn sets(n: u32, rng: &mut Rng) -> Vec<(&'static str, [Vec<u32>; 2])> {
    let all: Vec<u32> = (0..n).collect();
    let seats = any_seats(n, rng);
    let fewer = 1 + rng.below(seats.len()) as u32;
    let (one, rest): (Vec<u32>, Vec<u32>) = all.iter().partition(|_| rng.one_in(2));
    let (even, odd): (Vec<u32>, Vec<u32>) = all.iter().partition(|&seat| seat % 2 == 0);
    let (low, high) = all.split_at(n as usize / 2);
    let sets = vec![
        ("any seats", [any_seats(n, rng), any_seats(n, rng)]),
        ("the same seats", [seats.clone(), seats.clone()]),
        ("seats and some of them", [seats.clone(), some_of(seats, fewer, rng)]),
        ("no seat of both", [one, rest]),
        ("every other seat", [even, odd]),
        ("low seats and high ones", [low.to_vec(), high.to_vec()]),
        ("all seats and one", [all, vec![rng.below(n as usize) as u32]]),
        ("the first seat and the last", [vec![0], vec![n - 1]]),
    ];
    sets.into_iter().filter(|(_, sets)| sets.iter().all(|seats| !seats.is_empty())).collect()
}

/// The same pair with another signature over the higher value.
fn resigned(fleet: Fleet, entry: &EvidenceEntry) -> EvidenceEntry {
    let mut signatures = (0..HANDS).map(|hand| fleet.signature(entry.seat, &entry.higher, hand));
    let over_higher = signatures.find(|signature| *signature != entry.over_higher).expect("another hand");
    EvidenceEntry { over_higher, ..entry.clone() }
}

/// Packs of every size: one grows as the other shrinks.
fn sizes(fleet: Fleet, rng: &mut Rng) -> Vec<Case> {
    let size = |count: u32| {
        let packs = [count, fleet.n + 1 - count];
        let packs = packs.map(|count| any_evidence(fleet, PACK, &some_seats(fleet.n, count, rng), rng));
        right(format!("sizes {count} and {}", fleet.n + 1 - count), fleet, &packs, rng)
    };
    (1..=fleet.n).map(size).collect()
}

/// Packs aren't bound to n; only their seats and their counts are.
fn in_other_fleets(fleet: Fleet, rng: &mut Rng) -> Vec<Case> {
    let Fleet { n, round } = fleet;
    let packs = [any_evidence(fleet, PACK, &any_seats(n, rng), rng), any_evidence(fleet, PACK, &[n - 1], rng)];
    let mut cases = Vec::new();
    if n < 32 {
        cases.push(right("in a larger fleet", Fleet { n: n + 1, round }, &packs, rng));
    }
    let right = right("", fleet, &packs, rng);
    if n > 1 {
        let smaller = Arguments::of(Fleet { n: n - 1, round });
        let number = if packs[0].entries.len() as u32 == n { 9 } else { 11 };
        cases.push(refused("in a smaller fleet", number, Case { arguments: smaller, ..right.clone() }));
    }
    let other = *rng.pick(&rounds().into_iter().filter(|&other| other != round).collect::<Vec<_>>());
    cases.push(refused("in another round", 10, Case { arguments: Arguments::of(Fleet { n, round: other }), ..right }));
    cases
}

fn refusals(fleet: Fleet, rng: &mut Rng) -> Vec<Case> {
    let packs = [3, 2].map(|count| any_evidence(fleet, PACK, &some_seats(fleet.n, count.min(fleet.n), rng), rng));
    let base = right("", fleet, &packs, rng);
    let mut spoilers = on_part(Arguments::spoilers(fleet), |case: &mut Case| &mut case.arguments);
    let written = base.joined.as_ref().expect("right packs").len();
    let mut lengths = vec![0, 1, joined_out(0), joined_out(fleet.n - 1), joined_out(fleet.n) - 1];
    lengths.extend([written, layout::evidence_out(fleet.n)].into_iter().filter(|&length| length < joined_out(fleet.n)));
    let short = |length| spoiler(7, format!("out of {length} bytes"), move |case: &mut Case, _| case.out = length);
    spoilers.extend(lengths.into_iter().map(short));
    let wrong = |pack: &Evidence| {
        let mut wrong = messages::evidence(fleet, PACK, pack);
        wrong.extend(other_messages(fleet, pack));
        wrong
    };
    spoilers.extend(on_part(wrong(&packs[0]), |case: &mut Case| &mut case.packs[0]));
    let in_second = on_part(wrong(&packs[1]), |case: &mut Case| &mut case.packs[1]);
    spoilers.extend(in_second.into_iter().map(|second| second.after(1)));
    let spoiled = spoiled(&spoilers, sized(400), rng, |_| base.clone());
    spoiled.into_iter().map(|wrong| refused(&wrong.what, wrong.number(), wrong.case)).collect()
}

/// Other messages, right ones and old packs that the check would refuse with another number: "a 0x05 pack is 9 here".
fn other_messages(fleet: Fleet, pack: &Evidence) -> Vec<Spoiler<Vec<u8>>> {
    let EvidenceEntry { seat, lower, higher, .. } = &pack.entries[0];
    let (low, high) = two_faced(*seat);
    let old = |lower: &Value, higher: &Value, seats: &[u32]| {
        (OLD_PACK.write)(&fleet.evidence((lower, 0), (higher, 0), seats))
    };
    let whole = old(lower, higher, &pack.seats());
    let with = |at: usize, change: u8| {
        let mut bytes = whole.clone();
        bytes[at] ^= change;
        bytes
    };
    let others = [
        ("an old pack", whole.clone()),
        ("an old pack of one entry", old(lower, higher, &[*seat])),
        ("an old pack of all seats", old(lower, higher, &fleet.seats())),
        ("an old pack with two faces", old(&low, &high, &[*seat])),
        ("an old pack of another round", with(ROUND_AT + 1, 1)),
        ("an old pack with a stranger", with(OLD_PACK.entries_at + ENTRY_SEAT_AT, 0x80)),
        ("an old pack with a damaged signature", with(whole.len() - 1, 1)),
        ("an old pack of equal values", old(lower, lower, &pack.seats())),
        ("a FULL", fleet.full(*seat, lower, &fleet.seats()[..fleet.k() as usize], 0).write()),
        ("a SUBMIT", fleet.submit(*seat, lower, 0).write()),
        ("a NOTICE", fleet.notice(*seat, lower).write()),
    ];
    let instead = |(what, bytes): (&str, Vec<u8>)| {
        spoiler(9, format!("{what} instead"), move |message: &mut Vec<u8>, _| *message = bytes.clone())
    };
    others.into_iter().map(instead).collect()
}

/// Packs that are joined one after another.
struct Several {
    fleet: Fleet,
    packs: Vec<Evidence>,
}

fn some_packs(fleet: Fleet, rng: &mut Rng) -> Several {
    let count = 3 + rng.below(4);
    let pack = |_| {
        let seats = 1 + rng.below(fleet.n.min(8) as usize) as u32;
        any_evidence(fleet, PACK, &some_seats(fleet.n, seats, rng), rng)
    };
    Several { fleet, packs: (0..count).map(pack).collect() }
}

/// From the first on, each with those before it; and from the last on, each with those after it. Either way the first pack that names
/// a seat gives its pair.
fn compare_several(subject: Subject, Several { fleet, packs }: &Several, rng: &mut Rng) -> Result<(), String> {
    let arguments = Arguments::of(*fleet);
    let written: Vec<Vec<u8>> = packs.iter().map(Evidence::write).collect();
    let mut join = |first: Vec<u8>, second: Vec<u8>| {
        let (answer, out) = both(subject.joining, &arguments, &[first, second], &rng.bytes(joined_out(fleet.n)), rng)?;
        equal("the number", answer.number, 0)?;
        Ok::<_, String>(out[..answer.written as usize].to_vec())
    };
    let mut told = || {
        let mut so_far = written[0].clone();
        for count in 2..=packs.len() {
            so_far = join(so_far, written[count - 1].clone())?;
            equal(&format!("the first {count}"), so_far == joined(&packs[..count]), true)?;
        }
        let mut from_last = written[packs.len() - 1].clone();
        for place in (0..packs.len() - 1).rev() {
            from_last = join(written[place].clone(), from_last)?;
            equal(&format!("all from pack {place} on"), from_last == joined(&packs[place..]), true)?;
        }
        Ok(so_far)
    };
    let whole = told();
    let seats: Vec<Vec<u32>> = packs.iter().map(Evidence::seats).collect();
    whole
        .and_then(|whole| names_the_union(subject, &arguments, &written, &whole, rng))
        .map_err(|difference: String| format!("n = {}, packs of seats {seats:?}: {difference}", fleet.n))
}

/// One pack or both garbled by a bad link or a bad sender, some still right by chance.
fn compare_garbled(subject: Subject, rng: &mut Rng) -> Result<(), String> {
    let fleet = Fleet { n: 1 + rng.below(7) as u32, round: *rng.pick(&rounds()) };
    let mut packs = [0, 1].map(|_| {
        let count = 1 + rng.below(fleet.n.min(3) as usize) as u32;
        any_evidence(fleet, PACK, &some_seats(fleet.n, count, rng), rng).write()
    });
    let which = rng.below(3);
    let mut names = Vec::new();
    for (place, pack) in packs.iter_mut().enumerate().filter(|(place, _)| *place != which) {
        let (name, bytes) = air::garbled(pack, rng);
        names.push(format!("pack {place} {name}"));
        *pack = bytes;
    }
    let compared = both(subject.joining, &Arguments::of(fleet), &packs, &rng.bytes(joined_out(fleet.n)), rng);
    compared.map(drop).map_err(|difference| format!("n = {}, {}: {difference}", fleet.n, names.join(", ")))
}
