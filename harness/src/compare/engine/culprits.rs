//! More culprits as more certificates come in (document 02, item 3): lists of one unit that gets certificates of several layouts, its
//! own among them, in every order up to n = 7 and in a part of the orders above. The subject keeps step with the reference, and the
//! reference with the item's sentences. What these tell apart is counted, and all of it must be reached.
//!
//! Two certificates that conflict with the first share a seat of it in each list: each has n - 2 * t0 or more of its n - t0 seats,
//! and n is above 3 * t0. Only a record that no list reaches has guilty seats apart from the shared ones (records.rs).

use super::records::{opened, seats_with};
use super::{both, Call, Case, Subject};
use crate::air;
use crate::compare::{count, covered, equal, long, run, Tally};
use crate::fleet::{rounds, some_layouts, some_seats, Fleet, HANDS};
use crate::reference::evidence::check_evidence;
use crate::reference::layout;
use crate::reference::messages::{Evidence, EvidenceEntry, Full, FullEntry, Submit, Value, EVIDENCE, FULL};
use crate::reference::quorum::t0;
use crate::reference::record::{Record, Verdict};
use crate::reference::seats::{list, mask, size};
use crate::rng::{seed, Rng};

/// What the lists must come by.
const ALL: [&str; 42] = [
    "held: the own, in a submit",
    "held: the own, in a step",
    "held: before the own submit",
    "of the first's value: no seat is guilty",
    "of the first's value: seats are guilty",
    "of the first's value: the own, in a submit",
    "of the first's value: the own, in a step",
    "second: all of the first's seats",
    "second: some of the first's seats",
    "second: its value is the lower",
    "second: its value is the higher",
    "second: before the own submit",
    "second: the own, in a submit",
    "second: the own, in a step",
    "second: with FULL",
    "later, seats added: all guilty ones and more",
    "later, seats added: some guilty ones and more",
    "later, seats added: of a value that conflicted before",
    "later, seats added: of a third value",
    "later, seats added: its value is the lower",
    "later, seats added: its value is the higher",
    "later, seats added: before the own submit",
    "later, seats added: the own, in a submit",
    "later, seats added: the own, in a step",
    "later, seats added: with FULL",
    "later, none added: all guilty ones",
    "later, none added: some guilty ones",
    "later, none added: of a value that conflicted before",
    "later, none added: of a third value",
    "later, none added: its value is the lower",
    "later, none added: its value is the higher",
    "later, none added: before the own submit",
    "later, none added: the own, in a submit",
    "later, none added: the own, in a step",
    "later, none added: with FULL",
    "pack 1",
    "pack 2",
    "pack 3",
    "pack 4",
    "pack 11",
    "in the end: t0 + 1 packs",
    "in the end: all of the first's seats are guilty",
];

/// A group of ALL, and which of its situations are reached.
type Reached = (&'static str, Vec<(&'static str, bool)>);

/// The certificates that a unit gets, in this order.
struct Plan {
    fleet: Fleet,
    seat: u32,
    certificates: Vec<Full>,
    /// The place of the own one. Without one the unit doesn't submit.
    own: Option<usize>,
    /// The own one comes with the submit, else with the last SUBMIT that it takes.
    in_submit: bool,
}

pub fn battery(subject: Subject) {
    let sizes: Vec<u32> = if long() { (1..=32).rev().collect() } else { vec![32, 10, 7, 5, 4, 3, 2, 1] };
    let mut rng = Rng::new(seed(), "culprits");
    let mut plans = Vec::new();
    for n in sizes {
        for set in 0..if n <= 7 { 8 } else { 4 } {
            let fleet = Fleet { n, round: rounds()[set % 4] };
            plans.extend(in_every_order(fleet, set % 4 < 3, &mut rng));
            plans.extend(one_by_one(fleet, &mut rng));
        }
    }
    let tallies = run("culprits", &plans, |plan, rng| {
        let mut unit = Unit::new(subject, plan, rng);
        let sets: Vec<Vec<u32>> = plan.certificates.iter().map(Full::seats).collect();
        let told = |difference| format!("{:?}, certificates of {sets:?}, own {:?}: {difference}", plan.fleet, plan.own);
        unit.play(rng).map_err(told)?;
        Ok(unit.tally)
    });
    covered("culprits", tallies, ALL.map(String::from));
}

/// Four certificates of three layouts, one of them the own where the unit submits, in all 24 orders; in some of these where the
/// fleet is large.
fn in_every_order(fleet: Fleet, submits: bool, rng: &mut Rng) -> Vec<Plan> {
    let seat = rng.below(fleet.n as usize) as u32;
    let values: [Value; 3] = some_layouts(rng);
    let own = submits.then(|| rng.below(4));
    let mut certificates = Vec::new();
    for (place, value) in [values[0], values[1], values[2], *rng.pick(&values)].into_iter().enumerate() {
        let any = some_seats(fleet.n, fleet.k(), rng);
        let seats = if own == Some(place) { seats_with(fleet, seat, rng) } else { any };
        certificates.push(certificate(fleet, seat, &value, &seats, rng));
    }
    let mut chosen = orders(4);
    while fleet.n > 7 && chosen.len() > 8 {
        chosen.swap_remove(rng.below(chosen.len()));
    }
    let plan = |order: Vec<usize>| Plan {
        fleet,
        seat,
        certificates: order.iter().map(|&place| certificates[place].clone()).collect(),
        own: order.iter().position(|&place| Some(place) == own),
        in_submit: fleet.k() == 1 || rng.one_in(2),
    };
    chosen.into_iter().map(plan).collect()
}

/// A first certificate, one that lacks t0 of its seats, and others that each lack one less, so that each adds one seat; and the
/// others in the opposite order, so that the second one of all adds every seat.
fn one_by_one(fleet: Fleet, rng: &mut Rng) -> [Plan; 2] {
    let [first_value, one, another] = some_layouts(rng);
    let first = some_seats(fleet.n, fleet.k(), rng);
    let outside: Vec<u32> = fleet.seats().into_iter().filter(|seat| !first.contains(seat)).collect();
    let lacking: Vec<u32> =
        some_seats(fleet.k(), outside.len() as u32, rng).into_iter().map(|place| first[place as usize]).collect();
    let seat = rng.below(fleet.n as usize) as u32;
    let mut later = Vec::new();
    for number in 0..=outside.len() {
        let seats = list(mask(&first) & !mask(&lacking[number..]) | mask(&outside[number..]));
        later.push(certificate(fleet, seat, if rng.one_in(2) { &one } else { &another }, &seats, rng));
    }
    let first = certificate(fleet, seat, &first_value, &first, rng);
    let plan = |later: Vec<Full>| {
        let certificates = [vec![first.clone()], later].concat();
        Plan { fleet, seat, certificates, own: None, in_submit: false }
    };
    let reversed = later.iter().rev().cloned().collect();
    [plan(later), plan(reversed)]
}

/// Each seat signs with either hand.
fn certificate(fleet: Fleet, sender: u32, value: &Value, seats: &[u32], rng: &mut Rng) -> Full {
    let mut entries = Vec::new();
    for &seat in seats {
        entries.push(FullEntry { seat, signature: fleet.signature(seat, value, rng.below(HANDS as usize) as u32) });
    }
    Full { round: fleet.round, sender, value: *value, entries }
}

/// The orders of so many things.
fn orders(count: usize) -> Vec<Vec<usize>> {
    let Some(last) = count.checked_sub(1) else { return vec![Vec::new()] };
    let with_last = |order: Vec<usize>| {
        (0..count).map(move |place| [&order[..place], &[last], &order[place..]].concat()).collect::<Vec<_>>()
    };
    orders(last).into_iter().flat_map(with_last).collect()
}

struct Unit<'a> {
    subject: Subject<'a>,
    plan: &'a Plan,
    record: Record,
    store: Vec<u8>,
    /// The certificates so far, the first held in front.
    before: Vec<&'a Full>,
    /// The seats that each EVIDENCE names.
    packs: Vec<u32>,
    tally: Tally,
}

impl<'a> Unit<'a> {
    fn new(subject: Subject<'a>, plan: &'a Plan, rng: &mut Rng) -> Unit<'a> {
        let spare = *rng.pick(&[0, 0, 1, 100]);
        let store = rng.bytes(layout::store(plan.fleet.n) + spare);
        let record = opened(plan.fleet, plan.seat);
        Unit { subject, plan, record, store, before: Vec::new(), packs: Vec::new(), tally: Tally::new() }
    }

    fn play(&mut self, rng: &mut Rng) -> Result<(), String> {
        let Plan { fleet, certificates, own, .. } = self.plan;
        let mut own_call = own.map(|own| self.all_but_the_last(&certificates[own], rng)).transpose()?;
        for (place, full) in certificates.iter().enumerate() {
            let own_call = if *own == Some(place) { own_call.take() } else { None };
            self.certificate(full, own_call, rng)?;
            self.before.push(full);
        }
        let (t0, packs) = (t0(fleet.n), self.packs.len() as u32);
        equal("at most t0 + 1 packs", packs <= t0 + 1, true)?;
        self.count_if(t0 > 0 && packs == t0 + 1, "in the end: t0 + 1 packs");
        let all = self.record.guilty == self.record.first.seats;
        self.count_if(t0 > 0 && all, "in the end: all of the first's seats are guilty");
        self.again(rng)
    }

    fn count_if(&mut self, reached: bool, what: impl Into<String>) {
        if reached {
            count(&mut self.tally, what);
        }
    }

    fn case(&self, call: Call, out: usize, rng: &mut Rng) -> Case {
        let (record, store, keys) = (self.record, self.store.clone(), self.plan.fleet.key_table());
        Case { record, keys, store, call, out: rng.bytes(out) }
    }

    /// The calls before the one that brings the own certificate, which is handed back.
    fn all_but_the_last(&mut self, own: &Full, rng: &mut Rng) -> Result<Call, String> {
        let Plan { seat: own_seat, in_submit, .. } = *self.plan;
        let Full { round, value, .. } = *own;
        let (mut submit, mut calls) = (None, Vec::new());
        for FullEntry { seat, signature } in own.entries.iter().cloned() {
            if seat == own_seat {
                submit = Some(Call::Submit { value: value.to_vec(), signature });
            } else {
                calls.push(Call::Step { message: Submit { round, seat, value, signature }.write() });
            }
        }
        let place = if in_submit { calls.len() } else { 0 };
        calls.insert(place, submit.expect("the own seat's signature"));
        let last = calls.pop().expect("the submit at least");
        for call in calls {
            let after = both(self.subject, &self.case(call, layout::out(self.plan.fleet.n), rng), rng)?;
            equal("the number", after.number, 0)?;
            (self.record, self.store) = (after.record, after.store);
        }
        Ok(last)
    }

    /// A certificate heard, or the own one with its call.
    fn certificate(&mut self, full: &'a Full, own: Option<Call>, rng: &mut Rng) -> Result<(), String> {
        let n = self.plan.fleet.n;
        let in_submit = matches!(own, Some(Call::Submit { .. }));
        let in_step = matches!(own, Some(Call::Step { .. }));
        let call = own.unwrap_or_else(|| Call::Step { message: full.write() });
        let refused = both(self.subject, &self.case(call.clone(), layout::out(n) - 1, rng), rng)?;
        equal("out one byte short", (refused.number, refused.record), (7, self.record))?;
        let spare = *rng.pick(&[0, 0, 1, 60]);
        let after = both(self.subject, &self.case(call, layout::out(n) + spare, rng), rng)?;
        equal("the number", after.number, 0)?;
        let written = air::messages(n, &after.written);
        let (group, situations) = self.blame(full, &written)?;
        let common = [
            ("the own, in a submit", in_submit),
            ("the own, in a step", in_step),
            ("before the own submit", !after.record.own.submitted),
        ];
        for (what, reached) in situations.into_iter().chain(common) {
            self.count_if(reached, format!("{group}: {what}"));
        }
        (self.record, self.store) = (after.record, after.store);
        equal("the guilty seats", self.record.guilty, self.packs.iter().sum())
    }

    /// "each certificate that conflicts with the first one held adds the seats that it shares, and EVIDENCE is written for those
    /// newly found, if any"
    fn blame(&mut self, full: &Full, written: &[Vec<u8>]) -> Result<Reached, String> {
        let pack = written.iter().find(|message| message[0] == EVIDENCE);
        let Some(first) = self.before.first().copied().filter(|first| first.value != full.value) else {
            equal("EVIDENCE without a conflict", pack.is_some(), false)?;
            let guilty = self.record.guilty != 0;
            return Ok(match self.before.is_empty() {
                true => ("held", Vec::new()),
                false => ("of the first's value", vec![("no seat is guilty", !guilty), ("seats are guilty", guilty)]),
            });
        };
        let (guilty, shared) = (self.record.guilty, mask(&first.seats()) & mask(&full.seats()));
        let found = shared & !guilty;
        let expected = (found != 0).then(|| pairs(first, full, found));
        equal("the EVIDENCE written", pack == expected.as_ref(), true)?;
        if let Some(pack) = pack {
            self.named(pack, found)?;
        }
        let all = guilty & !shared == 0;
        let again = self.before.iter().any(|before| before.value == full.value);
        let mut situations = vec![
            ("its value is the lower", full.value < first.value),
            ("its value is the higher", full.value > first.value),
            ("with FULL", written.iter().any(|message| message[0] == FULL)),
        ];
        if guilty != 0 {
            situations.extend([("of a value that conflicted before", again), ("of a third value", !again)]);
        }
        let (group, seats) = match (guilty, found) {
            (0, _) => {
                let every = shared == mask(&first.seats());
                ("second", [("all of the first's seats", every), ("some of the first's seats", !every)])
            }
            (_, 0) => ("later, none added", [("all guilty ones", all), ("some guilty ones", !all)]),
            _ => ("later, seats added", [("all guilty ones and more", all), ("some guilty ones and more", !all)]),
        };
        situations.extend(seats);
        Ok((group, situations))
    }

    /// "The t0 + 1 seats are owed by the first pack a unit writes". A pack is accepted and names the seats newly found.
    fn named(&mut self, pack: &[u8], found: u32) -> Result<(), String> {
        let Fleet { n, round } = self.plan.fleet;
        let verdict = check_evidence(n, round, &self.plan.fleet.key_table(), pack);
        equal("the evidence", verdict, Verdict { number: 0, mask: found })?;
        equal("t0 + 1 seats in the first pack", !self.packs.is_empty() || size(found) > t0(n), true)?;
        self.packs.push(found);
        self.count_if(true, format!("pack {}", self.packs.len()));
        Ok(())
    }

    /// Each of them once more, in any order, changes nothing.
    fn again(&mut self, rng: &mut Rng) -> Result<(), String> {
        while !self.before.is_empty() {
            let full = self.before.swap_remove(rng.below(self.before.len()));
            let case = self.case(Call::Step { message: full.write() }, layout::out(self.plan.fleet.n), rng);
            let after = both(self.subject, &case, rng)?;
            equal("heard again", (after.number, after.record, after.written.len()), (0, self.record, 0))?;
            equal("the store when heard again", after.store == self.store, true)?;
        }
        Ok(())
    }
}

/// EVIDENCE on the seats: each pair is the first certificate's and the other's, lower value first.
fn pairs(first: &Full, other: &Full, seats: u32) -> Vec<u8> {
    let (lower, higher) = if first.value < other.value { (first, other) } else { (other, first) };
    let signature = |full: &Full, seat: u32| {
        let entry = full.entries.iter().find(|entry| entry.seat == seat);
        entry.expect("a seat of both").signature.clone()
    };
    let pair = |seat: u32| EvidenceEntry {
        seat,
        lower: lower.value,
        higher: higher.value,
        over_lower: signature(lower, seat),
        over_higher: signature(higher, seat),
    };
    Evidence { round: first.round, entries: list(seats).into_iter().map(pair).collect() }.write()
}
