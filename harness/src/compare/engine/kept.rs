//! SUBMITs heard before the own submit (document 02, item 1): lists of one unit that keeps some, submits late and hears them
//! again. The subject keeps step with the reference, and the reference with the item's sentences. What these tell apart is
//! counted, and all of it must be reached.

use std::collections::BTreeMap;

use super::records::{opened, seats_with, submitted};
use super::{both, After, Call, Case, Subject};
use crate::compare::{count, covered, equal, flip_bit, long, run, Tally};
use crate::fleet::{rounds, some_layouts, Fleet, HANDS};
use crate::reference::layout::{self, SEAT_AT, SIGNATURE_AT};
use crate::reference::lms::PUBLIC_KEY;
use crate::reference::messages::{Submit, Value};
use crate::reference::record::Record;
use crate::reference::seats::{mask, size};
use crate::rng::Rng;

/// What the lists must come by.
const ALL: [&str; 29] = [
    "step: a seat kept",
    "step: a seat kept, a FULL is held",
    "step: the own seat kept",
    "step: a kept seat again, the same value",
    "step: a kept seat again, another value",
    "step: a kept seat again, badly signed",
    "step: badly signed",
    "step: a stranger's",
    "step: of another round",
    "step: a store one byte short",
    "step: seats kept after a submission",
    "step: a kept seat at or above n",
    "step: a flood of one seat",
    "step: after the submit, a seat that was kept, the same value",
    "step: after the submit, a seat that was kept, another value",
    "submit: kept seats of several values",
    "submit: more kept than k needs",
    "submit: 31 other seats kept",
    "submit: confirmed by kept ones",
    "submit: confirmed by kept ones against a FULL held",
    "submit: the own seat kept",
    "submit: the own seat kept, n = 1",
    "submit: seats kept, a FULL is held",
    "submit: a store one byte short",
    "submit: seats kept after a submission",
    "submit: a kept seat at or above n",
    "submit: kept signatures damaged",
    "submit: kept values damaged",
    "submit: other keys for all other seats",
];

#[derive(Debug)]
struct Plan {
    fleet: Fleet,
    /// The SUBMITs of all other seats come early.
    all: bool,
}

pub fn battery(subject: Subject) {
    let sizes: Vec<u32> = if long() { (1..=32).rev().collect() } else { vec![32, 10, 7, 4, 3, 2, 1] };
    let mut plans = Vec::new();
    for n in sizes {
        let lists = if n <= 7 || long() { 16 } else { 4 };
        let plan = |list: usize| Plan { fleet: Fleet { n, round: rounds()[list % 4] }, all: list.is_multiple_of(2) };
        plans.extend((0..lists).map(plan));
    }
    let tallies = run("kept SUBMITs", &plans, |plan, rng| {
        let mut unit = Unit::new(subject, plan.fleet, rng);
        unit.play(plan.all, rng).map_err(|difference| format!("{plan:?}, {:?}: {difference}", unit.record))?;
        Ok(unit.tally)
    });
    covered("kept SUBMITs", tallies, ALL.map(String::from));
}

/// Harm to what a seat's kept SUBMIT goes by.
type Damage = fn(&Unit, u32, &mut Case, &mut Rng);

/// A unit that submits late.
struct Unit<'a> {
    subject: Subject<'a>,
    fleet: Fleet,
    /// The own layout, and two others.
    values: [Value; 3],
    record: Record,
    store: Vec<u8>,
    /// The first good SUBMIT of each seat before the own submit.
    first: BTreeMap<u32, Submit>,
    tally: Tally,
}

impl<'a> Unit<'a> {
    fn new(subject: Subject<'a>, fleet: Fleet, rng: &mut Rng) -> Unit<'a> {
        let values = some_layouts(rng);
        let record = opened(fleet, rng.below(fleet.n as usize) as u32);
        let spare = *rng.pick(&[0, 0, 1, 100]);
        let store = rng.bytes(layout::store(fleet.n) + spare);
        Unit { subject, fleet, values, record, store, first: BTreeMap::new(), tally: Tally::new() }
    }

    fn play(&mut self, all: bool, rng: &mut Rng) -> Result<(), String> {
        let held = rng.below(12);
        for number in 0..6 {
            if number == held {
                self.hold(rng)?;
            }
            let seat = self.any_seat(rng);
            self.hear(seat, rng)?;
        }
        self.refused(rng)?;
        let mut others = self.fleet.seats();
        others.retain(|&seat| all && seat != self.record.seat);
        while !others.is_empty() {
            let seat = others.swap_remove(rng.below(others.len()));
            self.hear(seat, rng)?;
        }
        self.flood(rng)?;
        self.refused(rng)?;
        self.damaged(rng)?;
        self.submit(rng)?;
        self.again(rng)
    }

    fn count(&mut self, what: &str) {
        count(&mut self.tally, what);
    }

    fn count_if(&mut self, reached: bool, what: &str) {
        if reached {
            self.count(what);
        }
    }

    fn any_seat(&self, rng: &mut Rng) -> u32 {
        rng.below(self.fleet.n as usize) as u32
    }

    /// Mostly the own.
    fn any_value(&self, rng: &mut Rng) -> Value {
        self.values[*rng.pick(&[0, 0, 0, 0, 0, 0, 1, 2])]
    }

    fn any_submit(&self, seat: u32, rng: &mut Rng) -> Submit {
        self.fleet.submit(seat, &self.any_value(rng), rng.below(HANDS as usize) as u32)
    }

    fn case(&self, call: Call, rng: &mut Rng) -> Case {
        let out = layout::out(self.fleet.n) + *rng.pick(&[0, 0, 1, 60]);
        let (record, store) = (self.record, self.store.clone());
        Case { record, keys: self.fleet.key_table(), store, call, out: rng.bytes(out) }
    }

    fn step(&self, message: Vec<u8>, rng: &mut Rng) -> Case {
        self.case(Call::Step { message }, rng)
    }

    fn own_submit(&self, rng: &mut Rng) -> Case {
        let value = &self.values[0];
        let signature = self.fleet.signature(self.record.seat, value, rng.below(HANDS as usize) as u32);
        self.case(Call::Submit { value: value.to_vec(), signature }, rng)
    }

    /// The part of a store with the kept signatures and values.
    fn kept_part<'s>(&self, store: &'s [u8]) -> &'s [u8] {
        &store[layout::kept(self.fleet.n, 0).start..]
    }

    /// A good SUBMIT before the own submit.
    fn hear(&mut self, seat: u32, rng: &mut Rng) -> Result<(), String> {
        let submit = self.any_submit(seat, rng);
        let known = self.first.get(&seat).map(|first| first.value == submit.value);
        for (what, reached) in [
            ("step: a seat kept", known.is_none()),
            ("step: the own seat kept", known.is_none() && seat == self.record.seat),
            ("step: a seat kept, a FULL is held", known.is_none() && self.record.first.seats != 0),
            ("step: a kept seat again, the same value", known == Some(true)),
            ("step: a kept seat again, another value", known == Some(false)),
        ] {
            self.count_if(reached, what);
        }
        let after = both(self.subject, &self.step(submit.write(), rng), rng)?;
        self.first.entry(seat).or_insert(submit);
        equal("the bytes written", after.written.len(), 0)?;
        self.take(after)
    }

    /// "A SUBMIT heard before the own submit is now checked, and the first good one from each seat is kept with its value." All
    /// else in record and store is as it was before the call.
    fn take(&mut self, after: After) -> Result<(), String> {
        let n = self.fleet.n;
        let mut store = self.store.clone();
        for (&seat, submit) in &self.first {
            store[layout::kept(n, seat)].copy_from_slice(&submit.signature);
            store[layout::kept_value(n, seat)].copy_from_slice(&submit.value);
        }
        let kept: Vec<u32> = self.first.keys().copied().collect();
        equal("the number", after.number, 0)?;
        equal("the record", after.record, Record { kept: mask(&kept), ..self.record })?;
        equal("the store as the item has it", after.store == store, true)?;
        (self.record, self.store) = (after.record, after.store);
        Ok(())
    }

    /// A FULL before the own submit touches no kept one.
    fn hold(&mut self, rng: &mut Rng) -> Result<(), String> {
        let sender = self.any_seat(rng);
        let seats = seats_with(self.fleet, sender, rng);
        let full = self.fleet.full(sender, &self.any_value(rng), &seats, 0);
        let after = both(self.subject, &self.step(full.write(), rng), rng)?;
        let old_slots = ..layout::kept(self.fleet.n, 0).start;
        self.store[old_slots].copy_from_slice(&after.store[old_slots]);
        (self.record.notices, self.record.first) = (after.record.notices, after.record.first);
        self.take(after)
    }

    /// Calls before the own submit that are refused.
    fn refused(&mut self, rng: &mut Rng) -> Result<(), String> {
        let Fleet { n, round } = self.fleet;
        let seat = self.any_seat(rng);
        let submit = self.any_submit(seat, rng);
        let badly_signed = |mut message: Vec<u8>, rng: &mut Rng| {
            flip_bit(&mut message[SIGNATURE_AT..], rng);
            message
        };
        let known: Vec<u32> = self.first.keys().copied().collect();
        let again = self.any_submit(*rng.pick(&known), rng);
        let mut strangers = submit.write();
        strangers[SEAT_AT] = n as u8 + rng.below(256 - n as usize) as u8;
        let others: Vec<u32> = rounds().into_iter().filter(|&other| other != round).collect();
        let other_round = Fleet { n, round: *rng.pick(&others) }.submit(seat, &submit.value, 0);
        let mut cases = Vec::new();
        for (what, number, message) in [
            ("badly signed", 14, badly_signed(submit.write(), rng)),
            ("a kept seat again, badly signed", 14, badly_signed(again.write(), rng)),
            ("a stranger's", 11, strangers),
            ("of another round", 10, other_round.write()),
        ] {
            cases.push((format!("step: {what}"), number, self.step(message, rng)));
        }
        for (name, case) in [("step", self.step(submit.write(), rng)), ("submit", self.own_submit(rng))] {
            let mut spoiled = |what: &str, number: u32, spoil: &dyn Fn(&mut Case)| {
                let mut case = case.clone();
                spoil(&mut case);
                cases.push((format!("{name}: {what}"), number, case));
            };
            spoiled("a store one byte short", 6, &|case| case.store.truncate(layout::store(n) - 1));
            let said = submitted(self.fleet, self.record.seat, submit.value);
            spoiled("seats kept after a submission", 4, &|case| {
                case.record = Record { kept: case.record.kept, ..said }
            });
            if n < 32 {
                spoiled("a kept seat at or above n", 4, &|case| case.record.kept |= 1 << n);
            }
        }
        for (what, number, case) in cases {
            let after = both(self.subject, &case, rng).map_err(|difference| format!("{what}: {difference}"))?;
            equal(&what, after.number, number)?;
            equal("the record after a refusal", after.record, case.record)?;
            equal("the store after a refusal", after.store == case.store, true)?;
            self.count(&what);
        }
        Ok(())
    }

    /// SUBMITs of one seat, good and forged: the slots of that seat change at most once, and no other byte does.
    fn flood(&mut self, rng: &mut Rng) -> Result<(), String> {
        let (n, seat) = (self.fleet.n, self.any_seat(rng));
        let mut before = self.store.clone();
        for _ in 0..10 {
            self.hear(seat, rng)?;
            let mut forged = self.any_submit(seat, rng);
            flip_bit(&mut forged.signature, rng);
            let after = both(self.subject, &self.step(forged.write(), rng), rng)?;
            equal("a forged one", (after.number, after.record), (14, self.record))?;
            equal("the store after a forged one", after.store == self.store, true)?;
        }
        self.count("step: a flood of one seat");
        for slot in [layout::kept(n, seat), layout::kept_value(n, seat)] {
            before[slot.clone()].copy_from_slice(&self.store[slot]);
        }
        equal("the store but for the seat's slots", self.store == before, true)
    }

    /// Submits beside the list, in a damaged store or with other keys: nothing that was kept is checked again, and the unit comes to the
    /// same record. Only a damaged value tells, since a kept seat's value is what the store says.
    fn damaged(&mut self, rng: &mut Rng) -> Result<(), String> {
        let right = self.own_submit(rng);
        let expected = both(self.subject, &right, rng)?.record;
        let damages: [(&str, Damage); 3] = [
            ("kept signatures damaged", |unit, seat, case, rng| {
                flip_bit(&mut case.store[layout::kept(unit.fleet.n, seat)], rng);
            }),
            ("other keys for all other seats", |unit, seat, case, rng| {
                if seat != unit.record.seat {
                    let identifier_and_root = &mut case.keys[PUBLIC_KEY * seat as usize..][8..PUBLIC_KEY];
                    identifier_and_root.copy_from_slice(&rng.bytes(PUBLIC_KEY - 8));
                }
            }),
            ("kept values damaged", |unit, seat, case, rng| {
                let value = &mut case.store[layout::kept_value(unit.fleet.n, seat)];
                value.copy_from_slice(rng.pick(&unit.values).as_slice());
                if rng.one_in(3) {
                    flip_bit(value, rng);
                }
            }),
        ];
        for (what, damage) in damages {
            let mut case = right.clone();
            self.fleet.seats().into_iter().for_each(|seat| damage(self, seat, &mut case, rng));
            let after = both(self.subject, &case, rng).map_err(|difference| format!("{what}: {difference}"))?;
            equal(what, (after.number, after.checks), (0, 1))?;
            let differs = after.record != expected;
            if what == "kept values damaged" {
                self.count_if(differs, "submit: kept values damaged");
            } else {
                equal(what, differs, false)?;
                self.count_if(size(expected.own.collected) > 1, &format!("submit: {what}"));
            }
        }
        Ok(())
    }

    /// "At the own submit, after the own signature, kept ones of that value from other seats are collected in rising seat order until
    /// k is reached; then the kept seats are empty".
    fn submit(&mut self, rng: &mut Rng) -> Result<(), String> {
        let Fleet { n, .. } = self.fleet;
        let needed = self.fleet.k() as usize - 1;
        let own = self.record.seat;
        let others: Vec<&Submit> = self.first.values().filter(|submit| submit.seat != own).collect();
        let wanted: Vec<Submit> =
            others.iter().copied().filter(|submit| submit.value == self.values[0]).cloned().collect();
        let several = others.iter().any(|submit| submit.value != others[0].value);
        let own_kept = self.first.contains_key(&own);
        for (what, reached) in [
            ("submit: kept seats of several values", several),
            ("submit: more kept than k needs", n > 1 && wanted.len() > needed),
            ("submit: 31 other seats kept", others.len() == 31),
            ("submit: confirmed by kept ones", n > 1 && wanted.len() >= needed),
            ("submit: the own seat kept", own_kept),
            ("submit: the own seat kept, n = 1", own_kept && n == 1),
            ("submit: seats kept, a FULL is held", !self.first.is_empty() && self.record.first.seats != 0),
        ] {
            self.count_if(reached, what);
        }
        let after = both(self.subject, &self.own_submit(rng), rng)?;
        let collected = &wanted[..needed.min(wanted.len())];
        let seats: Vec<u32> = collected.iter().map(|submit| submit.seat).collect();
        equal("the number and the reference's signature checks", (after.number, after.checks), (0, 1))?;
        equal("the seats collected", after.record.own.collected, mask(&[own]) | mask(&seats))?;
        equal("the seats kept", after.record.kept, 0)?;
        equal("confirmed", after.record.confirmed, wanted.len() >= needed)?;
        let against = self.record.first.seats != 0 && self.record.first.value != self.values[0];
        if n > 1 && after.record.confirmed && against {
            equal("FULL and EVIDENCE written", (after.record.sent, after.record.guilty != 0), (true, true))?;
            self.count_if(true, "submit: confirmed by kept ones against a FULL held");
        }
        for Submit { seat, signature, .. } in collected {
            equal("a kept signature", after.store[layout::collected(*seat)] == signature[..], true)?;
        }
        equal("the kept part", self.kept_part(&after.store) == self.kept_part(&self.store), true)?;
        (self.record, self.store) = (after.record, after.store);
        Ok(())
    }

    /// After the own submit nothing is kept, whatever was before it.
    fn again(&mut self, rng: &mut Rng) -> Result<(), String> {
        for _ in 0..6 {
            let kept: Vec<&Submit> = self.first.values().collect();
            let Submit { seat, value, .. } = **rng.pick(&kept);
            let submit = self.any_submit(seat, rng);
            let which = if submit.value == value { "the same value" } else { "another value" };
            let after = both(self.subject, &self.step(submit.write(), rng), rng)?;
            equal("the number", after.number, 0)?;
            equal("the kept part", self.kept_part(&after.store) == self.kept_part(&self.store), true)?;
            (self.record, self.store) = (after.record, after.store);
            self.count(&format!("step: after the submit, a seat that was kept, {which}"));
        }
        Ok(())
    }
}
