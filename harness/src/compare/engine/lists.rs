//! Long random lists of calls: boats under test among seats that sign whatever the script wants, over links that lose,
//! copy, reorder and garble. The subject keeps step with the reference, and the reference with demands 1 and 3, also where boats
//! lose power.

use super::records::any_impossible;
use super::{blank, both, Call, Case, Conflict, Subject};
use crate::air;
use crate::compare::{count, covered, equal, long, notes, run, Tally};
use crate::fleet::{fewest_to_split, layouts, rounds, some_seats, Fleet, HANDS};
use crate::reference::evidence::check_evidence;
use crate::reference::layout::{self, SIGNATURE};
use crate::reference::lms::PUBLIC_KEY;
use crate::reference::messages::{Value, EVIDENCE, FULL, NOTICE};
use crate::reference::quorum::t0;
use crate::reference::record::{Opened, Record, Verdict};
use crate::reference::seats::{contains, mask, size};
use crate::rng::Rng;

#[derive(Debug)]
struct Plan {
    fleet: Fleet,
    /// Numbers of units under test and of layouts.
    boats: u32,
    layouts: usize,
    calls: usize,
    /// No signature over another layout than its own is delivered for a boat's seat.
    fair: bool,
    /// Boats lose power now and then.
    cuts: bool,
    /// Certificates come often in a large fleet too.
    certificates: bool,
}

/// Hundreds of calls for each n, ten thousand in the long battery.
pub fn battery(subject: Subject) {
    let mut plans = Vec::new();
    for n in (1..=32).rev() {
        let (lists, calls) = match (n, long()) {
            (1, false) => (60, 20),
            (_, false) => (15, 50),
            (_, true) => (100, 100),
        };
        let plan = |list: usize| Plan {
            fleet: Fleet { n, round: rounds()[list % 4] },
            boats: 1 + (list % 3) as u32,
            layouts: 2 + list / 3 % 3,
            calls,
            fair: list.is_multiple_of(2),
            cuts: list / 2 % 2 == 1,
            certificates: list.is_multiple_of(5),
        };
        plans.extend((0..lists).map(plan));
    }
    covered("lists", played("lists", subject, &plans), answers());
}

/// Rounds of the largest fleet in which every honest boat is under test, and the fewest double signers that can split it.
pub fn whole_rounds(subject: Subject) {
    let (n, double) = (32, fewest_to_split(32));
    let count = if long() { 20 } else { 2 };
    let plan = |list: usize| Plan {
        fleet: Fleet { n, round: rounds()[list % 4] },
        boats: n - double,
        layouts: 2,
        calls: 100,
        fair: true,
        cuts: list % 2 == 1,
        certificates: false,
    };
    let plans: Vec<Plan> = (0..count).map(plan).collect();
    let tally = covered("whole rounds", played("whole rounds", subject, &plans), []);
    assert_eq!(tally.get("disagreement"), Some(&count), "each round splits the fleet");
}

/// Plays the lists, and counts their calls by their answer, and by the messages that they wrote together.
fn played(title: &str, subject: Subject, plans: &[Plan]) -> Vec<Tally> {
    run(title, plans, |plan, rng| {
        let mut sea = Sea::new(subject, plan, rng)?;
        sea.play(rng).map_err(|difference| format!("{plan:?}, {}: {difference}", sea.trail()))?;
        Ok(sea.tally)
    })
}

/// Every answer, and every choice of messages.
fn answers() -> impl Iterator<Item = String> {
    let steps = [0, 4, 5, 6, 7, 9, 10, 11, 12, 14].map(|number| format!("step {number}"));
    let submits = [0, 4, 5, 6, 7, 8, 9, 14].map(|number| format!("submit {number}"));
    let written = [
        "",
        " SUBMIT",
        " NOTICE",
        " FULL",
        " EVIDENCE",
        " NOTICE FULL",
        " FULL EVIDENCE",
        " NOTICE FULL EVIDENCE",
        " SUBMIT NOTICE",
        " SUBMIT NOTICE FULL",
        " SUBMIT NOTICE FULL EVIDENCE",
    ];
    let written = written.map(|names| format!("wrote{names}"));
    let others = [
        "disagreement",
        "lost power",
        "lost power before the first note",
        "lost power and an own submit",
        "lost power and messages written",
        "conflict 1",
        "conflict 2",
        "conflict 2, no seat added",
        "conflict 3",
        "conflict 3, no seat added",
        "conflict 4",
        "conflict 4, no seat added",
        "pack 1",
        "pack 2",
        "pack 3",
    ];
    steps.into_iter().chain(submits).chain(written).chain(others.map(String::from))
}

/// A unit under test.
struct Boat {
    layout: Value,
    record: Record,
    store: Vec<u8>,
    /// The newest note, the store kept with it, and the conflicts until then.
    kept: Option<(Vec<u8>, Vec<u8>, usize)>,
    /// Written since that note, and sent with the next.
    unsent: Vec<Vec<u8>>,
    said: Vec<Vec<u8>>,
    /// Certificates taken that conflict with the first held.
    conflicts: usize,
    /// The seats that each EVIDENCE said names.
    packs: Vec<u32>,
}

struct Sea<'a> {
    subject: Subject<'a>,
    plan: &'a Plan,
    layouts: Vec<Value>,
    boats: Vec<Boat>,
    /// Every message that was written or sent.
    air: Vec<Vec<u8>>,
    calls: Vec<String>,
    cuts: bool,
    tally: Tally,
}

impl<'a> Sea<'a> {
    fn new(subject: Subject<'a>, plan: &'a Plan, rng: &mut Rng) -> Result<Sea<'a>, String> {
        let fleet = plan.fleet;
        let mut all = layouts();
        let chosen: Vec<Value> = (0..plan.layouts).map(|_| all.swap_remove(rng.below(all.len()))).collect();
        let seats = some_seats(fleet.n, plan.boats, rng);
        let mut boats = Vec::new();
        for (place, seat) in seats.into_iter().enumerate() {
            let (layout, (record, store)) = (chosen[place % chosen.len()], blank(subject, fleet, seat, rng)?);
            let (unsent, said, packs) = (Vec::new(), Vec::new(), Vec::new());
            boats.push(Boat { layout, record, store, kept: None, unsent, said, conflicts: 0, packs });
        }
        let (air, calls, cuts, tally) = (Vec::new(), Vec::new(), plan.cuts, Tally::new());
        Ok(Sea { subject, plan, layouts: chosen, boats, air, calls, cuts, tally })
    }

    /// The last calls, for the report of a difference.
    fn trail(&self) -> String {
        let first = self.calls.len().saturating_sub(8);
        format!("call {} after\n  {}", self.calls.len(), self.calls[first..].join("\n  "))
    }

    fn play(&mut self, rng: &mut Rng) -> Result<(), String> {
        for boat in 0..self.boats.len() {
            if rng.one_in(2) {
                self.send(boat, rng)?;
            }
            let (heard_before, lacking) =
                *rng.pick(&[(0, None), (0, Some(1)), (0, Some(2)), (6, Some(0)), (6, Some(1))]);
            for _ in 0..heard_before {
                let message = self.sent_to(boat, rng);
                self.hear(boat, "sent early on", message, rng)?;
            }
            if let Some(lacking) = lacking {
                self.collect(boat, lacking, rng)?;
            }
        }
        for _ in 0..self.plan.calls {
            let boat = rng.below(self.boats.len());
            match rng.below(100) {
                0..=5 => self.submit(boat, rng)?,
                6..=8 => self.wrong_submit(boat, rng)?,
                9..=44 if !self.air.is_empty() => {
                    let message = self.heard_before(rng);
                    self.hear(boat, "heard again", message, rng)?;
                }
                45..=59 => {
                    let (what, message) = air::garbled(&self.sent_to(boat, rng), rng);
                    self.hear(boat, what, message, rng)?;
                }
                60..=65 => self.wrong_buffers(boat, rng)?,
                66..=68 => self.impossible(boat, rng)?,
                69..=71 => {
                    let message = self.foreign(rng);
                    self.hear(boat, "of another fleet or round", message, rng)?;
                }
                _ => {
                    let message = self.sent_to(boat, rng);
                    self.hear(boat, "sent", message, rng)?;
                }
            }
        }
        if self.plan.fair {
            self.settle(rng)?;
        }
        Ok(())
    }

    /// A boat submits and collects, until it lacks only so many signatures of k or nobody else is willing.
    fn collect(&mut self, boat: usize, lacking: u32, rng: &mut Rng) -> Result<(), String> {
        self.submit(boat, rng)?;
        for _ in lacking + 1..self.plan.fleet.k() {
            let message = self.helpful_submit(boat, rng);
            self.hear(boat, "collected", message, rng)?;
        }
        Ok(())
    }

    fn submit(&mut self, boat: usize, rng: &mut Rng) -> Result<(), String> {
        let Boat { layout, record, .. } = self.boats[boat];
        let signature = self.plan.fleet.signature(record.seat, &layout, rng.below(HANDS as usize) as u32);
        self.right_call(boat, "submit", Call::Submit { value: layout.to_vec(), signature }, rng)
    }

    fn hear(&mut self, boat: usize, what: &str, message: Vec<u8>, rng: &mut Rng) -> Result<(), String> {
        self.right_call(boat, what, Call::Step { message }, rng)
    }

    fn wrong_submit(&mut self, boat: usize, rng: &mut Rng) -> Result<(), String> {
        let Boat { layout, record, .. } = self.boats[boat];
        let fleet = self.plan.fleet;
        let mut value = layout.to_vec();
        let mut signature = fleet.signature(record.seat, &layout, 0);
        match rng.below(5) {
            0 => value.truncate(rng.below(32)),
            1 => value.push(rng.below(256) as u8),
            2 => signature.truncate(rng.below(SIGNATURE)),
            3 => signature[rng.below(SIGNATURE)] ^= 1,
            _ => value[rng.below(32)] ^= 1,
        }
        self.right_call(boat, "wrong submit", Call::Submit { value, signature }, rng)
    }

    /// The seats that the script makes sign a layout.
    fn willing(&self, value: &Value) -> Vec<u32> {
        let says_another = |seat: &u32| {
            let mut boats = self.boats.iter();
            boats.any(|boat| boat.record.seat == *seat && boat.layout != *value)
        };
        let seats = self.plan.fleet.seats().into_iter();
        seats.filter(|seat| !self.plan.fair || !says_another(seat)).collect()
    }

    /// A SUBMIT that brings the boat nearer to confirming, where there is one.
    fn helpful_submit(&self, boat: usize, rng: &mut Rng) -> Vec<u8> {
        let Boat { layout, record, .. } = &self.boats[boat];
        let willing = self.willing(layout);
        let known = record.own.collected | record.kept;
        let new: Vec<u32> = willing.iter().copied().filter(|&seat| !contains(known, seat)).collect();
        let seat = *rng.pick(if new.is_empty() { &willing } else { &new });
        self.plan.fleet.submit(seat, layout, rng.below(HANDS as usize) as u32).write()
    }

    /// A message from the air, seldom a long one.
    fn heard_before(&self, rng: &mut Rng) -> Vec<u8> {
        let picks = [rng.pick(&self.air), rng.pick(&self.air), rng.pick(&self.air)];
        let shortest = picks.into_iter().min_by_key(|message| message.len()).expect("three of them");
        let pick = if self.plan.fleet.n <= 7 || rng.one_in(4) { picks[0] } else { shortest };
        pick.clone()
    }

    /// A message of the script. The certificates of a large fleet take long to check, and come seldom in most lists.
    fn sent_to(&mut self, boat: usize, rng: &mut Rng) -> Vec<u8> {
        let fleet = self.plan.fleet;
        let seat = rng.below(fleet.n as usize) as u32;
        let value = *rng.pick(&self.layouts);
        let willing = self.willing(&value);
        let often = fleet.n <= 7 || self.plan.certificates;
        let message = match rng.below(10) {
            0..=3 => self.helpful_submit(boat, rng),
            4 if willing.contains(&seat) => fleet.submit(seat, &value, 0).write(),
            5..=7 if willing.len() as u32 >= fleet.k() && (often || rng.one_in(4)) => {
                let places = some_seats(willing.len() as u32, fleet.k(), rng);
                let seats: Vec<u32> = places.into_iter().map(|place| willing[place as usize]).collect();
                fleet.full(seat, &value, &seats, rng.below(HANDS as usize) as u32).write()
            }
            _ => fleet.notice(seat, &value).write(),
        };
        self.air.push(message.clone());
        message
    }

    /// A message that is right in another round, or in a fleet of another size.
    fn foreign(&self, rng: &mut Rng) -> Vec<u8> {
        let Fleet { n, round } = self.plan.fleet;
        let fleet = if self.plan.fair || rng.one_in(2) {
            let others: Vec<u32> = rounds().into_iter().filter(|&other| other != round).collect();
            Fleet { n, round: *rng.pick(&others) }
        } else {
            Fleet { n: *rng.pick(&[(n - 1).max(1), (n + 1).min(32)]), round }
        };
        let seat = rng.below(fleet.n as usize) as u32;
        let value = rng.pick(&self.layouts);
        match rng.below(3) {
            0 => fleet.submit(seat, value, 0).write(),
            1 => fleet.notice(seat, value).write(),
            _ => fleet.full(seat, value, &some_seats(fleet.n, fleet.k(), rng), 0).write(),
        }
    }

    fn wrong_buffers(&mut self, boat: usize, rng: &mut Rng) -> Result<(), String> {
        let Fleet { n, .. } = self.plan.fleet;
        let message = self.sent_to(boat, rng);
        let mut case = self.case(boat, Call::Step { message }, rng);
        let number = match rng.below(5) {
            0 => {
                case.keys.truncate(rng.below(case.keys.len()));
                5
            }
            1 => {
                let seat = rng.below(n as usize);
                case.keys[PUBLIC_KEY * seat + rng.below(8)] ^= 1 << rng.below(8);
                5
            }
            2 => {
                case.store.truncate(layout::store(n) - 1 - rng.below(20));
                6
            }
            3 => {
                case.out.truncate(rng.below(layout::out(n)));
                7
            }
            _ => {
                case.out.truncate(layout::out(n) - 1);
                7
            }
        };
        self.refused_call(boat, "wrong buffers", number, case, rng)
    }

    fn impossible(&mut self, boat: usize, rng: &mut Rng) -> Result<(), String> {
        let message = self.sent_to(boat, rng);
        let mut case = self.case(boat, Call::Step { message }, rng);
        case.record = any_impossible(self.plan.fleet, rng);
        self.refused_call(boat, "impossible record", 4, case, rng)
    }

    fn case(&self, boat: usize, call: Call, rng: &mut Rng) -> Case {
        let Boat { record, store, .. } = &self.boats[boat];
        let fleet = self.plan.fleet;
        let out = layout::out(fleet.n) + *rng.pick(&[0, 0, 1, 60]);
        Case { record: *record, keys: fleet.key_table(), store: store.clone(), call, out: rng.bytes(out) }
    }

    /// A refused call beside the boat's list, now and then a submit in place of the step.
    fn refused_call(
        &mut self,
        boat: usize,
        what: &str,
        number: u32,
        mut case: Case,
        rng: &mut Rng,
    ) -> Result<(), String> {
        let Boat { layout, record, .. } = self.boats[boat];
        if rng.one_in(3) {
            let signature = self.plan.fleet.signature(record.seat, &layout, 0);
            case.call = Call::Submit { value: layout.to_vec(), signature };
        }
        self.log(boat, what, &case.call);
        let after = both(self.subject, &case, rng)?;
        self.count(&case.call, after.number);
        equal("the reference's number", after.number, number)?;
        equal("the record after a refusal", after.record, case.record)
    }

    /// A call in the boat's list.
    fn right_call(&mut self, boat: usize, what: &str, call: Call, rng: &mut Rng) -> Result<(), String> {
        self.log(boat, what, &call);
        let case = self.case(boat, call, rng);
        let after = both(self.subject, &case, rng)?;
        self.count(&case.call, after.number);
        if after.number != 0 {
            equal("the record after a refusal", after.record, case.record)?;
            equal("the store after a refusal", after.store == case.store, true)?;
            return equal("bytes written with a refusal", after.written.len(), 0);
        }
        if let Some(Conflict { found, .. }) = after.conflict {
            self.boats[boat].conflicts += 1;
            let adds = if found == 0 { ", no seat added" } else { "" };
            count(&mut self.tally, format!("conflict {}{adds}", self.boats[boat].conflicts.min(4)));
        }
        let messages = air::messages(after.record.n, &after.written);
        let names: String = messages.iter().map(|message| format!(" {}", air::name(message))).collect();
        count(&mut self.tally, format!("wrote{names}"));
        self.boats[boat].record = after.record;
        self.boats[boat].store = after.store;
        self.boats[boat].unsent.extend(messages);
        match rng.below(8) {
            0 if self.cuts => self.lose_power(boat, rng),
            1 if self.cuts => Ok(()),
            _ => self.send(boat, rng),
        }
    }

    /// "The host keeps the note and the store, both of them or neither, before it sends anything."
    fn send(&mut self, boat: usize, rng: &mut Rng) -> Result<(), String> {
        let Boat { record, store, kept, unsent, conflicts, .. } = &mut self.boats[boat];
        let note = notes::noted(self.subject.notes, record, rng)?.ok_or("the record has no note")?;
        *kept = Some((note, store.clone(), *conflicts));
        for message in std::mem::take(unsent) {
            self.said(boat, message)?;
        }
        let Boat { record, packs, .. } = &self.boats[boat];
        equal("the guilty seats and those named", record.guilty, packs.iter().sum())
    }

    /// The boat is brought back from its newest note and the store kept with it, or opened again where it has none.
    fn lose_power(&mut self, boat: usize, rng: &mut Rng) -> Result<(), String> {
        let Boat { record, store, kept, unsent, conflicts, .. } = &mut self.boats[boat];
        *conflicts = kept.as_ref().map_or(0, |(_, _, conflicts)| *conflicts);
        let back = if let Some((note, store, _)) = kept {
            let Opened { number, record } = notes::read(self.subject.notes, note, rng)?;
            equal("the newest note", number, 0)?;
            (record, store.clone())
        } else {
            count(&mut self.tally, "lost power before the first note");
            blank(self.subject, self.plan.fleet, record.seat, rng)?
        };
        count(&mut self.tally, "lost power");
        if record.own.submitted && !back.0.own.submitted {
            count(&mut self.tally, "lost power and an own submit");
        }
        if !unsent.is_empty() {
            count(&mut self.tally, "lost power and messages written");
        }
        (*record, *store) = back;
        unsent.clear();
        Ok(())
    }

    /// Demand 1: SUBMIT, NOTICE and FULL at most once in a round.
    fn said(&mut self, boat: usize, message: Vec<u8>) -> Result<(), String> {
        if message[0] == EVIDENCE {
            self.said_evidence(boat, &message)?;
        } else {
            let before = self.boats[boat].said.iter().any(|before| before[0] == message[0]);
            equal("said before", before, false)?;
        }
        self.boats[boat].said.push(message.clone());
        self.air.push(message);
        Ok(())
    }

    /// Demand 3: evidence is accepted, the first pack names at least t0 + 1 seats, and none an honest one. Each later pack names only
    /// seats that none before it names, so that there are at most t0 + 1 packs.
    fn said_evidence(&mut self, boat: usize, pack: &[u8]) -> Result<(), String> {
        let Fleet { n, round } = self.plan.fleet;
        let honest: Vec<u32> = self.boats.iter().map(|boat| boat.record.seat).collect();
        let Verdict { number, mask: named } = check_evidence(n, round, &self.plan.fleet.key_table(), pack);
        equal("the refusal of evidence", number, 0)?;
        equal("honest seats in fair evidence", self.plan.fair && named & mask(&honest) != 0, false)?;
        let packs = &mut self.boats[boat].packs;
        equal("seats named before", packs.iter().map(|before| before & named).sum(), 0)?;
        equal("more than t0 seats in the first pack", !packs.is_empty() || size(named) > t0(n), true)?;
        packs.push(named);
        equal("at most t0 + 1 packs", packs.len() as u32 <= t0(n) + 1, true)?;
        count(&mut self.tally, format!("pack {}", packs.len()));
        Ok(())
    }

    /// The end of a fair list: each boat gets the signatures that it lacks, and its NOTICE and FULL reach every other. Demand 3:
    /// where two have confirmed different layouts, each boat has written evidence.
    fn settle(&mut self, rng: &mut Rng) -> Result<(), String> {
        self.cuts = false;
        for boat in 0..self.boats.len() {
            self.send(boat, rng)?;
            self.collect(boat, 0, rng)?;
        }
        let mut reached = vec![0; self.boats.len()];
        while let Some(from) = (0..reached.len()).find(|&boat| reached[boat] < self.boats[boat].said.len()) {
            let message = self.boats[from].said[reached[from]].clone();
            reached[from] += 1;
            if [NOTICE, FULL].contains(&message[0]) {
                for to in (0..reached.len()).filter(|&to| to != from) {
                    self.hear(to, "reached at last", message.clone(), rng)?;
                }
            }
        }
        let confirmed = || self.boats.iter().filter(|boat| boat.record.confirmed).map(|boat| boat.layout);
        if confirmed().any(|layout| Some(layout) != confirmed().next()) {
            for boat in &self.boats {
                equal("evidence written", boat.packs.is_empty(), false)?;
            }
            count(&mut self.tally, "disagreement");
        }
        Ok(())
    }

    fn log(&mut self, boat: usize, what: &str, call: &Call) {
        let told = match call {
            Call::Submit { value, signature } => format!("submit of {} and {} bytes", value.len(), signature.len()),
            Call::Step { message } => {
                format!("step with {} bytes, the first {:02x?}", message.len(), &message[..message.len().min(8)])
            }
        };
        self.calls.push(format!("seat {}, {what}: {told}", self.boats[boat].record.seat));
    }

    fn count(&mut self, call: &Call, number: u32) {
        let name = match call {
            Call::Submit { .. } => "submit",
            Call::Step { .. } => "step",
        };
        count(&mut self.tally, format!("{name} {number}"));
    }
}
