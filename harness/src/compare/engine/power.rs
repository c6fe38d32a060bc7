//! Units that lose power during a round (document 02, item 2): lists of one unit that is noted now and then, with its store, and
//! brought back from the newest note, or opened again before the first. It keeps step with a unit that never stopped and was given
//! only the calls that count. What the lists tell apart is counted, and all of it must be reached.

use super::records::opened;
use super::{blank, both, After, Call, Case, Subject};
use crate::air;
use crate::compare::{count, covered, equal, long, notes, run, Tally};
use crate::fleet::{rounds, some_layouts, some_seats, Fleet, HANDS};
use crate::reference::evidence::check_evidence;
use crate::reference::layout::{self, SIGNATURE_AT};
use crate::reference::messages::{Evidence, EvidenceEntry, Value, EVIDENCE};
use crate::reference::record::{Opened, Record, Verdict};
use crate::reference::seats::mask;
use crate::rng::Rng;

/// What the lists must come by.
const ALL: [&str; 28] = [
    "note: after a refused call",
    "note: a second time in a row",
    "cut: before the first note",
    "cut: no call since the note",
    "cut: calls lost",
    "cut: the own submit lost",
    "cut: a confirmation lost",
    "cut: evidence lost",
    "cut: a later pack lost",
    "cut: a second time in a row",
    "brought back: opened",
    "brought back: seats kept",
    "brought back: submitted",
    "brought back: confirmed",
    "brought back: one value heard",
    "brought back: two values heard",
    "brought back: a first certificate",
    "brought back: FULL sent",
    "brought back: guilty seats",
    "the next call: submits",
    "the next call: kept ones are collected",
    "the next call: a second submit is refused",
    "the next call: confirms",
    "the next call: FULL is sent",
    "the next call: EVIDENCE is written",
    "the next call: EVIDENCE is written again",
    "an older note: two layouts signed",
    "another store: evidence that is refused",
];

pub fn battery(subject: Subject) {
    let sizes: Vec<u32> = if long() { (1..=32).rev().collect() } else { vec![32, 7, 4, 3, 2, 1] };
    let mut fleets = Vec::new();
    for n in sizes {
        let lists = if n <= 7 { 32 } else { 4 };
        fleets.extend((0..lists).map(|list| Fleet { n, round: rounds()[list % 4] }));
    }
    let tallies = run("lost power", &fleets, |fleet, rng| {
        let mut unit = Unit::new(subject, *fleet, rng)?;
        unit.play(rng).map_err(|difference| format!("{fleet:?}, {:?}: {difference}", unit.now.record))?;
        unit.older_note(rng).map_err(|difference| format!("{fleet:?}, an older note: {difference}"))?;
        unit.another_store(rng).map_err(|difference| format!("{fleet:?}, another store: {difference}"))?;
        Ok(unit.tally)
    });
    covered("lost power", tallies, ALL.map(String::from));
}

/// Record and store.
#[derive(Clone)]
struct State {
    record: Record,
    store: Vec<u8>,
}

struct Unit<'a> {
    subject: Subject<'a>,
    fleet: Fleet,
    /// The own layout, and two others.
    values: [Value; 3],
    now: State,
    /// The newest note, and the store kept with it.
    kept: Option<(Vec<u8>, Vec<u8>)>,
    /// The calls since that note, with what came of them.
    since: Vec<(Call, After)>,
    /// The unit that never stopped, at the newest note.
    twin: State,
    was_cut: bool,
    tally: Tally,
}

impl<'a> Unit<'a> {
    fn new(subject: Subject<'a>, fleet: Fleet, rng: &mut Rng) -> Result<Unit<'a>, String> {
        let values = some_layouts(rng);
        let (record, store) = blank(subject, fleet, rng.below(fleet.n as usize) as u32, rng)?;
        let now = State { record, store };
        let (twin, since, tally) = (now.clone(), Vec::new(), Tally::new());
        Ok(Unit { subject, fleet, values, now, kept: None, since, twin, was_cut: false, tally })
    }

    fn count_each<const N: usize>(&mut self, group: &str, situations: [(&str, bool); N]) {
        for (what, reached) in situations {
            if reached {
                count(&mut self.tally, format!("{group}: {what}"));
            }
        }
    }

    fn play(&mut self, rng: &mut Rng) -> Result<(), String> {
        if rng.one_in(4) {
            self.keep(rng)?;
        }
        let calls = if self.fleet.n <= 7 { 60 } else { 100 };
        for _ in 0..calls {
            match rng.below(12) {
                0..=2 => self.keep(rng)?,
                3 => self.cut(rng)?,
                _ => self.call(rng)?,
            }
        }
        self.keep(rng)
    }

    /// The record is noted and the store kept with it. The calls so far count: the twin is given them.
    fn keep(&mut self, rng: &mut Rng) -> Result<(), String> {
        let refused = self.since.last().is_some_and(|(_, after)| after.number != 0);
        let again = self.kept.is_some() && self.since.is_empty();
        self.count_each("note", [("after a refused call", refused), ("a second time in a row", again)]);
        let note = notes::noted(self.subject.notes, &self.now.record, rng)?.ok_or("no note")?;
        self.kept = Some((note, self.now.store.clone()));
        for (call, answer) in std::mem::take(&mut self.since) {
            let after = both(self.subject, &self.case(&self.twin, call, rng), rng)?;
            equal("the twin's number", after.number, answer.number)?;
            equal("what the twin writes", after.written == answer.written, true)?;
            self.twin = State { record: after.record, store: after.store };
            equal("the twin's record", self.twin.record, answer.record)?;
            equal("the twin's store", self.twin.store == answer.store, true)?;
        }
        Ok(())
    }

    /// The unit is brought back: "the calls made after that note count as never made". With no note it is opened again, and so is
    /// the twin: no call counts.
    fn cut(&mut self, rng: &mut Rng) -> Result<(), String> {
        let lost = std::mem::take(&mut self.since);
        let before = self.now.record;
        if let Some((note, store)) = &self.kept {
            let Opened { number, record } = notes::read(self.subject.notes, note, rng)?;
            equal("the newest note", number, 0)?;
            self.now = State { record, store: store.clone() };
        } else {
            let (record, store) = blank(self.subject, self.fleet, before.seat, rng)?;
            self.now = State { record, store };
            self.twin = self.now.clone();
        }
        let (record, noted) = (self.now.record, self.kept.is_some());
        equal("the record brought back", record, self.twin.record)?;
        equal("the store brought back", self.now.store == self.twin.store, true)?;
        self.count_each(
            "cut",
            [
                ("before the first note", !noted && !lost.is_empty()),
                ("no call since the note", noted && lost.is_empty() && !self.was_cut),
                ("calls lost", !lost.is_empty()),
                ("the own submit lost", before.own.submitted && !record.own.submitted),
                ("a confirmation lost", before.confirmed && !record.confirmed),
                ("evidence lost", before.guilty != 0 && record.guilty == 0),
                ("a later pack lost", before.guilty != record.guilty && record.guilty != 0),
                ("a second time in a row", lost.is_empty() && self.was_cut),
            ],
        );
        self.count_each(
            "brought back",
            [
                ("opened", noted && record == opened(self.fleet, record.seat)),
                ("seats kept", record.kept != 0),
                ("submitted", record.own.submitted),
                ("confirmed", record.confirmed),
                ("one value heard", record.notices.heard == 1),
                ("two values heard", record.notices.heard == 2),
                ("a first certificate", record.first.seats != 0),
                ("FULL sent", record.sent),
                ("guilty seats", record.guilty != 0),
            ],
        );
        self.was_cut = true;
        Ok(())
    }

    fn case(&self, state: &State, call: Call, rng: &mut Rng) -> Case {
        let out = layout::out(self.fleet.n) + *rng.pick(&[0, 0, 1, 60]);
        let State { record, store } = state.clone();
        Case { record, keys: self.fleet.key_table(), store, call, out: rng.bytes(out) }
    }

    fn call(&mut self, rng: &mut Rng) -> Result<(), String> {
        let call = self.any_call(rng);
        let before = self.now.record;
        let after = both(self.subject, &self.case(&self.now, call.clone(), rng), rng)?;
        if self.was_cut {
            let record = after.record;
            self.count_each(
                "the next call",
                [
                    ("submits", record.own.submitted && !before.own.submitted),
                    ("kept ones are collected", before.kept != 0 && record.own.collected.count_ones() > 1),
                    ("a second submit is refused", after.number == 8),
                    ("confirms", record.confirmed && !before.confirmed),
                    ("FULL is sent", record.sent && !before.sent),
                    ("EVIDENCE is written", record.guilty != 0 && before.guilty == 0),
                    ("EVIDENCE is written again", record.guilty != before.guilty && before.guilty != 0),
                ],
            );
        }
        self.was_cut = false;
        self.now = State { record: after.record, store: after.store.clone() };
        self.since.push((call, after));
        Ok(())
    }

    /// Mostly of the own layout. The certificates of a large fleet take long to check, and come seldom.
    fn any_call(&self, rng: &mut Rng) -> Call {
        let fleet = self.fleet;
        let seat = rng.below(fleet.n as usize) as u32;
        let hand = rng.below(HANDS as usize) as u32;
        let value = self.values[*rng.pick(&[0, 0, 0, 0, 0, 0, 1, 2])];
        let message = match rng.below(if fleet.n <= 7 { 18 } else { 40 }) {
            0 | 1 => return self.submit(&value, hand),
            2 => fleet.notice(seat, &value).write(),
            3..=6 => {
                let value = *rng.pick(&self.values);
                fleet.full(seat, &value, &some_seats(fleet.n, fleet.k(), rng), hand).write()
            }
            7 => air::garbled(&fleet.submit(seat, &value, hand).write(), rng).1,
            _ => fleet.submit(seat, &value, hand).write(),
        };
        Call::Step { message }
    }

    fn submit(&self, value: &Value, hand: u32) -> Call {
        Call::Submit { value: value.to_vec(), signature: self.fleet.signature(self.now.record.seat, value, hand) }
    }

    /// "One brought back from an older note [..] isn't honest": the opened unit's note lets it sign a second layout, which the
    /// newer one doesn't, and the two signatures are evidence against it.
    fn older_note(&mut self, rng: &mut Rng) -> Result<(), String> {
        let Fleet { n, round } = self.fleet;
        let record = opened(self.fleet, rng.below(n as usize) as u32);
        self.now = State { record, store: self.now.store.clone() };
        let old = notes::noted(self.subject.notes, &record, rng)?.ok_or("no note")?;
        let mut layouts = [self.values[0], self.values[1]];
        layouts.sort();
        let mut signatures = Vec::new();
        for value in layouts {
            let record = notes::read(self.subject.notes, &old, rng)?.record;
            let state = State { record, store: self.now.store.clone() };
            let after = both(self.subject, &self.case(&state, self.submit(&value, 0), rng), rng)?;
            equal("the submit", after.number, 0)?;
            signatures.push(after.written[SIGNATURE_AT..layout::SUBMIT].to_vec());
            let newer = notes::noted(self.subject.notes, &after.record, rng)?.ok_or("no note")?;
            let record = notes::read(self.subject.notes, &newer, rng)?.record;
            let state = State { record, store: after.store };
            let second = both(self.subject, &self.case(&state, self.submit(rng.pick(&layouts), 1), rng), rng)?;
            equal("a submit after the newer note", second.number, 8)?;
        }
        let [lower, higher] = layouts;
        let [over_lower, over_higher] = signatures.try_into().expect("two signatures");
        let entries = vec![EvidenceEntry { seat: record.seat, lower, higher, over_lower, over_higher }];
        let evidence = Evidence { round, entries };
        let verdict = check_evidence(n, round, &self.fleet.key_table(), &evidence.write());
        equal("the evidence against it", verdict, Verdict { number: 0, mask: mask(&[record.seat]) })?;
        self.count_each("an older note", [("two layouts signed", true)]);
        Ok(())
    }

    /// "One brought back [..] with another store, isn't honest": the evidence that it writes is refused.
    fn another_store(&mut self, rng: &mut Rng) -> Result<(), String> {
        let Fleet { n, round } = self.fleet;
        let record = opened(self.fleet, rng.below(n as usize) as u32);
        let mut state = State { record, store: self.now.store.clone() };
        for value in [self.values[0], self.values[1]] {
            let full = self.fleet.full(0, &value, &some_seats(n, self.fleet.k(), rng), 0);
            let after = both(self.subject, &self.case(&state, Call::Step { message: full.write() }, rng), rng)?;
            if let Some(evidence) = air::messages(n, &after.written).into_iter().find(|message| message[0] == EVIDENCE)
            {
                let verdict = check_evidence(n, round, &self.fleet.key_table(), &evidence);
                equal("the evidence of another store", verdict, Verdict { number: 14, mask: 0 })?;
                self.count_each("another store", [("evidence that is refused", true)]);
            }
            let note = notes::noted(self.subject.notes, &after.record, rng)?.ok_or("no note")?;
            let record = notes::read(self.subject.notes, &note, rng)?.record;
            state = State { record, store: rng.bytes(after.store.len()) };
        }
        Ok(())
    }
}
