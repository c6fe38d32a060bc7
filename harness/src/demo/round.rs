//! A round played over the calls: the inputs of each unit, its answers, and the messages lost on the way.

use std::collections::BTreeMap;

use super::boat::{Answer, Boat, Unit};
use super::options::Options;
use super::Calls;
use crate::air;
use crate::office::{self, Handed, Joined, Office};
use crate::parallel;
use crate::reference::messages::{Full, Submit, Value, EVIDENCE, FULL, NOTICE};
use crate::reference::quorum::k;
use crate::reference::record::{Record, Verdict};
use crate::reference::seats::{list, mask};

/// A layout of the demonstration.
#[derive(Clone, Copy, PartialEq, Eq, PartialOrd, Ord)]
pub struct Layout {
    pub name: char,
    pub value: Value,
}

/// The boats that sign a layout.
pub struct Side {
    pub layout: Layout,
    pub honest: Vec<u32>,
    /// Those that sign another one too.
    pub double: Vec<u32>,
}

impl Side {
    pub fn signers(&self) -> u32 {
        mask(&self.honest) | mask(&self.double)
    }
}

pub struct Fleet<'a> {
    pub calls: Calls<'a>,
    pub options: &'a Options,
    pub boats: &'a [Boat],
    pub keys: Vec<u8>,
}

/// A message on the air.
#[derive(Clone)]
pub struct Sent {
    pub from: u32,
    pub bytes: Vec<u8>,
    pub forged: bool,
}

#[derive(Clone)]
pub enum Given {
    /// The own layout and signature.
    Own,
    Message(Sent),
}

pub struct Event {
    pub seat: u32,
    pub given: Given,
    /// None where the message was lost.
    pub answer: Option<Answer>,
}

/// A part of a round, and the units' records at its end.
pub struct Stage {
    pub events: Vec<Event>,
    pub records: Vec<Record>,
}

/// The signatures that confirm a layout.
pub struct Certificate {
    /// The boat that confirmed by it.
    pub of: u32,
    pub value: Value,
    pub seats: u32,
}

/// An EVIDENCE that a unit wrote.
pub struct Pack {
    pub sent: Sent,
    /// The certificate that it was written for: one heard, or the own.
    pub certificate: Certificate,
    /// The unit's record before and after the call.
    pub before: Record,
    pub after: Record,
    /// The check's.
    pub verdict: Verdict,
}

/// A round as it was played.
pub struct Played {
    /// Boats in the fleet.
    pub n: u32,
    pub number: u32,
    pub sides: Vec<Side>,
    /// The boat that signs after it has heard the others.
    pub slow: Option<u32>,
    pub submits: Stage,
    pub notices: Stage,
    pub fulls: Stage,
    /// The lost messages, sent again, and the answers to them.
    pub late: Stage,
    /// The EVIDENCE of the round, boat by boat.
    pub evidence: Vec<Pack>,
    /// The one pack that the harbour office makes of it, none where there is nothing to join; or what is wrong with that pack.
    pub joined: Result<Option<Joined>, String>,
    /// Every message of the round, heard a second time.
    pub again: Stage,
}

impl Stage {
    pub fn of(&self, seat: u32) -> impl Iterator<Item = &Event> {
        self.events.iter().filter(move |event| event.seat == seat)
    }

    pub fn record(&self, seat: u32) -> &Record {
        self.records.iter().find(|record| record.seat == seat).expect("a unit's seat")
    }

    /// The messages that the units wrote.
    pub fn sent(&self) -> Vec<Sent> {
        self.events.iter().flat_map(Event::sent).collect()
    }
}

impl Event {
    pub fn message(&self) -> Option<&Sent> {
        match &self.given {
            Given::Own => None,
            Given::Message(sent) => Some(sent),
        }
    }

    fn sent(&self) -> Vec<Sent> {
        let written = self.answer.iter().flat_map(|answer| air::messages(answer.before.n, &answer.written));
        written.map(|bytes| Sent { from: self.seat, bytes, forged: false }).collect()
    }

    /// The certificate in a FULL that the unit has heard.
    pub fn certificate(&self) -> Option<Certificate> {
        let full = Full::read(&self.message()?.bytes, k(self.answer.as_ref()?.before.n))?;
        Some(Certificate { of: full.sender, value: full.value, seats: mask(&full.seats()) })
    }

    /// The certificate of a call that takes one in: that of the FULL, or the own.
    fn at_hand(&self) -> Option<Certificate> {
        self.certificate().or(self.answer.as_ref().map(|answer| Certificate::own(&answer.after)))
    }
}

impl Pack {
    /// The double signers that the unit found in the call.
    pub fn found(&self) -> u32 {
        self.after.guilty & !self.before.guilty
    }
}

impl Certificate {
    /// The own one of a unit that has confirmed.
    pub fn own(record: &Record) -> Certificate {
        Certificate { of: record.seat, value: record.own.value, seats: record.own.collected }
    }
}

impl Played {
    /// The parts in which messages of the round are heard for the first time.
    pub fn stages(&self) -> [&Stage; 4] {
        [&self.submits, &self.notices, &self.fulls, &self.late]
    }

    pub fn honest(&self) -> Vec<u32> {
        self.sides.iter().flat_map(|side| side.honest.clone()).collect()
    }

    pub fn double(&self) -> Vec<u32> {
        list(self.sides.iter().fold(0, |double, side| double | mask(&side.double)))
    }

    /// The boats that signed each layout.
    pub fn signers(&self) -> Vec<u32> {
        self.sides.iter().map(Side::signers).collect()
    }

    /// The first certificate that a boat held.
    pub fn first_held(&self, seat: u32) -> Option<Certificate> {
        let held = |event: &&Event| event.answer.as_ref().is_some_and(|answer| answer.after.first.seats != 0);
        self.stages().into_iter().flat_map(|stage| stage.of(seat)).find(held).and_then(Event::at_hand)
    }

    /// A boat's EVIDENCEs, one after another.
    pub fn packs(&self, seat: u32) -> impl Iterator<Item = &Pack> {
        self.evidence.iter().filter(move |pack| pack.sent.from == seat)
    }

    /// The boats that they name, by the check.
    pub fn named(&self, seat: u32) -> u32 {
        self.packs(seat).fold(0, |named, pack| named | pack.verdict.mask)
    }
}

impl Fleet<'_> {
    fn n(&self) -> u32 {
        self.boats.len() as u32
    }

    pub fn play(&self, number: u32, sides: Vec<Side>, slow: Option<u32>) -> Played {
        let mut air = Air::new(self, number, &sides);
        let submits = air.submits(&sides, slow);
        let notices = air.broadcast(of_command(submits.sent(), NOTICE));
        let fulls = air.broadcast(of_command(notices.sent(), FULL));
        let late = air.late(fulls.sent());
        let stages = [&submits, &notices, &fulls, &late];
        let mut evidence: Vec<Pack> =
            stages.iter().flat_map(|stage| &stage.events).flat_map(|event| self.packs(event)).collect();
        evidence.sort_by_key(|pack| pack.sent.from);
        let joined = self.joined(number, &evidence);
        let again = air.again(stages);
        Played { n: self.n(), number, sides, slow, submits, notices, fulls, late, evidence, joined, again }
    }

    /// Each EVIDENCE that a unit wrote in a call, and the check's verdict on it.
    fn packs(&self, event: &Event) -> Vec<Pack> {
        let Some(Answer { before, after, .. }) = event.answer else { return Vec::new() };
        let pack = |sent: Sent| {
            let certificate = event.at_hand().expect("a message that was heard");
            let verdict = self.calls.evidence.check_evidence(self.n(), after.round, &self.keys, &sent.bytes);
            Pack { sent, certificate, before, after, verdict }
        };
        of_command(event.sent(), EVIDENCE).into_iter().map(pack).collect()
    }

    /// The packs of a round at the harbour office.
    fn joined(&self, round: u32, evidence: &[Pack]) -> Result<Option<Joined>, String> {
        let Calls { evidence: check, joining, .. } = self.calls;
        let office = Office { calls: office::Calls { evidence: check, joining }, n: self.n(), round, keys: &self.keys };
        let hand_in = |Pack { sent, verdict, .. }: &Pack| Handed {
            name: format!("the pack of boat {}", sent.from),
            bytes: sent.bytes.clone(),
            verdict: *verdict,
        };
        office.join(&evidence.iter().map(hand_in).collect::<Vec<_>>())
    }
}

fn of_command(messages: Vec<Sent>, command: u8) -> Vec<Sent> {
    messages.into_iter().filter(|sent| sent.bytes[0] == command).collect()
}

/// The units, and the messages between them.
struct Air<'a> {
    fleet: &'a Fleet<'a>,
    units: Vec<Unit<'a>>,
    /// Each boat's SUBMIT of each layout that it signs.
    signed: BTreeMap<(u32, Layout), Submit>,
    /// The SUBMIT in the name of `forged`, for each layout.
    forged: BTreeMap<Layout, Sent>,
    /// Messages that didn't reach a seat.
    lost: Vec<(u32, Sent)>,
    /// Whether every link holds.
    whole: bool,
}

impl<'a> Air<'a> {
    fn new(fleet: &'a Fleet<'a>, number: u32, sides: &[Side]) -> Air<'a> {
        let Fleet { calls, options, boats, keys } = fleet;
        let open = |&seat: &u32| Unit::open(*calls, fleet.n(), seat, number, keys);
        let signs = |side: &Side| {
            let layout = side.layout;
            list(side.signers()).into_iter().map(move |seat| (seat, layout))
        };
        let pairs: Vec<(u32, Layout)> = sides.iter().flat_map(signs).collect();
        let submits =
            parallel::map(&pairs, |(seat, layout)| boats[*seat as usize].submit(*calls, number, &layout.value));
        let forge = |side: &Side| {
            let seat = options.forged?;
            let forger = &boats[((seat + 1) % fleet.n()) as usize];
            let bytes = forger.submit_as(seat, *calls, number, &side.layout.value).write();
            Some((side.layout, Sent { from: seat, bytes, forged: true }))
        };
        Air {
            fleet,
            units: sides.iter().flat_map(|side| &side.honest).map(open).collect(),
            signed: pairs.into_iter().zip(submits).collect(),
            forged: sides.iter().filter_map(forge).collect(),
            lost: Vec::new(),
            whole: false,
        }
    }

    /// Every boat signs, and hears the others' SUBMITs: the early one first, then the forged one, then by seat, the slow boat's
    /// last. The slow boat signs after all that.
    fn submits(&mut self, sides: &[Side], slow: Option<u32>) -> Stage {
        let mut events = Vec::new();
        for side in sides {
            for &seat in &side.honest {
                events.extend(self.submits_to(seat, side.layout, slow));
            }
        }
        self.stage(events)
    }

    fn submits_to(&mut self, seat: u32, own: Layout, slow: Option<u32>) -> Vec<Event> {
        let options = self.fleet.options;
        let early = options.early.filter(|&early| early != seat && options.linked(early, seat));
        let mut others: Vec<u32> = (0..self.fleet.n()).filter(|&from| from != seat && Some(from) != early).collect();
        others.sort_by_key(|&from| Some(from) == slow);
        let mut events = Vec::new();
        if let Some(from) = early {
            events.push(self.give(seat, Given::Message(self.shown_to(own, from))));
        }
        if slow != Some(seat) {
            events.push(self.give(seat, Given::Own));
        }
        if let Some(forged) = self.forged.get(&own) {
            events.push(self.give(seat, Given::Message(forged.clone())));
        }
        for from in others {
            events.push(self.send(self.shown_to(own, from), seat));
        }
        if slow == Some(seat) {
            events.push(self.give(seat, Given::Own));
        }
        events
    }

    /// The SUBMIT that a boat sends to a unit with this layout: a double signer's is of that layout where it has signed it.
    fn shown_to(&self, own: Layout, from: u32) -> Sent {
        let signed = self.signed.get(&(from, own));
        let other = || self.signed.iter().find(|((seat, _), _)| *seat == from).map(|(_, submit)| submit);
        let submit = signed.or_else(other).expect("each boat signs a layout");
        Sent { from, bytes: submit.write(), forged: false }
    }

    /// Each message to every unit but its sender's.
    fn broadcast(&mut self, messages: Vec<Sent>) -> Stage {
        let seats: Vec<u32> = self.units.iter().map(|unit| unit.record.seat).collect();
        let mut events = Vec::new();
        for sent in messages {
            for &seat in seats.iter().filter(|&&seat| seat != sent.from) {
                events.push(self.send(sent.clone(), seat));
            }
        }
        self.stage(events)
    }

    /// The links are back: lost messages reach their boats, and the answers go round until there are no more. Evidence is for
    /// the check, and not for a unit.
    fn late(&mut self, unheard: Vec<Sent>) -> Stage {
        self.whole = true;
        let mut events: Vec<Event> = Vec::new();
        for (seat, sent) in std::mem::take(&mut self.lost) {
            events.push(self.give(seat, Given::Message(sent)));
        }
        let mut messages: Vec<Sent> = unheard.into_iter().chain(events.iter().flat_map(Event::sent)).collect();
        while !messages.is_empty() {
            messages.retain(|sent| sent.bytes[0] != EVIDENCE);
            let answers = self.broadcast(messages).events;
            messages = answers.iter().flat_map(Event::sent).collect();
            events.extend(answers);
        }
        self.stage(events)
    }

    /// Each message that a unit has heard, once more.
    fn again(&mut self, stages: [&Stage; 4]) -> Stage {
        let heard = stages.into_iter().flat_map(|stage| &stage.events).filter(|event| event.answer.is_some());
        let heard: Vec<(u32, Given)> =
            heard.filter(|event| event.message().is_some()).map(|event| (event.seat, event.given.clone())).collect();
        let events = heard.into_iter().map(|(seat, given)| self.give(seat, given)).collect();
        self.stage(events)
    }

    fn send(&mut self, sent: Sent, seat: u32) -> Event {
        if self.whole || self.fleet.options.linked(sent.from, seat) {
            return self.give(seat, Given::Message(sent));
        }
        self.lost.push((seat, sent.clone()));
        Event { seat, given: Given::Message(sent), answer: None }
    }

    fn give(&mut self, seat: u32, given: Given) -> Event {
        let unit = self.units.iter_mut().find(|unit| unit.record.seat == seat).expect("a unit's seat");
        let answer = match &given {
            Given::Own => {
                let own =
                    self.signed.iter().find(|((signer, _), _)| *signer == seat).expect("each boat signs a layout");
                unit.submit(own.1)
            }
            Given::Message(sent) => unit.hear(&sent.bytes),
        };
        Event { seat, given, answer: Some(answer) }
    }

    fn stage(&self, events: Vec<Event>) -> Stage {
        Stage { events, records: self.units.iter().map(|unit| unit.record).collect() }
    }
}
