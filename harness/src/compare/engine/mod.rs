//! Opening, submit and step: each call given to a subject and to the reference, every byte afterwards compared. Each record that
//! comes back from a submit or a step is noted and read back, and the evidence written with it held to the seats newly found.

pub mod culprits;
pub mod kept;
pub mod lists;
pub mod opening;
pub mod power;
pub mod records;
pub mod refusals;

use super::arguments::untouched;
use super::{equal, notes};
use crate::air;
use crate::confirmer::{Engine, LentStep, Notes};
use crate::fleet::Fleet;
use crate::guarded::{Guarded, GuardedItem};
use crate::reference::messages::{Evidence, Full, EVIDENCE};
use crate::reference::record::{Opened, Record, Stepped};
use crate::reference::seats::mask;
use crate::reference::{engine, layout, quorum, verdicts};
use crate::rng::Rng;

/// The calls under test; about every other step goes through the one that is lent its record.
#[derive(Clone, Copy)]
pub struct Subject<'a> {
    pub engine: &'a dyn Engine,
    pub lent: &'a dyn LentStep,
    pub notes: &'a dyn Notes,
}

#[derive(Clone)]
pub enum Call {
    Submit { value: Vec<u8>, signature: Vec<u8> },
    Step { message: Vec<u8> },
}

#[derive(Clone)]
pub struct Case {
    pub record: Record,
    pub keys: Vec<u8>,
    pub store: Vec<u8>,
    pub call: Call,
    pub out: Vec<u8>,
}

/// Result of the reference, and so of the subject.
#[derive(Debug)]
pub struct After {
    pub number: u32,
    pub record: Record,
    pub store: Vec<u8>,
    pub written: Vec<u8>,
    /// Where the call brought a certificate that conflicts with the first held.
    pub conflict: Option<Conflict>,
    /// The reference's signature checks.
    pub checks: usize,
}

/// The seats that a certificate shares with the first held.
#[derive(Debug)]
pub struct Conflict {
    pub shared: u32,
    /// Those of them newly found guilty.
    pub found: u32,
}

/// A unit of the subject with no note in the round: opened, with a store of any bytes.
fn blank(subject: Subject, fleet: Fleet, seat: u32, rng: &mut Rng) -> Result<(Record, Vec<u8>), String> {
    let Fleet { n, round } = fleet;
    let record = records::opened(fleet, seat);
    let answer = subject.engine.open(n, seat, round, &fleet.key_table());
    equal("the opening", answer, Opened { number: 0, record })?;
    let spare = *rng.pick(&[0, 0, 1, 100]);
    Ok((record, rng.bytes(layout::store(n) + spare)))
}

/// Result of the case given to both, or their difference.
pub fn both(subject: Subject, case: &Case, rng: &mut Rng) -> Result<After, String> {
    let (mut store, mut out) = (case.store.clone(), case.out.clone());
    let checks_before = verdicts::checks();
    let expected = match &case.call {
        Call::Submit { value, signature } => {
            engine::submit(case.record, &case.keys, &mut store, value, signature, &mut out)
        }
        Call::Step { message } => engine::step(case.record, &case.keys, &mut store, message, &mut out),
    };
    let checks = verdicts::checks() - checks_before;
    let keys = Guarded::new(&case.keys, rng);
    let mut lent_store = Guarded::new(&case.store, rng);
    let mut lent_out = Guarded::new(&case.out, rng);
    let answer = match &case.call {
        Call::Submit { value, signature } => {
            let (lent_value, lent_signature) = (Guarded::new(value, rng), Guarded::new(signature, rng));
            let answer = subject.engine.submit(
                case.record,
                keys.lent(),
                lent_store.lent_mut(),
                lent_value.lent(),
                lent_signature.lent(),
                lent_out.lent_mut(),
            );
            untouched(&[("value", &lent_value, value), ("signature", &lent_signature, signature)])?;
            answer
        }
        Call::Step { message } => {
            let lent_message = Guarded::new(message, rng);
            let (keys, store, out) = (keys.lent(), lent_store.lent_mut(), lent_out.lent_mut());
            let answer = if rng.one_in(2) {
                subject.engine.step(case.record, keys, store, lent_message.lent(), out)
            } else {
                let mut record = GuardedItem::new(case.record, rng);
                let answer = subject.lent.step_lent(record.lent_mut(), keys, store, lent_message.lent(), out);
                Stepped { number: answer.number, written: answer.written, record: record.taken("record")? }
            };
            untouched(&[("message", &lent_message, message)])?;
            answer
        }
    };
    equal("the number", answer.number, expected.number)?;
    equal("the bytes written", answer.written, expected.written)?;
    equal("the record", answer.record, expected.record)?;
    untouched(&[("keys", &keys, &case.keys), ("store", &lent_store, &store), ("out", &lent_out, &out)])?;
    notes::noted(subject.notes, &expected.record, rng)?;
    out.truncate(expected.written as usize);
    let conflict = if expected.number == 0 { blamed(case, &expected.record, &out)? } else { None };
    Ok(After { number: expected.number, record: expected.record, store, written: out, conflict, checks })
}

/// Holds a call that isn't refused to document 02's item 3: "each certificate that conflicts with the first one held adds the
/// seats that it shares, and EVIDENCE is written for those newly found, if any". A call brings one certificate at most.
fn blamed(case: &Case, record: &Record, written: &[u8]) -> Result<Option<Conflict>, String> {
    let (n, before) = (record.n, &case.record);
    let certificate = match &case.call {
        _ if record.confirmed && !before.confirmed => Some((record.own.value, record.own.collected)),
        Call::Step { message } => Full::read(message, quorum::k(n)).map(|full| (full.value, mask(&full.seats()))),
        Call::Submit { .. } => None,
    };
    let other = certificate.filter(|(value, _)| before.first.seats != 0 && before.first.value != *value);
    let conflict = other.map(|(_, seats)| {
        let shared = before.first.seats & seats;
        Conflict { shared, found: shared & !before.guilty }
    });
    let found = conflict.as_ref().map_or(0, |conflict| conflict.found);
    equal("the guilty seats", record.guilty, before.guilty | found)?;
    let packs = air::messages(n, written).into_iter().filter(|message| message[0] == EVIDENCE);
    let named: Vec<u32> = packs.map(|pack| mask(&Evidence::read(&pack, n).expect("a whole one").seats())).collect();
    let expected = if found == 0 { Vec::new() } else { vec![found] };
    equal("the seats in EVIDENCE", named, expected)?;
    Ok(conflict)
}
