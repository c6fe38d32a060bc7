//! Random bytes as every operand: mostly refused for one cause, now and then for a later one.

use super::engine::{self, Subject};
use super::messages::{OLD_PACK, PACK};
use super::{
    check_signature, count, covered, dispatcher, evidence, joining, make_key, making, notes, run, sign, Tally,
};
use crate::confirmer::{Dispatching, EvidenceCheck, Joining, Making};
use crate::reference::layout::{self, FULL_COUNT_AT, FULL_ENTRIES_AT, SEAT_AT};
use crate::reference::lms::PUBLIC_KEY;
use crate::reference::messages::FULL_ENTRY;
use crate::rng::Rng;
use crate::subject::Calls;

/// The calls that are given random bytes.
#[derive(Clone, Copy)]
pub struct Subjects<'a> {
    pub signatures: &'a dyn Calls,
    pub evidence: &'a dyn EvidenceCheck,
    pub engine: Subject<'a>,
    pub making: &'a dyn Making,
    pub joining: &'a dyn Joining,
    pub dispatching: &'a dyn Dispatching,
}

const BATCH: usize = 1000;

/// The numbers that each call must answer at some time.
const COVERED: [(&str, &[u32]); 15] = [
    ("check_signature", &[5, 14]),
    ("make_key", &[7, 16]),
    ("sign", &[0, 3, 7, 16]),
    ("check_evidence", &[1, 3, 5, 9, 10, 11, 12, 14]),
    ("check_evidence, old", &[1, 3, 5, 9, 10, 11, 12, 14]),
    ("make_evidence", &[1, 3, 5, 7, 9, 10, 11, 12, 14]),
    ("join_evidence", &[1, 3, 5, 7, 9, 10, 11, 12, 14]),
    ("open", &[0, 1, 2, 3, 5]),
    ("submit", &[4, 5, 6, 7, 8, 9, 14]),
    ("step", &[0, 4, 5, 6, 7, 9, 10, 11, 12, 14]),
    ("write_note", &[0, 4, 7]),
    ("read_note", &[0, 4, 17]),
    ("open_dispatcher", &[0, 3, 18]),
    ("add_ticket", &[0, 3, 4, 18, 19]),
    ("take_turn", &[0, 4]),
];

/// A million calls in the long battery.
pub fn battery(subjects: Subjects) {
    let batches: Vec<usize> = (0..if super::long() { 1000 } else { 200 }).collect();
    let tallies = run("random bytes, batches of 1000 calls", &batches, |_, rng| {
        let mut tally = Tally::new();
        for _ in 0..BATCH {
            count(&mut tally, call(subjects, rng)?);
        }
        Ok(tally)
    });
    let answers =
        |(name, numbers): (&str, &[u32])| numbers.iter().map(|number| format!("{name} {number}")).collect::<Vec<_>>();
    covered("random bytes", tallies, COVERED.into_iter().flat_map(answers));
}

/// A call's name and the number that it was answered.
fn call(subjects: Subjects, rng: &mut Rng) -> Result<String, String> {
    let Subjects { signatures, evidence, engine, making, joining, dispatching } = subjects;
    let (name, number) = match rng.below(19) {
        0 => ("check_signature", check_signature::noise(signatures, rng)),
        1 => ("make_key", make_key::noise(signatures, rng)),
        2 => ("sign", sign::noise(signatures, rng)),
        3 => ("check_evidence", evidence::noise(evidence, PACK, rng)),
        4 => ("check_evidence, old", evidence::noise(evidence, OLD_PACK, rng)),
        5 => ("make_evidence", making::noise(making, rng)),
        6 => ("open", engine::opening::noise(engine.engine, rng)),
        7 | 8 => ("submit", engine::records::noise_submit(engine, rng)),
        9 => ("write_note", notes::noise_write(engine.notes, rng)),
        10 => ("read_note", notes::noise_read(engine.notes, rng)),
        11 => ("join_evidence", joining::noise(joining, rng)),
        12 => ("open_dispatcher", dispatcher::noise_open(dispatching, rng)),
        13 => ("add_ticket", dispatcher::noise_add(dispatching, rng)),
        14 => ("take_turn", dispatcher::noise_turn(dispatching, rng)),
        _ => ("step", engine::records::noise_step(engine, rng)),
    };
    let number = number.map_err(|difference| format!("{name}: {difference}"))?;
    Ok(format!("{name} {number}"))
}

/// A number below `limit` mostly, or a little above it, or any.
pub fn number(limit: u32, rng: &mut Rng) -> u32 {
    match rng.below(16) {
        0 => rng.u32(),
        1 => limit + rng.below(3) as u32,
        _ => rng.below(limit as usize) as u32,
    }
}

/// Bytes of the right length mostly, or near it, or few.
pub fn bytes(right: usize, rng: &mut Rng) -> Vec<u8> {
    let length = match rng.below(16) {
        0 => rng.below(100),
        1 => (right + 1).saturating_sub(rng.below(3)),
        _ => right,
    };
    rng.bytes(length)
}

/// The bytes put into a place, as far as the buffer has it.
pub fn set(buffer: &mut [u8], at: usize, bytes: &[u8]) {
    buffer.iter_mut().skip(at).zip(bytes).for_each(|(place, byte)| *place = *byte);
}

/// A table of n keys of types 6 and 4, mostly.
pub fn keys(n: u32, rng: &mut Rng) -> Vec<u8> {
    let mut keys = bytes(PUBLIC_KEY * n as usize, rng);
    for key in keys.chunks_mut(PUBLIC_KEY) {
        if !rng.one_in(32) {
            set(key, 0, &[0, 0, 0, 6, 0, 0, 0, 4]);
        }
    }
    keys
}

/// A message's command, mostly its round, and a low seat.
pub fn head(message: &mut [u8], command: u8, round: u32, rng: &mut Rng) {
    let round = if rng.one_in(8) { round ^ 1 } else { round };
    set(message, 0, &[command, (round >> 8) as u8, round as u8]);
    set(message, SEAT_AT, &[rng.below(4) as u8]);
}

/// A FULL's count, and its entries.
pub fn certificate(full: &mut [u8], count: u32, rng: &mut Rng) {
    set(full, FULL_COUNT_AT, &[count as u8]);
    entries(full, FULL_ENTRIES_AT, layout::FULL_ENTRY, FULL_ENTRY, rng);
}

/// The entries' command and low seats, mostly rising.
pub fn entries(message: &mut [u8], start: usize, width: usize, command: u8, rng: &mut Rng) {
    let entries = message.get_mut(start..).unwrap_or_default();
    for (place, entry) in entries.chunks_mut(width).enumerate() {
        let seat = if rng.one_in(4) { rng.below(5) } else { place };
        set(entry, 0, &[command, seat as u8]);
    }
}

/// The lengths around one, and the shortest.
pub fn around(length: usize) -> Vec<usize> {
    let mut lengths = vec![0, 1, 2, length / 2, 2 * length];
    lengths.extend(length.saturating_sub(2)..=length + 2);
    lengths.sort();
    lengths.dedup();
    lengths
}
