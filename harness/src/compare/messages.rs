//! Messages made wrong: changes to a right message's bytes, each with the refusal that it calls for. No two changes undo
//! each other.

use super::refusals::{lengths, spoiler, Spoiler};
use crate::fleet::{self, Fleet};
use crate::reference::layout::{
    self, ENTRY_HIGHER_AT, ENTRY_LOWER_AT, ENTRY_SEAT_AT, ENTRY_SIGNATURES_AT, ENTRY_SIGNATURE_AT, EVIDENCE_COUNT_AT,
    EVIDENCE_ENTRIES_AT, FULL_COUNT_AT, FULL_ENTRIES_AT, HIGHER_AT, LOWER_AT, OLD_EVIDENCE_COUNT_AT,
    OLD_EVIDENCE_ENTRIES_AT, ROUND_AT, SEAT_AT, SIGNATURE, SIGNATURE_AT, VALUE, VALUE_AT,
};
use crate::reference::lms::{Types, N};
use crate::reference::messages::{
    signed_bytes, Evidence, EvidenceEntry, Full, Notice, Submit, Value, EVIDENCE, EVIDENCE_ENTRY, FULL_ENTRY,
    OLD_EVIDENCE, OLD_EVIDENCE_ENTRY,
};

type Wrong = Spoiler<Vec<u8>>;

/// A command of evidence, and the places in it.
#[derive(Clone, Copy)]
pub struct Pack {
    pub name: &'static str,
    pub command: u8,
    pub count_at: usize,
    pub entries_at: usize,
    pub entry_command: u8,
    pub entry: usize,
    /// The two signatures of an entry.
    signatures_at: usize,
    pub write: fn(&Evidence) -> Vec<u8>,
}

pub const PACK: Pack = Pack {
    name: "EVIDENCE",
    command: EVIDENCE,
    count_at: EVIDENCE_COUNT_AT,
    entries_at: EVIDENCE_ENTRIES_AT,
    entry_command: EVIDENCE_ENTRY,
    entry: layout::EVIDENCE_ENTRY,
    signatures_at: ENTRY_SIGNATURES_AT,
    write: Evidence::write,
};

/// "The old 0x05 is still accepted by the check."
pub const OLD_PACK: Pack = Pack {
    name: "old EVIDENCE",
    command: OLD_EVIDENCE,
    count_at: OLD_EVIDENCE_COUNT_AT,
    entries_at: OLD_EVIDENCE_ENTRIES_AT,
    entry_command: OLD_EVIDENCE_ENTRY,
    entry: layout::OLD_EVIDENCE_ENTRY,
    signatures_at: ENTRY_SIGNATURE_AT,
    write: Evidence::write_old,
};

pub const PACKS: [Pack; 2] = [PACK, OLD_PACK];

impl Pack {
    /// Whether each entry has values of its own. In the old command all have the same.
    pub fn has_values_each(&self) -> bool {
        self.command == EVIDENCE
    }

    pub fn length(&self, count: u32) -> usize {
        self.entries_at + self.entry * count as usize
    }
}

/// Packs of one entry have one length by either command. With these values, lower first, and this seat they have the count and the
/// entry command of both besides, so that only the command tells how they are read.
pub fn two_faced(seat: u32) -> (Value, Value) {
    let start = |pack: Pack| [1, pack.entry_command, seat as u8];
    let (mut lower, mut higher) = ([0; VALUE], [0xff; VALUE]);
    // The lower value of the old one starts where the other has its count. The old one's count falls into the higher value.
    lower[..3].copy_from_slice(&start(PACK));
    higher[OLD_PACK.count_at - PACK.entries_at - ENTRY_HIGHER_AT..].copy_from_slice(&start(OLD_PACK));
    (lower, higher)
}

/// The commands of the messages' entries.
const ENTRY_COMMANDS: [u8; 3] = [FULL_ENTRY, OLD_EVIDENCE_ENTRY, EVIDENCE_ENTRY];

pub fn submit(fleet: Fleet, right: &Submit) -> Vec<Wrong> {
    let mut wrong = headed(fleet, &right.write());
    wrong.extend(stranger(fleet.n, "the seat", SEAT_AT));
    wrong.extend(ends(VALUE_AT).map(|at| flipped("the value", at)));
    wrong.extend(signatures(fleet, "", right.seat, &right.value, SIGNATURE_AT));
    wrong
}

pub fn notice(fleet: Fleet, right: &Notice) -> Vec<Wrong> {
    let mut wrong = headed(fleet, &right.write());
    wrong.extend(stranger(fleet.n, "the seat", SEAT_AT));
    wrong
}

pub fn full(fleet: Fleet, right: &Full) -> Vec<Wrong> {
    let mut wrong = headed(fleet, &right.write());
    wrong.extend(counts(FULL_COUNT_AT, &[0, fleet.k() - 1, fleet.k() + 1, 128 + fleet.k(), 255]));
    wrong.extend(stranger(fleet.n, "the sender", SEAT_AT));
    wrong.extend(ends(VALUE_AT).map(|at| flipped("the value", at)));
    let entries =
        Entries { start: FULL_ENTRIES_AT, width: layout::FULL_ENTRY, count: right.entries.len(), command: FULL_ENTRY };
    wrong.extend(entries.wrong(fleet.n));
    for place in entries.places() {
        let entry = &right.entries[place];
        let at = entries.at(place) + ENTRY_SIGNATURE_AT;
        wrong.extend(signatures(fleet, &format!("entry {place}'s "), entry.seat, &right.value, at));
    }
    wrong
}

pub fn evidence(fleet: Fleet, pack: Pack, right: &Evidence) -> Vec<Wrong> {
    let mut wrong = headed(fleet, &(pack.write)(right));
    let told = right.entries.len() as u32;
    wrong.extend(counts(pack.count_at, &[0, told - 1, told + 1, fleet.n + 1, 128 + told, 255]));
    let Pack { entries_at: start, entry: width, entry_command: command, .. } = pack;
    let entries = Entries { start, width, count: right.entries.len(), command };
    wrong.extend(entries.wrong(fleet.n));
    for place in entries.places() {
        let EvidenceEntry { seat, lower, higher, .. } = &right.entries[place];
        let at = entries.at(place) + pack.signatures_at;
        wrong.extend(signatures(fleet, &format!("entry {place}'s lower "), *seat, lower, at));
        wrong.extend(signatures(fleet, &format!("entry {place}'s higher "), *seat, higher, at + SIGNATURE));
    }
    if pack.has_values_each() {
        for place in entries.places() {
            let (at, entry) = (entries.at(place), &right.entries[place]);
            wrong.extend(ends(at + ENTRY_LOWER_AT).map(|at| flipped(&format!("entry {place}'s lower value"), at)));
            wrong.extend(ends(at + ENTRY_HIGHER_AT).map(|at| flipped(&format!("entry {place}'s higher value"), at)));
            for (what, wrong_entry) in unordered(fleet, entry) {
                let one = Evidence { entries: vec![wrong_entry], ..right.clone() };
                let bytes = one.write()[EVIDENCE_ENTRIES_AT..].to_vec();
                wrong.push(spoiler(15, format!("entry {place}: {what}"), move |message: &mut Vec<u8>, _| {
                    message[at..at + bytes.len()].copy_from_slice(&bytes);
                }));
            }
        }
    } else {
        wrong.extend(ends(LOWER_AT).map(|at| flipped("the lower value", at)));
        wrong.extend(ends(HIGHER_AT).map(|at| flipped("the higher value", at)));
    }
    // Every entry in the same way.
    let all: Vec<Vec<(&str, EvidenceEntry)>> =
        right.entries.iter().map(|entry| unordered(fleet, entry).into()).collect();
    for (way, (what, _)) in all[0].iter().enumerate() {
        let entries = all.iter().map(|ways| ways[way].1.clone()).collect();
        let bytes = (pack.write)(&Evidence { entries, ..right.clone() });
        wrong.push(spoiler(15, *what, move |message: &mut Vec<u8>, _| *message = bytes.clone()));
    }
    wrong
}

/// A pair whose signatures check, and whose values are equal or not lower first.
pub fn unordered(fleet: Fleet, right: &EvidenceEntry) -> [(&'static str, EvidenceEntry); 3] {
    let (lower, higher) = ((&right.lower, 0), (&right.higher, 0));
    [
        ("higher value first", fleet.pair(right.seat, higher, lower)),
        ("the lower value twice", fleet.pair(right.seat, lower, lower)),
        ("the higher value twice", fleet.pair(right.seat, higher, higher)),
    ]
}

/// A byte set, where the message has one in that place.
fn set(number: u32, what: String, at: usize, byte: u8) -> Wrong {
    spoiler(number, what, move |message: &mut Vec<u8>, _| message.get_mut(at).into_iter().for_each(|it| *it = byte))
}

/// The first and the last byte of a value.
fn ends(at: usize) -> [usize; 2] {
    [at, at + VALUE - 1]
}

/// A bit of what is signed, so that the signatures no longer check.
fn flipped(name: &str, at: usize) -> Wrong {
    spoiler(14, format!("{name} changed at byte {at}"), move |message: &mut Vec<u8>, _| message[at] ^= 1)
}

/// The command, the length and the round. No length is right for another count of entries.
fn headed(fleet: Fleet, right: &[u8]) -> Vec<Wrong> {
    let whole = right.len();
    let other = [0, 1, SEAT_AT, layout::NOTICE - 1, whole - 1, whole + 1, whole + 33, 2 * whole + 1];
    let mut wrong = lengths(9, "message", &other, |message| message);
    for cut in [1, 2, 32, SIGNATURE - 1] {
        let what = format!("{cut} bytes cut off");
        wrong.push(spoiler(9, what, move |message: &mut Vec<u8>, _| message.truncate(whole - cut.min(whole))));
    }
    wrong.push(spoiler(9, "a zero byte added", move |message: &mut Vec<u8>, _| message.resize(whole + 1, 0)));
    for command in (0x00..=0x09).chain([0x80 | right[0], 0xff]).filter(|&command| command != right[0]) {
        wrong.push(set(9, format!("command {command:#04x}"), 0, command));
    }
    let round = fleet.round;
    for other in [round ^ 1, round ^ 0x0100, round ^ 0x0400, round ^ 0x8000, 0xffff - round] {
        let what = format!("round {other} in the message");
        wrong.push(spoiler(10, what, move |message: &mut Vec<u8>, _| {
            message[ROUND_AT..][..2].copy_from_slice(&(other as u16).to_be_bytes());
        }));
    }
    wrong
}

fn counts(at: usize, counts: &[u32]) -> Vec<Wrong> {
    counts.iter().map(|&count| set(9, format!("count {count}"), at, count as u8)).collect()
}

/// Seats at or above n.
fn stranger(n: u32, name: &str, at: usize) -> Vec<Wrong> {
    let seats = [n, n + 1, 33, 128, 255].into_iter().filter(|&seat| seat >= n);
    seats.map(|seat| set(11, format!("{name} is {seat}"), at, seat as u8)).collect()
}

/// The places of a message's entries.
struct Entries {
    start: usize,
    width: usize,
    count: usize,
    command: u8,
}

impl Entries {
    fn at(&self, place: usize) -> usize {
        self.start + self.width * place
    }

    /// The first, a middle one and the last.
    fn places(&self) -> Vec<usize> {
        let mut places = vec![0, self.count / 2, self.count - 1];
        places.dedup();
        places
    }

    fn wrong(&self, n: u32) -> Vec<Wrong> {
        let mut wrong = Vec::new();
        for place in self.places() {
            let at = self.at(place);
            for command in other_entry_commands(self.command) {
                wrong.push(set(9, format!("entry {place}'s command {command:#04x}"), at, command));
            }
            wrong.extend(stranger(n, &format!("entry {place}'s seat"), at + ENTRY_SEAT_AT));
        }
        if self.count > 1 {
            wrong.extend(self.disorder());
        }
        wrong
    }

    fn disorder(&self) -> [Wrong; 4] {
        let (first, second) = (self.at(0), self.at(1));
        let (before_last, last) = (self.at(self.count - 2), self.at(self.count - 1));
        let width = self.width;
        [
            spoiler(12, "entries 0 and 1 swapped", move |message: &mut Vec<u8>, _| {
                message[first..second + width].rotate_left(width);
            }),
            spoiler(12, "entry 1's seat is entry 0's", move |message: &mut Vec<u8>, _| {
                message[second + ENTRY_SEAT_AT] = message[first + ENTRY_SEAT_AT];
            }),
            spoiler(12, "the last entry's seat is the first's", move |message: &mut Vec<u8>, _| {
                message[last + ENTRY_SEAT_AT] = message[first + ENTRY_SEAT_AT];
            }),
            spoiler(12, "the last entry's seat is that of the one before", move |message: &mut Vec<u8>, _| {
                message[last + ENTRY_SEAT_AT] = message[before_last + ENTRY_SEAT_AT];
            }),
        ]
    }
}

/// The commands of other entries, and some that no entry has.
pub fn other_entry_commands(command: u8) -> Vec<u8> {
    let commands = [0, command - 1, command + 1, command ^ 0x80].into_iter().chain(ENTRY_COMMANDS);
    commands.filter(|&other| other != command).collect()
}

/// A signature damaged in each of its fields, and signatures that are right elsewhere.
pub fn signatures(fleet: Fleet, name: &str, seat: u32, value: &Value, at: usize) -> Vec<Wrong> {
    let types = Types::ENGINE;
    let mut wrong = Vec::new();
    for (field, offset) in [
        ("leaf", 0),
        ("leaf", 3),
        ("ots type", 7),
        ("C", 8),
        ("y[0]", 8 + N),
        ("the last y", types.lms_type_at() - 1),
        ("lms type", types.lms_type_at() + 3),
        ("path[0]", types.path_at()),
        ("the last of the path", SIGNATURE - 1),
    ] {
        wrong.push(flipped(&format!("{name}signature's {field}"), at + offset));
    }
    for (what, signature) in foreign_signatures(fleet, seat, value) {
        wrong.push(spoiler(14, format!("{name}{what}"), move |message: &mut Vec<u8>, _| {
            message[at..at + SIGNATURE].copy_from_slice(&signature);
        }));
    }
    wrong
}

/// Signatures that check, but not for this seat over this value in this round.
fn foreign_signatures(fleet: Fleet, seat: u32, value: &Value) -> Vec<(&'static str, Vec<u8>)> {
    let round = fleet.round;
    let neighbour = (seat + 1) % 32;
    let other_round = fleet::rounds().into_iter().find(|&other| other != round).expect("several rounds");
    let mut other_value = *value;
    other_value[16] ^= 1;
    let own_bytes = signed_bytes(round, seat, value);
    let without_seat = [&own_bytes[..SEAT_AT], value].concat();
    vec![
        ("signature under another leaf", fleet::sign(seat, other_round, &own_bytes, 0)),
        ("signature for another round", fleet::sign(seat, round, &signed_bytes(other_round, seat, value), 0)),
        ("signature over another value", fleet::sign(seat, round, &signed_bytes(round, seat, &other_value), 0)),
        ("signature without the seat", fleet::sign(seat, round, &without_seat, 0)),
        ("signature by the neighbour's key", fleet::sign(neighbour, round, &own_bytes, 0)),
        ("the neighbour's signature", fleet::sign(neighbour, round, &signed_bytes(round, neighbour, value), 0)),
        ("signature of zeros", vec![0; SIGNATURE]),
    ]
}
