//! Notes (document 02, item 2) of possible and impossible records: whole, damaged, of every length, with every flag, and random
//! bytes. The subject keeps step with the reference, and the reference with the item's sentences. What these tell apart is
//! counted, and all of it must be reached.

use super::engine::records::{any_possible, any_record, guilty_strangers, impossible, opened};
use super::{count, covered, equal, long, noise, resized, run, sized, Tally};
use crate::confirmer::Notes;
use crate::fleet::{layouts, rounds, Fleet};
use crate::guarded::Guarded;
use crate::reference::impossible::causes;
use crate::reference::layout::{
    self, MASK, NOTE_FIRST_AT, NOTE_FLAGS_AT, NOTE_HEARD_AT, NOTE_MASKS_AT, NOTE_N_AT, NOTE_OWN_AT, NOTE_ROUND_AT,
    NOTE_SEAT_AT,
};
use crate::reference::note::{self, ONE_HEARD, TWO_HEARD};
use crate::reference::record::{Opened, Record, Written};
use crate::reference::refusals::Passed;
use crate::rng::{seed, Rng};

/// The parts of a note, each with its first byte, and the answers to a note with a bit of that part turned. Others don't occur,
/// but for 0 at the first certificate's seats in a fleet of one.
const PARTS: [(&str, usize, &[u32]); 12] = [
    ("command", 0, &[17]),
    ("n", NOTE_N_AT, &[0, 4]),
    ("seat", NOTE_SEAT_AT, &[0, 4]),
    ("round", NOTE_ROUND_AT, &[0, 4]),
    ("flags", NOTE_FLAGS_AT, &[0, 4, 17]),
    ("own value", NOTE_OWN_AT, &[0, 4]),
    ("collected", NOTE_MASKS_AT, &[0, 4]),
    ("kept", NOTE_MASKS_AT + MASK, &[0, 4]),
    (FIRST, NOTE_MASKS_AT + 2 * MASK, &[4]),
    ("guilty", NOTE_MASKS_AT + 3 * MASK, &[0, 4]),
    ("value heard", NOTE_HEARD_AT, &[0, 4]),
    ("first certificate's value", NOTE_FIRST_AT, &[0, 4]),
];

const FIRST: &str = "first certificate";

/// What the cases must come by besides.
const ALL: [&str; 21] = [
    "note: opened",
    "note: seats kept",
    "note: submitted",
    "note: confirmed",
    "note: FULL sent",
    "note: one value heard",
    "note: one value heard, of zeros",
    "note: two values heard",
    "note: a first certificate",
    "note: guilty seats",
    "note: of 32 seats",
    "out: too short",
    "out: as long as a note",
    "out: longer",
    "length: cut short",
    "length: lengthened",
    "length: random bytes",
    "flags: taken",
    "flags: of another record, impossible",
    "flags: both heard",
    "flags: unknown",
];

/// Lengths of notes and of `out`: from 0 to beyond a note's.
const LENGTHS: std::ops::RangeInclusive<usize> = 0..=200;

/// A record given to both: its note, none where it is refused. `out` keeps its other bytes.
pub fn written(subject: &dyn Notes, record: &Record, out: &[u8], rng: &mut Rng) -> Result<Passed<Vec<u8>>, String> {
    let mut expected_out = out.to_vec();
    let expected = note::write_note(*record, &mut expected_out);
    let mut lent = Guarded::new(out, rng);
    let answer = subject.write_note(*record, lent.lent_mut());
    equal("the note's number and length", answer, expected)?;
    lent.expect("out", &expected_out)?;
    let Written { number, written } = expected;
    if number != 0 {
        equal("bytes written with a refusal", (written, expected_out == out), (0, true))?;
        return Ok(Err(number));
    }
    equal("the note's length", written as usize, layout::NOTE)?;
    equal("out after the note", &expected_out[layout::NOTE..], &out[layout::NOTE..])?;
    expected_out.truncate(layout::NOTE);
    Ok(Ok(expected_out))
}

/// The item's parts of a note, at the places that its widths add up to.
fn parts_stand(record: &Record, note: &[u8]) -> Result<(), String> {
    let Record { n, seat, round, own, confirmed, notices, first, sent, guilty, kept } = *record;
    let head = [0x20, n as u8, seat as u8, (round >> 8) as u8, round as u8];
    equal("command, n, seat and round", &note[..5], &head)?;
    let set = |flag: bool, worth: u8| if flag { worth } else { 0 };
    let flags = set(own.submitted, 1) + set(confirmed, 2) + set(sent, 4) + [0, 8, 16][notices.heard as usize];
    equal("the flags", note[5], flags)?;
    for (at, value) in [(6, own.value), (54, notices.value), (86, first.value)] {
        equal(&format!("the value at {at}"), &note[at..at + 32], &value)?;
    }
    for (at, mask) in [(38, own.collected), (42, kept), (46, first.seats), (50, guilty)] {
        equal(&format!("the mask at {at}"), &note[at..at + 4], &mask.to_be_bytes())?;
    }
    Ok(())
}

/// Bytes given to both as a note. "A refused note gives a record of zeros."
pub fn read(subject: &dyn Notes, bytes: &[u8], rng: &mut Rng) -> Result<Opened, String> {
    let expected = note::read_note(bytes);
    let lent = Guarded::new(bytes, rng);
    equal("the note read", subject.read_note(lent.lent()), expected)?;
    lent.expect("note", bytes)?;
    if expected.number != 0 {
        equal("the record of a refused note", expected.record, Record::default())?;
    }
    Ok(expected)
}

/// The note of a record. "A note read back is the record it came from". An impossible record has none.
pub fn noted(subject: &dyn Notes, record: &Record, rng: &mut Rng) -> Result<Option<Vec<u8>>, String> {
    let spare = *rng.pick(&[0, 0, 1, 82]);
    let out = rng.bytes(layout::NOTE + spare);
    match written(subject, record, &out, rng)? {
        Ok(note) => {
            equal("the note read back", read(subject, &note, rng)?, Opened { number: 0, record: *record })?;
            Ok(Some(note))
        }
        Err(number) => {
            equal("the refusal of a record", (number, causes(record).is_empty()), (4, false))?;
            Ok(None)
        }
    }
}

/// The number answered to bytes. "only notes that the writer could have written are taken": what is read, written again, is the
/// bytes.
fn answered(subject: &dyn Notes, bytes: &[u8], rng: &mut Rng) -> Result<u32, String> {
    let Opened { number, record } = read(subject, bytes, rng)?;
    if number == 0 {
        let again = noted(subject, &record, rng)?;
        equal("the note written again", again.as_deref(), Some(bytes))?;
    }
    Ok(number)
}

pub fn battery(subject: &dyn Notes) {
    let mut rng = Rng::new(seed(), "notes");
    let sizes: Vec<u32> = if long() { (1..=32).collect() } else { vec![1, 2, 3, 4, 5, 7, 10, 31, 32] };
    let (mut possible, mut wrong) = (Vec::new(), Vec::new());
    for n in sizes {
        let fleet = Fleet { n, round: *rng.pick(&rounds()) };
        possible.push(opened(fleet, rng.below(n as usize) as u32));
        possible.extend((0..sized(60)).map(|_| any_possible(fleet, &layouts(), &mut rng)));
        wrong.extend(impossible(fleet, &mut rng).into_iter().map(|(_, record)| record));
        wrong.extend(guilty_strangers(fleet, &mut rng));
    }
    let mut tallies = run("notes of records", &possible, |record, rng| {
        let mut notes = Compared { subject, tally: Tally::new() };
        notes.possible(record, rng).map_err(|difference| format!("{record:?}: {difference}"))?;
        Ok(notes.tally)
    });
    tallies.extend(run("notes of impossible records", &wrong, |record, rng| {
        let mut notes = Compared { subject, tally: Tally::new() };
        notes.impossible(record, rng).map_err(|difference| format!("{record:?}: {difference}"))?;
        Ok(notes.tally)
    }));
    let turned = PARTS.iter().flat_map(|(part, _, numbers)| numbers.iter().map(move |number| turned(part, *number)));
    // A note has no room for a fourth case of notices heard.
    let forged = wrong.iter().flat_map(causes).filter(|cause| *cause != "notices heard are no case").map(forged);
    covered("notes", tallies, ALL.map(String::from).into_iter().chain(turned).chain(forged));
}

fn forged(cause: &str) -> String {
    format!("forged: {cause}")
}

fn turned(part: &str, number: u32) -> String {
    format!("a bit of {part} turned: {number}")
}

struct Compared<'a> {
    subject: &'a dyn Notes,
    tally: Tally,
}

impl Compared<'_> {
    fn count(&mut self, what: impl Into<String>) {
        count(&mut self.tally, what);
    }

    fn possible(&mut self, record: &Record, rng: &mut Rng) -> Result<(), String> {
        let note = noted(self.subject, record, rng)?.ok_or("a possible record has no note")?;
        parts_stand(record, &note)?;
        let Record { n, seat, round, own, confirmed, notices, first, sent, guilty, kept } = *record;
        for (what, reached) in [
            ("opened", *record == opened(Fleet { n, round }, seat)),
            ("seats kept", kept != 0),
            ("submitted", own.submitted),
            ("confirmed", confirmed),
            ("FULL sent", sent),
            ("one value heard", notices.heard == 1),
            ("one value heard, of zeros", notices.heard == 1 && notices.value == [0; 32]),
            ("two values heard", notices.heard == 2),
            ("a first certificate", first.seats != 0),
            ("guilty seats", guilty != 0),
            ("of 32 seats", n == 32),
        ] {
            if reached {
                self.count(format!("note: {what}"));
            }
        }
        self.lengths(record, &note, rng)?;
        self.bits(&note, rng)?;
        self.flags(&note, rng)
    }

    /// "That is 118 bytes, and a shorter out buffer is refused as 7." A note of another length is refused as 17.
    fn lengths(&mut self, record: &Record, note: &[u8], rng: &mut Rng) -> Result<(), String> {
        for length in LENGTHS {
            let out = rng.bytes(length);
            let (what, expected) = match length {
                0..=117 => ("too short", Err(7)),
                118 => ("as long as a note", Ok(note.to_vec())),
                _ => ("longer", Ok(note.to_vec())),
            };
            equal(&format!("out of {length} bytes"), written(self.subject, record, &out, rng)?, expected)?;
            self.count(format!("out: {what}"));
            let (what, number) = match length {
                0..=117 => ("cut short", 17),
                118 => ("right", 0),
                _ => ("lengthened", 17),
            };
            let number_read = answered(self.subject, &resized(note, length, rng), rng)?;
            equal(&format!("a note of {length} bytes"), number_read, number)?;
            self.count(format!("length: {what}"));
            let mut random = rng.bytes(length);
            if rng.one_in(2) {
                noise::set(&mut random, 0, &note[..NOTE_FLAGS_AT]);
            }
            let number_read = answered(self.subject, &random, rng)?;
            equal(&format!("{length} random bytes refused"), number_read != 0, true)?;
            self.count("length: random bytes");
        }
        Ok(())
    }

    /// Each bit turned.
    fn bits(&mut self, note: &[u8], rng: &mut Rng) -> Result<(), String> {
        for bit in 0..8 * note.len() {
            let at = bit / 8;
            let mut damaged = note.to_vec();
            damaged[at] ^= 1 << (bit % 8);
            let number = answered(self.subject, &damaged, rng)?;
            let (part, _, numbers) =
                PARTS.iter().rfind(|(_, first, _)| *first <= at).expect("the command is the first");
            let listed = numbers.contains(&number) || (*part, note[NOTE_N_AT], number) == (FIRST, 1, 0);
            equal(&format!("{} among {numbers:?}", turned(part, number)), listed, true)?;
            self.count(turned(part, number));
        }
        Ok(())
    }

    /// Each byte of flags. "both heard flags or an unknown flag are set" is 17, whatever the record.
    fn flags(&mut self, note: &[u8], rng: &mut Rng) -> Result<(), String> {
        for flags in 0..=255 {
            let mut changed = note.to_vec();
            changed[NOTE_FLAGS_AT] = flags;
            let number = answered(self.subject, &changed, rng)?;
            let what = match (flags & (32 | 64 | 128), flags & (8 | 16)) {
                (0, 24) => "both heard",
                (0, _) if number == 0 => "taken",
                (0, _) => "of another record, impossible",
                _ => "unknown",
            };
            equal(what, number == 17, ["both heard", "unknown"].contains(&what))?;
            self.count(format!("flags: {what}"));
        }
        Ok(())
    }

    /// Refused by 4 whatever the length of `out`. Its note, as no writer writes it, is refused by 4, and by 17 where that holds
    /// too.
    fn impossible(&mut self, record: &Record, rng: &mut Rng) -> Result<(), String> {
        for length in [0, layout::NOTE - 1, layout::NOTE, layout::NOTE + 1] {
            let out = rng.bytes(length);
            let what = format!("an impossible record, out of {length} bytes");
            equal(&what, written(self.subject, record, &out, rng)?, Err(4))?;
        }
        if !has_room(record) {
            return Ok(());
        }
        let note = note::render(record);
        equal("a forged note", answered(self.subject, &note, rng)?, 4)?;
        let with = |at: usize, byte: u8| {
            let mut changed = note.clone();
            changed[at] = byte;
            changed
        };
        let flags = note[NOTE_FLAGS_AT];
        for wrong in [
            with(NOTE_FLAGS_AT, flags | ONE_HEARD | TWO_HEARD),
            with(NOTE_FLAGS_AT, flags | *rng.pick(&[32, 64, 128])),
            with(0, *rng.pick(&[0, 0x01, 0x21, 0xa0])),
            note[..layout::NOTE - 1].to_vec(),
            resized(&note, layout::NOTE + 1, rng),
        ] {
            equal("a forged note that is none", answered(self.subject, &wrong, rng)?, 17)?;
        }
        causes(record).into_iter().for_each(|cause| self.count(forged(cause)));
        Ok(())
    }
}

/// Whether a note has room for the record's numbers.
fn has_room(record: &Record) -> bool {
    record.n < 256 && record.seat < 256 && record.round < 65_536 && record.notices.heard <= 2
}

/// A record with random bytes, and an `out` of any length.
pub fn noise_write(subject: &dyn Notes, rng: &mut Rng) -> Result<u32, String> {
    let fleet = Fleet { n: 1 + rng.below(3) as u32, round: noise::number(1024, rng) };
    let record = if rng.one_in(2) { any_record(rng) } else { any_possible(fleet, &layouts(), rng) };
    let out = noise::bytes(layout::NOTE, rng);
    Ok(written(subject, &record, &out, rng)?.err().unwrap_or(0))
}

/// Random bytes as a note, or zeros after the flags.
pub fn noise_read(subject: &dyn Notes, rng: &mut Rng) -> Result<u32, String> {
    let mut bytes = noise::bytes(layout::NOTE, rng);
    if !rng.one_in(8) {
        let (n, seat, round) = (noise::number(33, rng), noise::number(3, rng), noise::number(1024, rng));
        noise::set(&mut bytes, 0, &[note::NOTE, n as u8, seat as u8, (round >> 8) as u8, round as u8]);
    }
    if rng.one_in(2) {
        noise::set(&mut bytes, NOTE_FLAGS_AT, &[0; layout::NOTE]);
    }
    answered(subject, &bytes, rng)
}
