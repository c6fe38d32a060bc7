//! Document 02's item 2: the record written out as a note, and read back.

use super::calls::answer;
use super::impossible::impossible;
use super::layout::{self, NOTE_FLAGS_AT};
use super::messages::{one_byte, two_bytes, Rest};
use super::record::{First, Notices, Opened, Own, Record, Written};
use super::refusals::{pass, row};

pub const NOTE: u8 = 0x20;

pub const SUBMITTED: u8 = 1;
pub const CONFIRMED: u8 = 2;
pub const SENT: u8 = 4;
pub const ONE_HEARD: u8 = 8;
pub const TWO_HEARD: u8 = 16;
const KNOWN: u8 = SUBMITTED | CONFIRMED | SENT | ONE_HEARD | TWO_HEARD;

pub fn write_note(record: Record, out: &mut [u8]) -> Written {
    let passed = pass([row(4, || impossible(&record)), row(7, || out.len() < layout::NOTE)]);
    answer(passed, out, || render(&record))
}

/// "A refused note gives a record of zeros."
pub fn read_note(note: &[u8]) -> Opened {
    match pass([row(17, || is_no_note(note)), row(4, || impossible(&read(note)))]) {
        Ok(()) => Opened { number: 0, record: read(note) },
        Err(number) => Opened { number, record: Record::default() },
    }
}

/// "when the length isn't 118, the command isn't 0x20, both heard flags or an unknown flag are set"
fn is_no_note(note: &[u8]) -> bool {
    if note.len() != layout::NOTE || note[0] != NOTE {
        return true;
    }
    let flags = note[NOTE_FLAGS_AT];
    flags & ONE_HEARD != 0 && flags & TWO_HEARD != 0 || flags & !KNOWN != 0
}

/// The note of a record whose numbers have room in it, possible or not.
pub fn render(record: &Record) -> Vec<u8> {
    let Record { n, seat, round, own, confirmed, notices, first, sent, guilty, kept } = *record;
    let flag = |set: bool, flag: u8| if set { flag } else { 0 };
    let flags = flag(own.submitted, SUBMITTED)
        | flag(confirmed, CONFIRMED)
        | flag(sent, SENT)
        | flag(notices.heard == 1, ONE_HEARD)
        | flag(notices.heard == 2, TWO_HEARD);
    let mut bytes = vec![NOTE, one_byte(n), one_byte(seat)];
    bytes.extend(two_bytes(round));
    bytes.push(flags);
    bytes.extend(own.value);
    for mask in [own.collected, kept, first.seats, guilty] {
        bytes.extend(mask.to_be_bytes());
    }
    bytes.extend(notices.value);
    bytes.extend(first.value);
    bytes
}

/// The record that a note of the right form tells of.
fn read(note: &[u8]) -> Record {
    fields(&mut Rest(note)).expect("another length is refused")
}

fn fields(rest: &mut Rest) -> Option<Record> {
    rest.command(NOTE)?;
    let (n, seat, round) = (rest.number(1)?, rest.number(1)?, rest.number(2)?);
    let flags = rest.number(1)? as u8;
    let own_value = rest.value()?;
    let (collected, kept, first_seats, guilty) = (rest.number(4)?, rest.number(4)?, rest.number(4)?, rest.number(4)?);
    let (heard_value, first_value) = (rest.value()?, rest.value()?);
    let heard = match (flags & ONE_HEARD != 0, flags & TWO_HEARD != 0) {
        (false, false) => 0,
        (true, _) => 1,
        (false, true) => 2,
    };
    Some(Record {
        n,
        seat,
        round,
        own: Own { submitted: flags & SUBMITTED != 0, value: own_value, collected },
        confirmed: flags & CONFIRMED != 0,
        notices: Notices { heard, value: heard_value },
        first: First { value: first_value, seats: first_seats },
        sent: flags & SENT != 0,
        guilty,
        kept,
    })
}

#[cfg(test)]
mod tests {
    use super::*;

    /// A unit at seat 2 of 7 in round 0x0103, with k = 5 seats collected.
    fn confirmed() -> Record {
        Record {
            n: 7,
            seat: 2,
            round: 0x0103,
            own: Own { submitted: true, value: [0xaa; 32], collected: 0b011_1101 },
            confirmed: true,
            notices: Notices { heard: 2, value: [0xbb; 32] },
            first: First { value: [0xcc; 32], seats: 0b101_0111 },
            sent: true,
            guilty: 0b001_0101,
            kept: 0,
        }
    }

    /// The item's parts one after the other, in its widths and its flags.
    #[test]
    fn parts_stand_as_the_item_lists_them() {
        let parts: [&[u8]; 10] = [
            &[0x20, 7, 2, 0x01, 0x03],
            &[1 + 2 + 4 + 16],
            &[0xaa; 32],
            &[0, 0, 0, 0b011_1101],
            &[0; 4],
            &[0, 0, 0, 0b101_0111],
            &[0, 0, 0, 0b001_0101],
            &[0xbb; 32],
            &[0xcc; 32],
            &[0xee; 3],
        ];
        let mut out = [0xee; 121];
        assert_eq!(write_note(confirmed(), &mut out), Written { number: 0, written: 118 });
        assert_eq!(out.as_slice(), parts.concat());
        let early = Record {
            n: 32,
            seat: 31,
            round: 1023,
            notices: Notices { heard: 1, value: [0; 32] },
            kept: 0x8000_0102,
            ..Record::default()
        };
        let parts: [&[u8]; 5] =
            [&[0x20, 32, 31, 0x03, 0xff], &[8], &[0; 32 + 4], &[0x80, 0x00, 0x01, 0x02], &[0; 4 + 4 + 32 + 32]];
        let mut out = [0xee; 118];
        assert_eq!(write_note(early, &mut out), Written { number: 0, written: 118 });
        assert_eq!(out.as_slice(), parts.concat());
        for record in [confirmed(), early] {
            assert_eq!(read_note(&render(&record)), Opened { number: 0, record });
        }
    }

    #[test]
    fn refusals_come_in_their_order() {
        let impossible = Record { sent: false, first: First::default(), ..confirmed() };
        for (record, length, number) in [(impossible, 118, 4), (impossible, 0, 4), (confirmed(), 117, 7)] {
            let mut out = vec![0xee; length];
            assert_eq!(write_note(record, &mut out), Written { number, written: 0 });
            assert_eq!(out, vec![0xee; length]);
        }
        let (right, wrong) = (render(&confirmed()), render(&impossible));
        let with = |note: &[u8], at: usize, byte: u8| [&note[..at], &[byte], &note[at + 1..]].concat();
        let longer = [right.as_slice(), &[0]].concat();
        for (note, number) in [
            (wrong.clone(), 4),
            (wrong[..117].to_vec(), 17),
            (with(&wrong, 0, 0x21), 17),
            (with(&wrong, 5, wrong[5] | 8), 17),
            (with(&wrong, 5, wrong[5] | 32), 17),
            (with(&right, 5, right[5] | 128), 17),
            (Vec::new(), 17),
            (longer, 17),
        ] {
            assert_eq!(read_note(&note), Opened { number, record: Record::default() });
        }
    }
}
