//! The commands on the air of document 01 and of document 02's item 3, written and read. None from a reader is refusal 9: a wrong
//! command, length, count or entry command.

use super::layout::{SIGNATURE, VALUE};
use super::quorum;

pub const SUBMIT: u8 = 0x01;
pub const NOTICE: u8 = 0x02;
pub const FULL: u8 = 0x03;
pub const FULL_ENTRY: u8 = 0x04;
/// "The old 0x05 is still accepted by the check."
pub const OLD_EVIDENCE: u8 = 0x05;
pub const OLD_EVIDENCE_ENTRY: u8 = 0x06;
pub const EVIDENCE: u8 = 0x07;
pub const EVIDENCE_ENTRY: u8 = 0x08;

/// Compared byte by byte from the first, as Rust compares arrays.
pub type Value = [u8; VALUE];

#[derive(Clone, Debug, PartialEq, Eq)]
pub struct Submit {
    pub round: u32,
    pub seat: u32,
    pub value: Value,
    pub signature: Vec<u8>,
}

#[derive(Clone, Debug, PartialEq, Eq)]
pub struct Notice {
    pub round: u32,
    pub seat: u32,
    pub value: Value,
}

#[derive(Clone, Debug, PartialEq, Eq)]
pub struct Full {
    pub round: u32,
    pub sender: u32,
    pub value: Value,
    pub entries: Vec<FullEntry>,
}

#[derive(Clone, Debug, PartialEq, Eq)]
pub struct FullEntry {
    pub seat: u32,
    pub signature: Vec<u8>,
}

/// Evidence of either command: in the old one all entries have the same values.
#[derive(Clone, Debug, PartialEq, Eq)]
pub struct Evidence {
    pub round: u32,
    pub entries: Vec<EvidenceEntry>,
}

/// "each seat has its own pair"
#[derive(Clone, Debug, PartialEq, Eq)]
pub struct EvidenceEntry {
    pub seat: u32,
    pub lower: Value,
    pub higher: Value,
    pub over_lower: Vec<u8>,
    pub over_higher: Vec<u8>,
}

/// What the table's conditions look at in a message.
pub struct Told<'a> {
    pub round: u32,
    pub sender: Option<u32>,
    /// The seats of its entries.
    pub entries: Vec<u32>,
    pub signatures: Vec<Signed<'a>>,
}

/// A seat, a value, and the seat's signature over it.
pub type Signed<'a> = (u32, &'a Value, &'a [u8]);

/// The bytes that a seat signs.
pub fn signed_bytes(round: u32, seat: u32, value: &Value) -> Vec<u8> {
    [&[0x01], two_bytes(round).as_slice(), &[one_byte(seat)], value].concat()
}

pub fn two_bytes(number: u32) -> [u8; 2] {
    u16::try_from(number).expect("a number of two bytes").to_be_bytes()
}

pub fn one_byte(number: u32) -> u8 {
    u8::try_from(number).expect("a number of one byte")
}

fn count(entries: usize) -> u8 {
    one_byte(entries as u32)
}

impl Submit {
    pub fn write(&self) -> Vec<u8> {
        [&[SUBMIT], two_bytes(self.round).as_slice(), &[one_byte(self.seat)], &self.value, &self.signature].concat()
    }

    pub fn read(message: &[u8]) -> Option<Submit> {
        whole(message, Submit::first)
    }

    fn first(rest: &mut Rest) -> Option<Submit> {
        rest.command(SUBMIT)?;
        Some(Submit {
            round: rest.number(2)?,
            seat: rest.number(1)?,
            value: rest.value()?,
            signature: rest.signature()?,
        })
    }

    pub fn told(&self) -> Told<'_> {
        let signatures = vec![(self.seat, &self.value, self.signature.as_slice())];
        Told { round: self.round, sender: Some(self.seat), entries: Vec::new(), signatures }
    }
}

impl Notice {
    pub fn write(&self) -> Vec<u8> {
        [&[NOTICE], two_bytes(self.round).as_slice(), &[one_byte(self.seat)], &self.value].concat()
    }

    pub fn read(message: &[u8]) -> Option<Notice> {
        whole(message, Notice::first)
    }

    fn first(rest: &mut Rest) -> Option<Notice> {
        rest.command(NOTICE)?;
        Some(Notice { round: rest.number(2)?, seat: rest.number(1)?, value: rest.value()? })
    }

    pub fn told(&self) -> Told<'_> {
        Told { round: self.round, sender: Some(self.seat), entries: Vec::new(), signatures: Vec::new() }
    }
}

impl Full {
    pub fn write(&self) -> Vec<u8> {
        let mut bytes = [&[FULL], two_bytes(self.round).as_slice(), &[one_byte(self.sender)], &self.value].concat();
        bytes.push(count(self.entries.len()));
        for entry in &self.entries {
            bytes.extend([FULL_ENTRY, one_byte(entry.seat)]);
            bytes.extend(&entry.signature);
        }
        bytes
    }

    /// The count is always k.
    pub fn read(message: &[u8], k: u32) -> Option<Full> {
        whole(message, |rest| Full::first(rest, k))
    }

    fn first(rest: &mut Rest, k: u32) -> Option<Full> {
        rest.command(FULL)?;
        let (round, sender, value) = (rest.number(2)?, rest.number(1)?, rest.value()?);
        if rest.number(1)? != k {
            return None;
        }
        let mut entries = Vec::new();
        for _ in 0..k {
            rest.command(FULL_ENTRY)?;
            entries.push(FullEntry { seat: rest.number(1)?, signature: rest.signature()? });
        }
        Some(Full { round, sender, value, entries })
    }

    pub fn told(&self) -> Told<'_> {
        let entries = self.entries.iter();
        let signatures = entries.map(|entry| (entry.seat, &self.value, entry.signature.as_slice())).collect();
        Told { round: self.round, sender: Some(self.sender), entries: self.seats(), signatures }
    }

    pub fn seats(&self) -> Vec<u32> {
        self.entries.iter().map(|entry| entry.seat).collect()
    }
}

impl Evidence {
    pub fn write(&self) -> Vec<u8> {
        let mut bytes = [&[EVIDENCE], two_bytes(self.round).as_slice(), &[count(self.entries.len())]].concat();
        for entry in &self.entries {
            bytes.extend([EVIDENCE_ENTRY, one_byte(entry.seat)]);
            bytes.extend([entry.lower, entry.higher].concat());
            bytes.extend([&entry.over_lower[..], &entry.over_higher].concat());
        }
        bytes
    }

    /// The old command: the values of the first entry stand for all.
    pub fn write_old(&self) -> Vec<u8> {
        let EvidenceEntry { lower, higher, .. } = &self.entries[0];
        let mut bytes = [&[OLD_EVIDENCE], two_bytes(self.round).as_slice(), lower, higher].concat();
        bytes.push(count(self.entries.len()));
        for entry in &self.entries {
            bytes.extend([OLD_EVIDENCE_ENTRY, one_byte(entry.seat)]);
            bytes.extend([&entry.over_lower[..], &entry.over_higher].concat());
        }
        bytes
    }

    /// The count is 1 to n.
    pub fn read(message: &[u8], n: u32) -> Option<Evidence> {
        whole(message, |rest| Evidence::first(rest, n))
    }

    fn first(rest: &mut Rest, n: u32) -> Option<Evidence> {
        let old = match rest.take(1)? {
            [OLD_EVIDENCE] => true,
            [EVIDENCE] => false,
            _ => return None,
        };
        let round = rest.number(2)?;
        let once = if old { Some((rest.value()?, rest.value()?)) } else { None };
        let count = rest.number(1)?;
        if count < 1 || count > n {
            return None;
        }
        let mut entries = Vec::new();
        for _ in 0..count {
            rest.command(if old { OLD_EVIDENCE_ENTRY } else { EVIDENCE_ENTRY })?;
            let seat = rest.number(1)?;
            let (lower, higher) = match once {
                Some(values) => values,
                None => (rest.value()?, rest.value()?),
            };
            let (over_lower, over_higher) = (rest.signature()?, rest.signature()?);
            entries.push(EvidenceEntry { seat, lower, higher, over_lower, over_higher });
        }
        Some(Evidence { round, entries })
    }

    pub fn told(&self) -> Told<'_> {
        let mut signatures = Vec::new();
        for entry in &self.entries {
            signatures.push((entry.seat, &entry.lower, entry.over_lower.as_slice()));
            signatures.push((entry.seat, &entry.higher, entry.over_higher.as_slice()));
        }
        Told { round: self.round, sender: None, entries: self.seats(), signatures }
    }

    pub fn seats(&self) -> Vec<u32> {
        self.entries.iter().map(|entry| entry.seat).collect()
    }
}

/// The length of the first message in a buffer; 0 where no message of a fleet of n seats stands there whole.
pub fn message_length(n: u32, bytes: &[u8]) -> u32 {
    if !(1..=32).contains(&n) {
        return 0;
    }
    let mut rest = Rest(bytes);
    let first = match bytes.first() {
        Some(&SUBMIT) => Submit::first(&mut rest).map(drop),
        Some(&NOTICE) => Notice::first(&mut rest).map(drop),
        Some(&FULL) => Full::first(&mut rest, quorum::k(n)).map(drop),
        Some(&OLD_EVIDENCE | &EVIDENCE) => Evidence::first(&mut rest, n).map(drop),
        _ => None,
    };
    first.map_or(0, |()| (bytes.len() - rest.0.len()) as u32)
}

/// The message that is read first, where nothing follows it.
fn whole<M>(message: &[u8], first: impl FnOnce(&mut Rest) -> Option<M>) -> Option<M> {
    let mut rest = Rest(message);
    let read = first(&mut rest)?;
    rest.0.is_empty().then_some(read)
}

/// The bytes left to read.
pub struct Rest<'a>(pub &'a [u8]);

impl Rest<'_> {
    fn take(&mut self, length: usize) -> Option<&[u8]> {
        let (taken, rest) = self.0.split_at_checked(length)?;
        self.0 = rest;
        Some(taken)
    }

    pub fn command(&mut self, command: u8) -> Option<()> {
        (self.take(1)? == [command]).then_some(())
    }

    pub fn number(&mut self, width: usize) -> Option<u32> {
        Some(self.take(width)?.iter().fold(0, |number, &byte| 256 * number + u32::from(byte)))
    }

    pub fn value(&mut self) -> Option<Value> {
        Some(self.take(VALUE)?.try_into().expect("a value's bytes"))
    }

    fn signature(&mut self) -> Option<Vec<u8>> {
        Some(self.take(SIGNATURE)?.to_vec())
    }
}

#[cfg(test)]
mod tests {
    use super::*;
    use crate::reference::layout::{
        self, ENTRY_HIGHER_AT, ENTRY_LOWER_AT, ENTRY_SEAT_AT, ENTRY_SIGNATURES_AT, ENTRY_SIGNATURE_AT,
        EVIDENCE_COUNT_AT, EVIDENCE_ENTRIES_AT, FULL_COUNT_AT, FULL_ENTRIES_AT, HIGHER_AT, LOWER_AT,
        OLD_EVIDENCE_COUNT_AT, OLD_EVIDENCE_ENTRIES_AT, ROUND_AT, SEAT_AT, VALUE_AT,
    };

    fn signature(byte: u8) -> Vec<u8> {
        vec![byte; SIGNATURE]
    }

    fn full(k: u32) -> Full {
        let entries = (0..k).map(|seat| FullEntry { seat, signature: signature(seat as u8) }).collect();
        Full { round: 0x0102, sender: 3, value: [9; 32], entries }
    }

    /// The pair of the seat with the bytes of its values.
    fn pair(seat: u32, lower: u8, higher: u8) -> EvidenceEntry {
        let (over_lower, over_higher) = (signature(seat as u8), signature(!seat as u8));
        EvidenceEntry { seat, lower: [lower; VALUE], higher: [higher; VALUE], over_lower, over_higher }
    }

    /// Each seat with values of its own.
    fn evidence(count: u32) -> Evidence {
        Evidence { round: 0x0102, entries: (0..count).map(|seat| pair(seat, seat as u8, 100 + seat as u8)).collect() }
    }

    fn old_evidence(count: u32) -> Evidence {
        Evidence { round: 0x0102, entries: (0..count).map(|seat| pair(seat, 1, 2)).collect() }
    }

    /// "Messages written are read back the same", in the lengths of the layout.
    #[test]
    fn what_is_written_is_read_back() {
        let submit = Submit { round: 1023, seat: 31, value: [7; 32], signature: signature(8) };
        assert_eq!((submit.write().len(), Submit::read(&submit.write())), (layout::SUBMIT, Some(submit)));
        let notice = Notice { round: 65_535, seat: 255, value: [7; 32] };
        assert_eq!((notice.write().len(), Notice::read(&notice.write())), (layout::NOTICE, Some(notice)));
        for k in 1..=22 {
            let bytes = full(k).write();
            assert_eq!((bytes.len(), Full::read(&bytes, k)), (layout::full(k), Some(full(k))));
            assert_eq!((Full::read(&bytes, k + 1), Full::read(&bytes, k - 1)), (None, None));
        }
        for count in 1..=32 {
            for (length, bytes, right) in [
                (layout::evidence(count), evidence(count).write(), evidence(count)),
                (layout::old_evidence(count), old_evidence(count).write_old(), old_evidence(count)),
            ] {
                assert_eq!((bytes.len(), Evidence::read(&bytes, 32)), (length, Some(right)));
                assert_eq!(Evidence::read(&bytes, count - 1), None);
            }
        }
        assert_eq!(Evidence::read(&evidence(0).write(), 32), None);
    }

    /// The operands stand in the places of the layout.
    #[test]
    fn operands_stand_in_their_places() {
        let bytes = full(2).write();
        assert_eq!((bytes[0], &bytes[ROUND_AT..SEAT_AT], bytes[SEAT_AT]), (0x03, [0x01, 0x02].as_slice(), 3));
        assert_eq!((&bytes[VALUE_AT..FULL_COUNT_AT], bytes[FULL_COUNT_AT]), ([9; VALUE].as_slice(), 2));
        for (seat, entry) in (0..2).zip(bytes[FULL_ENTRIES_AT..].chunks(layout::FULL_ENTRY)) {
            assert_eq!((entry[0], entry[ENTRY_SEAT_AT]), (0x04, seat));
            assert_eq!(entry[ENTRY_SIGNATURE_AT..], signature(seat));
        }
        let bytes = evidence(2).write();
        assert_eq!((bytes[0], &bytes[ROUND_AT..EVIDENCE_COUNT_AT]), (0x07, [0x01, 0x02].as_slice()));
        assert_eq!(bytes[EVIDENCE_COUNT_AT], 2);
        for (seat, entry) in (0..2).zip(bytes[EVIDENCE_ENTRIES_AT..].chunks(layout::EVIDENCE_ENTRY)) {
            assert_eq!((entry[0], entry[ENTRY_SEAT_AT]), (0x08, seat));
            assert_eq!(entry[ENTRY_LOWER_AT..ENTRY_HIGHER_AT], [seat; VALUE]);
            assert_eq!(entry[ENTRY_HIGHER_AT..ENTRY_SIGNATURES_AT], [100 + seat; VALUE]);
            assert_eq!(entry[ENTRY_SIGNATURES_AT..], [signature(seat), signature(!seat)].concat());
        }
        let bytes = old_evidence(2).write_old();
        assert_eq!((bytes[0], &bytes[ROUND_AT..LOWER_AT]), (0x05, [0x01, 0x02].as_slice()));
        assert_eq!(bytes[LOWER_AT..HIGHER_AT], [1; VALUE]);
        assert_eq!(bytes[HIGHER_AT..OLD_EVIDENCE_COUNT_AT], [2; VALUE]);
        assert_eq!(bytes[OLD_EVIDENCE_COUNT_AT], 2);
        for (seat, entry) in (0..2).zip(bytes[OLD_EVIDENCE_ENTRIES_AT..].chunks(layout::OLD_EVIDENCE_ENTRY)) {
            assert_eq!((entry[0], entry[ENTRY_SEAT_AT]), (0x06, seat));
            assert_eq!(entry[ENTRY_SIGNATURE_AT..], [signature(seat), signature(!seat)].concat());
        }
        let signed = signed_bytes(0x0102, 3, &[9; VALUE]);
        assert_eq!(signed, [&[0x01, 0x01, 0x02, 3], [9; VALUE].as_slice()].concat());
        assert_eq!(signed.len(), layout::SIGNED);
    }

    #[test]
    fn other_lengths_are_garbled() {
        for whole in [full(3).write(), evidence(3).write(), old_evidence(3).write_old()] {
            for length in 0..whole.len() {
                assert_eq!(Full::read(&whole[..length], 3), None, "{length} bytes");
                assert_eq!(Evidence::read(&whole[..length], 3), None, "{length} bytes");
            }
            let longer = [whole.as_slice(), &[0]].concat();
            assert_eq!((Full::read(&longer, 3), Evidence::read(&longer, 3)), (None, None));
        }
    }

    /// Packs of count 1 have one length: neither is read as the other.
    #[test]
    fn the_command_tells_two_packs_of_one_entry_apart() {
        let (new, old) = (evidence(1).write(), old_evidence(1).write_old());
        assert_eq!((new.len(), old.len()), (2974, 2974));
        for (right, other) in [(&new, &old), (&old, &new)] {
            let mut bytes = right.clone();
            bytes[0] = other[0];
            assert_eq!(Evidence::read(&bytes, 1), None);
        }
    }
}
