//! The documents' layout in bytes: the widths of the parts, and the lengths and places that follow from them. A place is named
//! by what stands there; `count` is a number of entries.

use std::ops::Range;

use super::lms::Types;
use super::quorum::k;

const COMMAND: usize = 1;
const ROUND: usize = 2;
const SEAT: usize = 1;
const COUNT: usize = 1;
const FLAGS: usize = 1;
pub const MASK: usize = 4;
pub const VALUE: usize = 32;
/// A signature of the engine's types.
pub const SIGNATURE: usize = Types::ENGINE.signature();

// Commands start with the command and the round.
pub const ROUND_AT: usize = COMMAND;
const AFTER_ROUND: usize = ROUND_AT + ROUND;

// SUBMIT, NOTICE and FULL: seat and value. So far go the bytes that a seat signs.
pub const SEAT_AT: usize = AFTER_ROUND;
pub const VALUE_AT: usize = SEAT_AT + SEAT;
pub const SIGNED: usize = VALUE_AT + VALUE;
pub const NOTICE: usize = SIGNED;
pub const SIGNATURE_AT: usize = SIGNED;
pub const SUBMIT: usize = SIGNATURE_AT + SIGNATURE;

// FULL: besides, the count and the entries.
pub const FULL_COUNT_AT: usize = SIGNED;
pub const FULL_ENTRIES_AT: usize = FULL_COUNT_AT + COUNT;

// EVIDENCE: the count and the entries.
pub const EVIDENCE_COUNT_AT: usize = AFTER_ROUND;
pub const EVIDENCE_ENTRIES_AT: usize = EVIDENCE_COUNT_AT + COUNT;

// The old EVIDENCE: the two values, the count and the entries.
pub const LOWER_AT: usize = AFTER_ROUND;
pub const HIGHER_AT: usize = LOWER_AT + VALUE;
pub const OLD_EVIDENCE_COUNT_AT: usize = HIGHER_AT + VALUE;
pub const OLD_EVIDENCE_ENTRIES_AT: usize = OLD_EVIDENCE_COUNT_AT + COUNT;

// An entry of any: its command and its seat. In a FULL and in the old EVIDENCE one signature or two follow, in an EVIDENCE two values
// and two signatures.
pub const ENTRY_SEAT_AT: usize = COMMAND;
pub const ENTRY_SIGNATURE_AT: usize = ENTRY_SEAT_AT + SEAT;
pub const FULL_ENTRY: usize = ENTRY_SIGNATURE_AT + SIGNATURE;
pub const OLD_EVIDENCE_ENTRY: usize = ENTRY_SIGNATURE_AT + 2 * SIGNATURE;
pub const ENTRY_LOWER_AT: usize = ENTRY_SEAT_AT + SEAT;
pub const ENTRY_HIGHER_AT: usize = ENTRY_LOWER_AT + VALUE;
pub const ENTRY_SIGNATURES_AT: usize = ENTRY_HIGHER_AT + VALUE;
pub const EVIDENCE_ENTRY: usize = ENTRY_SIGNATURES_AT + 2 * SIGNATURE;

// The note: n, seat, round and flags after the command; the own value, four masks, and two values.
pub const NOTE_N_AT: usize = COMMAND;
pub const NOTE_SEAT_AT: usize = NOTE_N_AT + COUNT;
pub const NOTE_ROUND_AT: usize = NOTE_SEAT_AT + SEAT;
pub const NOTE_FLAGS_AT: usize = NOTE_ROUND_AT + ROUND;
pub const NOTE_OWN_AT: usize = NOTE_FLAGS_AT + FLAGS;
pub const NOTE_MASKS_AT: usize = NOTE_OWN_AT + VALUE;
pub const NOTE_HEARD_AT: usize = NOTE_MASKS_AT + 4 * MASK;
pub const NOTE_FIRST_AT: usize = NOTE_HEARD_AT + VALUE;
pub const NOTE: usize = NOTE_FIRST_AT + VALUE;

pub const fn full(count: u32) -> usize {
    FULL_ENTRIES_AT + FULL_ENTRY * count as usize
}

pub const fn evidence(count: u32) -> usize {
    EVIDENCE_ENTRIES_AT + EVIDENCE_ENTRY * count as usize
}

pub const fn old_evidence(count: u32) -> usize {
    OLD_EVIDENCE_ENTRIES_AT + OLD_EVIDENCE_ENTRY * count as usize
}

/// `out` for a submit or a step: each message once.
pub fn out(n: u32) -> usize {
    SUBMIT + NOTICE + full(k(n)) + evidence(k(n))
}

/// `out` for evidence from two certificates.
pub fn evidence_out(n: u32) -> usize {
    evidence(k(n))
}

/// `out` for two packs joined: every seat.
pub fn joined_out(n: u32) -> usize {
    evidence(n)
}

/// The store: n slots for collected signatures, n for the first certificate's, n for kept ones, then n values of the kept ones,
/// each by seat.
pub fn store(n: u32) -> usize {
    kept_value(n, n).start
}

pub fn collected(seat: u32) -> Range<usize> {
    slot(seat)
}

pub fn first(n: u32, seat: u32) -> Range<usize> {
    slot(n + seat)
}

pub fn kept(n: u32, seat: u32) -> Range<usize> {
    slot(2 * n + seat)
}

pub fn kept_value(n: u32, seat: u32) -> Range<usize> {
    let start = slot(3 * n).start + VALUE * seat as usize;
    start..start + VALUE
}

fn slot(number: u32) -> Range<usize> {
    let start = SIGNATURE * number as usize;
    start..start + SIGNATURE
}

#[cfg(test)]
mod tests {
    use super::*;

    /// The figures that documents 01 and 02 (items 1 to 3 and 5) state.
    #[test]
    fn figures_of_the_documents() {
        assert_eq!((SIGNATURE, SIGNED, SUBMIT, NOTICE), (1452, 36, 1488, 36));
        assert_eq!(NOTE, 118);
        for n in 1..=32 {
            let (count, k) = (n as usize, k(n) as usize);
            assert_eq!(
                (full(n), evidence(n), old_evidence(n)),
                (37 + 1454 * count, 4 + 2970 * count, 68 + 2906 * count)
            );
            assert_eq!((store(n), out(n)), (4388 * count, 1565 + 4424 * k));
            assert_eq!((evidence_out(n), joined_out(n)), (4 + 2970 * k, 4 + 2970 * count));
        }
    }

    #[test]
    fn the_slots_fill_the_store() {
        for n in 1..=32 {
            let banks: [fn(u32, u32) -> Range<usize>; 4] = [|_, seat| collected(seat), first, kept, kept_value];
            let lengths = [SIGNATURE, SIGNATURE, SIGNATURE, VALUE];
            let slots = banks
                .into_iter()
                .zip(lengths)
                .flat_map(|(bank, length)| (0..n).map(move |seat| (bank(n, seat), length)));
            let end = slots.fold(0, |end, (slot, length)| {
                assert_eq!((slot.start, slot.len()), (end, length));
                slot.end
            });
            assert_eq!(end, store(n));
        }
    }
}
