//! Messages on the air: those that a call wrote, taken apart, and messages garbled on their way.

use crate::fleet;
use crate::reference::layout::{self, ENTRY_SEAT_AT, ENTRY_SIGNATURE_AT, FULL_ENTRIES_AT, ROUND_AT, SEAT_AT};
use crate::reference::messages::{message_length, EVIDENCE, FULL, NOTICE, SUBMIT};
use crate::rng::Rng;

/// The name of a written message.
pub fn name(message: &[u8]) -> &'static str {
    match message[0] {
        SUBMIT => "SUBMIT",
        NOTICE => "NOTICE",
        FULL => "FULL",
        EVIDENCE => "EVIDENCE",
        other => panic!("no command that a call writes: {other:#04x}"),
    }
}

/// The messages in the bytes that a call's answer counts.
pub fn messages(n: u32, mut written: &[u8]) -> Vec<Vec<u8>> {
    let mut messages = Vec::new();
    while !written.is_empty() {
        let length = message_length(n, written) as usize;
        assert!(length > 0, "no message that a call writes: {:#04x} and {} bytes", written[0], written.len() - 1);
        let (message, rest) = written.split_at(length);
        messages.push(message.to_vec());
        written = rest;
    }
    messages
}

/// A message garbled by a bad link or a bad sender, and the name of the change. Some are right by chance.
pub fn garbled(message: &[u8], rng: &mut Rng) -> (&'static str, Vec<u8>) {
    let mut garbled = message.to_vec();
    let length = message.len();
    let what = match rng.below(12) {
        0 => {
            garbled[rng.below(length)] ^= 1 << rng.below(8);
            "a bit flipped"
        }
        1 => {
            garbled[rng.below(length.min(FULL_ENTRIES_AT + ENTRY_SIGNATURE_AT + 1))] ^= 1 << rng.below(8);
            "a bit of its head flipped"
        }
        2 => {
            garbled.truncate(rng.below(length));
            "cut short"
        }
        3 => {
            let most = *rng.pick(&[1, 40, 3000]);
            let added = 1 + rng.below(most);
            garbled.extend(rng.bytes(added));
            "lengthened"
        }
        4 => {
            let length = *rng.pick(&[
                0,
                1,
                layout::NOTICE - 1,
                layout::NOTICE,
                layout::NOTICE + 1,
                layout::SUBMIT,
                layout::full(1),
                layout::evidence(1),
            ]);
            garbled = rng.bytes(length);
            "noise"
        }
        5 => {
            garbled[0] = rng.below(10) as u8;
            "with another command"
        }
        6 => {
            garbled[ROUND_AT..SEAT_AT].copy_from_slice(&(*rng.pick(&fleet::rounds()) as u16).to_be_bytes());
            "of some round"
        }
        7 => {
            garbled[SEAT_AT] = rng.below(40) as u8;
            "of some seat"
        }
        8 => {
            garbled.extend_from_slice(message);
            "twice in one"
        }
        9 => {
            in_entries(&mut garbled, |entries| {
                let (one, other) = (rng.below(entries.len()), rng.below(entries.len()));
                entries.swap(one, other);
            });
            "with two entries swapped"
        }
        10 => {
            in_entries(&mut garbled, |entries| {
                let place = rng.below(entries.len());
                entries[place][ENTRY_SEAT_AT] = rng.below(40) as u8;
            });
            "with an entry of some seat"
        }
        _ => {
            in_entries(&mut garbled, |entries| {
                let (one, other) = (rng.below(entries.len()), rng.below(entries.len()));
                let signature = entries[one][ENTRY_SIGNATURE_AT..].to_vec();
                entries[other][ENTRY_SIGNATURE_AT..].copy_from_slice(&signature);
            });
            "with a signature of another entry"
        }
    };
    (what, garbled)
}

/// A change to the entries of a FULL; any other message stays.
fn in_entries(message: &mut Vec<u8>, change: impl FnOnce(&mut Vec<Vec<u8>>)) {
    if message[0] == FULL {
        let mut entries = message[FULL_ENTRIES_AT..].chunks(layout::FULL_ENTRY).map(<[u8]>::to_vec).collect();
        change(&mut entries);
        message.truncate(FULL_ENTRIES_AT);
        message.extend(entries.concat());
    }
}
