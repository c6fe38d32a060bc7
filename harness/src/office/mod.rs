//! The harbour office: packs of evidence that boats hand in, each checked alone, and those that are accepted made one. What it says
//! follows from the calls' answers, and an answer that breaks a promise is an error.

pub mod options;

use crate::confirmer::{EvidenceCheck, Joining};
use crate::reference::layout::{self, ROUND_AT};
use crate::reference::messages::{Evidence, EvidenceEntry, OLD_EVIDENCE};
use crate::reference::record::{Verdict, Written};
use crate::reference::refusals::word;
use crate::reference::seats::mask;
use crate::words::{and, boats_of, count, lines, rows, thousands, WIDTH};

/// The calls that the office works with.
#[derive(Clone, Copy)]
pub struct Calls<'a> {
    pub evidence: &'a dyn EvidenceCheck,
    pub joining: &'a dyn Joining,
}

/// An office for one round of a fleet.
pub struct Office<'a> {
    pub calls: Calls<'a>,
    pub n: u32,
    pub round: u32,
    pub keys: &'a [u8],
}

/// A pack as it was handed in, and what the check says of it.
pub struct Handed {
    pub name: String,
    pub bytes: Vec<u8>,
    pub verdict: Verdict,
}

/// One pack of all that were taken.
pub struct Joined {
    pub bytes: Vec<u8>,
    pub named: Vec<Named>,
}

/// A boat in the joined pack, and the places of the packs that name it. The pair of the first of them stands.
pub struct Named {
    pub seat: u32,
    pub by: Vec<usize>,
}

impl Handed {
    fn is_old(&self) -> bool {
        self.bytes.first() == Some(&OLD_EVIDENCE)
    }

    /// The number for which the pack isn't joined, 0 where it is taken. "a 0x05 pack is 9 here"
    pub fn number(&self) -> u32 {
        if self.is_old() {
            9
        } else {
            self.verdict.number
        }
    }

    /// What became of the pack.
    fn told(&self) -> String {
        let number = self.number();
        let named = boats_of(self.verdict.mask);
        let alone = self.verdict.number;
        let why = match number {
            0 => return format!("taken: it names {named}"),
            9 if self.is_old() && alone == 0 => {
                format!("it is of the old form, 0x05. It can be checked, and names {named}, but it can't be joined")
            }
            9 if self.is_old() && alone != 9 => {
                format!("it is of the old form, 0x05, and the check refuses it too ({alone}, {})", word(alone))
            }
            9 => "it is no pack, or not a whole one".to_string(),
            10 => {
                format!("it is of round {}", u32::from(self.bytes[ROUND_AT]) << 8 | u32::from(self.bytes[ROUND_AT + 1]))
            }
            11 => "it names a seat that the fleet hasn't".to_string(),
            12 => "its seats don't rise".to_string(),
            14 => "a signature in it doesn't check".to_string(),
            15 => "its two layouts are equal or out of order".to_string(),
            _ => "the check says so".to_string(),
        };
        format!("REFUSED ({number}, {}): {why}", word(number))
    }
}

impl Joined {
    pub fn seats(&self) -> u32 {
        self.named.iter().fold(0, |seats, named| seats | mask(&[named.seat]))
    }
}

impl Office<'_> {
    fn check(&self, evidence: &[u8]) -> Verdict {
        self.calls.evidence.check_evidence(self.n, self.round, self.keys, evidence)
    }

    pub fn handed(&self, name: String, bytes: Vec<u8>) -> Handed {
        let verdict = self.check(&bytes);
        Handed { name, bytes, verdict }
    }

    /// The packs that aren't refused, joined one after another in their order; none where all are refused.
    pub fn join(&self, packs: &[Handed]) -> Result<Option<Joined>, String> {
        let taken: Vec<(usize, &Handed)> = packs.iter().enumerate().filter(|(_, pack)| pack.number() == 0).collect();
        let Some(((_, first), rest)) = taken.split_first() else { return Ok(None) };
        let mut bytes = first.bytes.clone();
        let mut out = vec![0; layout::joined_out(self.n)];
        for (_, pack) in rest {
            let Office { calls, n, round, keys } = self;
            let Written { number, written } =
                calls.joining.join_evidence(*n, *round, keys, &bytes, &pack.bytes, &mut out);
            if number != 0 {
                return Err(format!("{} was accepted, and isn't joined ({number})", pack.name));
            }
            bytes = out[..written as usize].to_vec();
        }
        let verdict = self.check(&bytes);
        let union = taken.iter().fold(0, |union, (_, pack)| union | pack.verdict.mask);
        if verdict != (Verdict { number: 0, mask: union }) {
            let Verdict { number, mask } = verdict;
            return Err(format!(
                "the packs name {}, and of the one pack the check says number {number}, mask {mask:#x}",
                boats_of(union)
            ));
        }
        let joined = self.named(bytes, &taken)?;
        match joined.seats() == union {
            true => Ok(Some(joined)),
            false => Err(format!("the packs name {}, and the one pack {}", boats_of(union), boats_of(joined.seats()))),
        }
    }

    /// The boats in a joined pack. Their pairs are looked up in the packs that were joined.
    fn named(&self, bytes: Vec<u8>, taken: &[(usize, &Handed)]) -> Result<Joined, String> {
        let read = |bytes: &[u8]| Evidence::read(bytes, self.n).map_or(Vec::new(), |read| read.entries);
        let entries: Vec<(usize, Vec<EvidenceEntry>)> =
            taken.iter().map(|(place, pack)| (*place, read(&pack.bytes))).collect();
        let mut named = Vec::new();
        for entry in read(&bytes) {
            let seat = entry.seat;
            let naming = entries.iter().flat_map(|(place, entries)| entries.iter().map(move |entry| (*place, entry)));
            let pairs: Vec<(usize, &EvidenceEntry)> = naming.filter(|(_, pair)| pair.seat == seat).collect();
            if pairs.first().map(|(_, pair)| *pair) != Some(&entry) {
                return Err(format!("boat {seat} hasn't the pair of the first pack that names it"));
            }
            named.push(Named { seat, by: pairs.into_iter().map(|(place, _)| place).collect() });
        }
        Ok(Joined { bytes, named })
    }

    /// What became of each pack, and who is named by whom.
    pub fn told(&self, packs: &[Handed], joined: Option<&Joined>) -> String {
        let mut text = format!(
            "Fleet of {}, round {}: {} handed in.\n\n",
            count(self.n, "boat"),
            self.round,
            count(packs.len() as u32, "pack")
        );
        text += &rows(&packs.iter().map(|pack| (pack.name.clone(), pack.told())).collect::<Vec<_>>());
        let Some(joined) = joined else {
            return text + "\nNo pack is taken, so there is nothing to join.\n";
        };
        let summary = format!(
            "The one pack has {} bytes, and the check accepts it. It shows that {} signed two layouts in this round.",
            thousands(joined.bytes.len()),
            boats_of(joined.seats())
        );
        text += &format!("\n{}\n\n", lines(&summary, WIDTH).join("\n"));
        let row = |named: &Named| {
            let by: Vec<&str> = named.by.iter().map(|&place| packs[place].name.as_str()).collect();
            let stands = if by.len() == 1 { String::new() } else { format!("; the pair of {} stands", by[0]) };
            (format!("boat {}", named.seat), format!("named by {}{stands}", and(&by)))
        };
        text + &rows(&joined.named.iter().map(row).collect::<Vec<_>>())
    }
}
