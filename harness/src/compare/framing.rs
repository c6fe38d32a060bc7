//! The length of the first message in a buffer: each command whole, with bytes behind it, cut short and damaged, and random
//! bytes. Rounds, seats, values and signatures are random: the length doesn't depend on them.

use super::arguments::untouched;
use super::messages::{other_entry_commands, two_faced, Pack, PACKS};
use super::{equal, for_each_n, sized};
use crate::confirmer::Framing;
use crate::fleet::some_seats;
use crate::guarded::Guarded;
use crate::reference::layout::{self, FULL_COUNT_AT, FULL_ENTRIES_AT, SIGNATURE};
use crate::reference::messages::{
    message_length, Evidence, EvidenceEntry, Full, FullEntry, Notice, Submit, Value, EVIDENCE, FULL, NOTICE,
    OLD_EVIDENCE, SUBMIT,
};
use crate::reference::quorum::k;
use crate::rng::Rng;

pub fn battery(subject: &dyn Framing) {
    for_each_n("message_length", |n, rng| {
        let mut compared = Compared { subject, rng, calls: 0 };
        let fleet = compared.fleet(n);
        fleet.map_err(|difference| format!("n = {n}, {difference}"))?;
        Ok(compared.calls)
    });
}

struct Compared<'a> {
    subject: &'a dyn Framing,
    rng: &'a mut Rng,
    calls: usize,
}

impl Compared<'_> {
    fn fleet(&mut self, n: u32) -> Result<(), String> {
        self.is("no byte", n, &[], 0)?;
        let (round, seat, value) = head(self.rng);
        let signature = self.rng.bytes(SIGNATURE);
        self.message("SUBMIT", n, &Submit { round, seat, value, signature }.write(), layout::SUBMIT)?;
        let (round, seat, value) = head(self.rng);
        self.message("NOTICE", n, &Notice { round, seat, value }.write(), layout::NOTICE)?;
        self.full(n)?;
        // Each count in the long battery, else half of them.
        let mut counts: Vec<u32> =
            some_seats(n, sized(n as usize) as u32, self.rng).iter().map(|seat| seat + 1).collect();
        counts.extend([1, k(n), n]);
        counts.sort();
        counts.dedup();
        for count in counts {
            for pack in PACKS {
                self.evidence(n, pack, count)?;
            }
        }
        self.both_commands(n)?;
        let lengths =
            [1, layout::NOTICE, layout::SUBMIT, layout::full(k(n)), layout::evidence(n), layout::old_evidence(n)];
        for _ in 0..sized(400) {
            let length = (self.rng.pick(&lengths) + 1).saturating_sub(self.rng.below(3));
            let mut bytes = self.rng.bytes(length);
            if let Some(command) = bytes.first_mut() {
                *command = self.rng.below(10) as u8;
            }
            self.agree("random bytes", n, &bytes)?;
        }
        Ok(())
    }

    fn full(&mut self, n: u32) -> Result<(), String> {
        let (round, sender, value) = head(self.rng);
        let entry = |_| FullEntry { seat: number(8, self.rng), signature: self.rng.bytes(SIGNATURE) };
        let entries = (0..k(n)).map(entry).collect();
        let bytes = Full { round, sender, value, entries }.write();
        self.message("FULL", n, &bytes, layout::full(k(n)))?;
        for count in [0, k(n) - 1, k(n) + 1, n, 32, 128 + k(n), 255].into_iter().filter(|&count| count != k(n)) {
            self.refused("FULL of another count", n, &bytes, FULL_COUNT_AT, count as u8)?;
        }
        self.entry_commands("FULL", n, &bytes, FULL_ENTRIES_AT, layout::FULL_ENTRY)?;
        // A fleet of another size takes it where its k is the same.
        for other in 1..=32 {
            let length = if k(other) == k(n) { bytes.len() } else { 0 };
            self.is("FULL in another fleet", other, &bytes, length)?;
        }
        Ok(())
    }

    fn evidence(&mut self, n: u32, pack: Pack, count: u32) -> Result<(), String> {
        let Pack { name, count_at, .. } = pack;
        let (lower, higher) = (value(self.rng), value(self.rng));
        let entry = |_| EvidenceEntry {
            seat: number(8, self.rng),
            lower,
            higher,
            over_lower: self.rng.bytes(SIGNATURE),
            over_higher: self.rng.bytes(SIGNATURE),
        };
        let entries = (0..count).map(entry).collect();
        let bytes = (pack.write)(&Evidence { round: number(16, self.rng), entries });
        self.message(name, n, &bytes, pack.length(count))?;
        for wrong in [0, count + 1, n + 1, 33, 128 + count, 255] {
            self.refused(&format!("{name} of another count"), n, &bytes, count_at, wrong as u8)?;
        }
        if count > 1 {
            let fewer = with(&bytes, count_at, count as u8 - 1);
            self.is(&format!("{name} and an entry behind it"), n, &fewer, pack.length(count - 1))?;
        }
        self.entry_commands(name, n, &bytes, pack.entries_at, pack.entry)?;
        for other in 1..=32 {
            let length = if count <= other { bytes.len() } else { 0 };
            self.is(&format!("{name} in another fleet"), other, &bytes, length)?;
        }
        Ok(())
    }

    /// A pack of one entry that is as long by either command.
    fn both_commands(&mut self, n: u32) -> Result<(), String> {
        let (seat, over_lower, over_higher) = (n - 1, self.rng.bytes(SIGNATURE), self.rng.bytes(SIGNATURE));
        let (lower, higher) = two_faced(seat);
        let entries = vec![EvidenceEntry { seat, lower, higher, over_lower, over_higher }];
        let evidence = Evidence { round: number(16, self.rng), entries };
        for pack in PACKS {
            for other in PACKS {
                let bytes = with(&(pack.write)(&evidence), 0, other.command);
                self.is(&format!("{} as {}", pack.name, other.name), n, &bytes, other.length(1))?;
            }
        }
        Ok(())
    }

    /// A message whole and with bytes behind it, cut, with other commands and in no fleet.
    fn message(&mut self, what: &str, n: u32, bytes: &[u8], length: usize) -> Result<(), String> {
        self.is(what, n, bytes, length)?;
        for rest in [vec![0], self.rng.bytes(1), self.rng.bytes(layout::FULL_ENTRY), bytes.to_vec()] {
            self.is(&format!("{what} and {} bytes", rest.len()), n, &[bytes, &rest].concat(), length)?;
        }
        let mut cuts = vec![1, 2, FULL_COUNT_AT, length - 2, length - 1];
        cuts.extend(PACKS.iter().flat_map(|pack| [pack.count_at, pack.entries_at]));
        cuts.extend((0..sized(20)).map(|_| self.rng.below(length)));
        for cut in cuts.into_iter().filter(|&cut| cut < length) {
            self.is(&format!("{what} cut to {cut} bytes"), n, &bytes[..cut], 0)?;
        }
        for command in [0x00, 0x04, 0x06, 0x08, 0x09, 0x80 | bytes[0], 0xff] {
            self.refused(&format!("{what} with another command"), n, bytes, 0, command)?;
        }
        for command in [SUBMIT, NOTICE, FULL, OLD_EVIDENCE, EVIDENCE] {
            self.agree(&format!("{what} with another message's command"), n, &with(bytes, 0, command))?;
        }
        for wrong in [0, 33, 34, 64, 256 + n, 65_536 + n, 1 << 31, 1 << 31 | n, u32::MAX] {
            self.is(&format!("{what} in no fleet"), wrong, bytes, 0)?;
        }
        for _ in 0..sized(40) {
            let (at, byte) = (self.rng.below(length), self.rng.below(256) as u8);
            self.agree(&format!("{what} with byte {at} changed"), n, &with(bytes, at, byte))?;
        }
        Ok(())
    }

    /// Every entry with commands of another message, entry or none.
    fn entry_commands(&mut self, what: &str, n: u32, bytes: &[u8], start: usize, width: usize) -> Result<(), String> {
        for at in (start..bytes.len()).step_by(width) {
            for command in other_entry_commands(bytes[at]) {
                self.refused(&format!("{what} with another entry command"), n, bytes, at, command)?;
            }
        }
        Ok(())
    }

    /// A message with a byte set, so that it is none.
    fn refused(&mut self, what: &str, n: u32, bytes: &[u8], at: usize, byte: u8) -> Result<(), String> {
        self.is(&format!("{what}, {byte:#04x} at {at}"), n, &with(bytes, at, byte), 0)
    }

    fn is(&mut self, what: &str, n: u32, bytes: &[u8], length: usize) -> Result<(), String> {
        let answer = self.agree(what, n, bytes)?;
        equal(&format!("{what}: the reference's answer"), answer, length as u32)
    }

    /// The answer of the reference and the subject, or their difference.
    fn agree(&mut self, what: &str, n: u32, bytes: &[u8]) -> Result<u32, String> {
        self.calls += 1;
        let lent = Guarded::new(bytes, self.rng);
        let reference = message_length(n, bytes);
        let compared = equal("the answer", self.subject.message_length(n, lent.lent()), reference);
        compared.and_then(|()| untouched(&[("bytes", &lent, bytes)])).map_err(|told| format!("{what}: {told}"))?;
        Ok(reference)
    }
}

/// A round, a seat and a value.
fn head(rng: &mut Rng) -> (u32, u32, Value) {
    (number(16, rng), number(8, rng), value(rng))
}

/// A number of so many bits.
fn number(bits: u32, rng: &mut Rng) -> u32 {
    rng.u32() >> (32 - bits)
}

fn value(rng: &mut Rng) -> Value {
    rng.bytes(layout::VALUE).try_into().expect("a value's bytes")
}

fn with(bytes: &[u8], at: usize, byte: u8) -> Vec<u8> {
    let mut changed = bytes.to_vec();
    changed[at] = byte;
    changed
}
