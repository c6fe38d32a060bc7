//! Document 01's opening and steps, with document 02's items 1 and 3. A call works on copies; only at its end are they handed
//! over, so that a refusal changes nothing.

use super::calls::MAX_LEAF;
use super::evidence;
use super::impossible::impossible;
use super::layout::{self, SIGNATURE};
use super::messages::{Evidence, Full, FullEntry, Notice, Submit, Told, Value, FULL, NOTICE, SUBMIT};
use super::quorum;
use super::record::{First, Notices, Opened, Record, Stepped, Written};
use super::refusals::{self, checks, is_size, key_table, pass, row, Passed, Row};
use super::seats::{contains, list, mask, size};

pub fn open(n: u32, seat: u32, round: u32, keys: &[u8]) -> Opened {
    let rows = [row(1, || !is_size(n)), row(2, || seat >= n), row(3, || round > MAX_LEAF), key_table(n, keys)];
    match pass(rows) {
        Ok(()) => Opened { number: 0, record: Record { n, seat, round, ..Record::default() } },
        Err(number) => Opened { number, record: Record::default() },
    }
}

pub fn submit(
    record: Record,
    keys: &[u8],
    store: &mut [u8],
    value: &[u8],
    own_signature: &[u8],
    out: &mut [u8],
) -> Stepped {
    let submitted = || {
        let own: Option<Value> = value.try_into().ok();
        let rows = [
            row(8, || record.own.submitted),
            row(9, || own.is_none() || own_signature.len() != SIGNATURE),
            row(14, || own.is_some_and(|own| !checks(keys, record.round, &(record.seat, &own, own_signature)))),
        ];
        pass(buffers(&record, keys, store, out).into_iter().chain(rows))?;
        let mut unit = Unit::new(&record, store);
        unit.submit(own.expect("another length is refused"), own_signature);
        unit.send_full();
        Ok(unit)
    };
    hand_over(submitted(), record, store, out)
}

pub fn step(record: Record, keys: &[u8], store: &mut [u8], message: &[u8], out: &mut [u8]) -> Stepped {
    let stepped = || {
        let heard = Heard::read(message, record.n);
        let told = heard.as_ref().map(Heard::told);
        let in_message = refusals::message(record.n, record.round, keys, &told);
        pass(buffers(&record, keys, store, out).into_iter().chain(in_message))?;
        let mut unit = Unit::new(&record, store);
        match heard.as_ref().expect("a garbled one is refused") {
            Heard::Submit(submit) => unit.hear_submit(submit),
            Heard::Notice(notice) => unit.hear_value(notice.value),
            Heard::Full(full) => unit.hear_certificate(full),
        }
        unit.send_full();
        Ok(unit)
    };
    hand_over(stepped(), record, store, out)
}

/// The thin entry: the record lent, and overwritten with the stepped one.
pub fn step_lent(record: &mut Record, keys: &[u8], store: &mut [u8], message: &[u8], out: &mut [u8]) -> Written {
    let stepped = step(*record, keys, store, message, out);
    *record = stepped.record;
    Written { number: stepped.number, written: stepped.written }
}

/// 4 to 7.
fn buffers<'a>(record: &'a Record, keys: &'a [u8], store: &'a [u8], out: &'a [u8]) -> [Row<'a>; 4] {
    [
        row(4, || impossible(record)),
        key_table(record.n, keys),
        row(6, || store.len() < layout::store(record.n)),
        row(7, || out.len() < layout::out(record.n)),
    ]
}

/// A message that a step takes.
enum Heard {
    Submit(Submit),
    Notice(Notice),
    Full(Full),
}

impl Heard {
    fn read(message: &[u8], n: u32) -> Option<Heard> {
        match message.first() {
            Some(&SUBMIT) => Submit::read(message).map(Heard::Submit),
            Some(&NOTICE) => Notice::read(message).map(Heard::Notice),
            Some(&FULL) if is_size(n) => Full::read(message, quorum::k(n)).map(Heard::Full),
            _ => None,
        }
    }

    fn told(&self) -> Told<'_> {
        match self {
            Heard::Submit(submit) => submit.told(),
            Heard::Notice(notice) => notice.told(),
            Heard::Full(full) => full.told(),
        }
    }
}

fn hand_over(result: Passed<Unit>, record: Record, store: &mut [u8], out: &mut [u8]) -> Stepped {
    match result {
        Err(number) => Stepped { number, written: 0, record },
        Ok(unit) => {
            let bytes = unit.bytes();
            store.copy_from_slice(&unit.store);
            out[..bytes.len()].copy_from_slice(&bytes);
            Stepped { number: 0, written: bytes.len() as u32, record: unit.record }
        }
    }
}

/// A unit during a call that isn't refused, with the messages that it writes.
struct Unit {
    record: Record,
    store: Vec<u8>,
    submit: Option<Submit>,
    notice: Option<Notice>,
    full: Option<Full>,
    evidence: Option<Evidence>,
}

impl Unit {
    fn new(record: &Record, store: &[u8]) -> Unit {
        Unit { record: *record, store: store.to_vec(), submit: None, notice: None, full: None, evidence: None }
    }

    fn submit(&mut self, value: Value, signature: &[u8]) {
        let Record { round, seat, .. } = self.record;
        self.record.own.submitted = true;
        self.record.own.value = value;
        self.submit = Some(Submit { round, seat, value, signature: signature.to_vec() });
        self.collect(seat, signature);
        self.collect_kept();
    }

    /// The kept ones of the own value from other seats, in rising seat order until k is reached. Then no seat is kept.
    fn collect_kept(&mut self) {
        let Record { n, seat: own_seat, own, kept, .. } = self.record;
        let others = list(kept).into_iter().filter(|&seat| seat != own_seat);
        let of_the_value = others.filter(|&seat| self.store[layout::kept_value(n, seat)] == own.value);
        let lacking = quorum::k(n) - size(own.collected);
        for seat in of_the_value.take(lacking as usize).collect::<Vec<_>>() {
            let signature = self.store[layout::kept(n, seat)].to_vec();
            self.collect(seat, &signature);
        }
        self.record.kept = 0;
    }

    fn hear_submit(&mut self, submit: &Submit) {
        let Record { own, confirmed, kept, .. } = self.record;
        if !own.submitted {
            if !contains(kept, submit.seat) {
                self.keep(submit);
            }
        } else if !confirmed && submit.value == own.value && !contains(own.collected, submit.seat) {
            self.collect(submit.seat, &submit.signature);
        }
    }

    fn keep(&mut self, submit: &Submit) {
        let Submit { seat, value, signature, .. } = submit;
        let n = self.record.n;
        self.record.kept |= mask(&[*seat]);
        self.store[layout::kept(n, *seat)].copy_from_slice(signature);
        self.store[layout::kept_value(n, *seat)].copy_from_slice(value);
    }

    fn collect(&mut self, seat: u32, signature: &[u8]) {
        self.record.own.collected |= mask(&[seat]);
        self.store[layout::collected(seat)].copy_from_slice(signature);
        if size(self.record.own.collected) == quorum::k(self.record.n) {
            self.confirm();
        }
    }

    fn confirm(&mut self) {
        let Record { round, seat, own, .. } = self.record;
        self.record.confirmed = true;
        self.notice = Some(Notice { round, seat, value: own.value });
        self.hear_certificate(&self.own_certificate());
    }

    fn hear_value(&mut self, value: Value) {
        let notices = &mut self.record.notices;
        if notices.heard == 0 {
            *notices = Notices { heard: 1, value };
        } else if notices.value != value {
            notices.heard = 2;
        }
    }

    /// A certificate heard, or the own.
    fn hear_certificate(&mut self, full: &Full) {
        self.hear_value(full.value);
        if self.record.first.seats == 0 {
            self.hold(full);
        } else if self.record.first.value != full.value {
            self.blame(evidence::of_conflict(&self.first_certificate(), full));
        }
    }

    /// "EVIDENCE is written for those newly found, if any."
    fn blame(&mut self, mut evidence: Evidence) {
        evidence.entries.retain(|entry| !contains(self.record.guilty, entry.seat));
        if !evidence.entries.is_empty() {
            self.record.guilty |= mask(&evidence.seats());
            self.evidence = Some(evidence);
        }
    }

    fn hold(&mut self, full: &Full) {
        self.record.first = First { value: full.value, seats: mask(&full.seats()) };
        for entry in &full.entries {
            self.store[layout::first(self.record.n, entry.seat)].copy_from_slice(&entry.signature);
        }
    }

    /// FULL, where the unit has confirmed, hasn't sent it yet and has heard another value than its own.
    fn send_full(&mut self) {
        let Record { own, confirmed, notices, sent, .. } = self.record;
        let another_heard = notices.heard == 2 || notices.heard == 1 && notices.value != own.value;
        if confirmed && !sent && another_heard {
            self.record.sent = true;
            self.full = Some(self.own_certificate());
        }
    }

    fn own_certificate(&self) -> Full {
        let own = self.record.own;
        self.certificate(own.value, own.collected, layout::collected)
    }

    fn first_certificate(&self) -> Full {
        let Record { n, first, .. } = self.record;
        self.certificate(first.value, first.seats, |seat| layout::first(n, seat))
    }

    fn certificate(&self, value: Value, seats: u32, slot: impl Fn(u32) -> std::ops::Range<usize>) -> Full {
        let entry = |seat| FullEntry { seat, signature: self.store[slot(seat)].to_vec() };
        let entries = list(seats).into_iter().map(entry).collect();
        Full { round: self.record.round, sender: self.record.seat, value, entries }
    }

    /// The messages in the order SUBMIT, NOTICE, FULL, EVIDENCE.
    fn bytes(&self) -> Vec<u8> {
        let mut bytes = Vec::new();
        bytes.extend(self.submit.iter().flat_map(Submit::write));
        bytes.extend(self.notice.iter().flat_map(Notice::write));
        bytes.extend(self.full.iter().flat_map(Full::write));
        bytes.extend(self.evidence.iter().flat_map(Evidence::write));
        bytes
    }
}
