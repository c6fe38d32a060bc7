//! Rounds written for a person to read, in the language of data/rounds/README.md.

use std::collections::BTreeMap;

use crate::compare::equal;
use crate::confirmer::{Dispatching, Engine, EvidenceCheck, Joining, LowerCopy, Making, Notes};
use crate::fleet::Fleet;
use crate::reference::layout;
use crate::reference::record::{
    Dispatched, Dispatcher, Eight, First, Notices, Opened, Own, Record, Stepped, Verdict, Written, LANES,
};
use crate::reference::seats::mask;
use crate::terms::{bytes, change, each_line, each_script, expect, length, number, seats, Terms, Words};

/// The calls that a script is run with.
#[derive(Clone, Copy)]
pub struct Calls<'a> {
    pub engine: &'a dyn Engine,
    pub evidence: &'a dyn EvidenceCheck,
    pub making: &'a dyn Making,
    pub joining: &'a dyn Joining,
    pub lower: &'a dyn LowerCopy,
    pub notes: &'a dyn Notes,
    pub dispatching: &'a dyn Dispatching,
}

/// Content of `out` and of a store before anything is written there.
const BLANK: u8 = 0xa5;

/// Runs every script of data/rounds.
pub fn all(calls: Calls) {
    each_script("rounds", |text| run(text, calls));
}

/// Runs a script; the error names the line at which an answer isn't the expected one.
pub fn run(text: &str, calls: Calls) -> Result<(), String> {
    let (units, dispatcher) = (BTreeMap::new(), Dispatcher::default());
    let mut script = Script { calls, terms: Terms::default(), units, dispatcher, answer: None };
    each_line(text, |words| script.line(words))?;
    match script.answer {
        None => Ok(()),
        Some(_) => Err("the last call has no expected answer under it".to_string()),
    }
}

struct Unit {
    record: Record,
    store: Vec<u8>,
    /// Its notes, each with the store kept with it.
    notes: Vec<(Vec<u8>, Vec<u8>)>,
}

struct Script<'a> {
    calls: Calls<'a>,
    terms: Terms,
    units: BTreeMap<u32, Unit>,
    dispatcher: Dispatcher,
    /// The answer of the last call, until it is compared.
    answer: Option<Answer>,
}

enum Answer {
    Opened(u32),
    Written(u32, Vec<u8>),
    Named(Verdict),
    Lower(&'static str),
    /// The number; whether a ticket is given, its round and the ticket.
    Turn(u32, (bool, u32, u32)),
}

/// Lengths of the lent buffers where they aren't the stated ones.
#[derive(Default)]
struct Lent {
    keys: Option<usize>,
    store: Option<usize>,
    out: Option<usize>,
}

impl Script<'_> {
    fn line(&mut self, words: &mut Words) -> Result<(), String> {
        if words.next_if_eq(&"=").is_some() {
            let answer = self.answer.take().ok_or("no call stands above this answer")?;
            return self.compare(answer, words);
        }
        if self.answer.is_some() {
            return Err("the call above has no expected answer".to_string());
        }
        self.command(words)
    }

    fn command(&mut self, words: &mut Words) -> Result<(), String> {
        match words.next().unwrap_or_default() {
            "fleet" => self.terms.set_fleet(words)?,
            "layout" => self.terms.set_layout(words)?,
            "check" => {
                let mut message = self.terms.message(words)?;
                self.changes(words, &mut message)?;
                let Fleet { n, round } = self.terms.fleet;
                let verdict = self.calls.evidence.check_evidence(n, round, &self.terms.fleet.key_table(), &message);
                self.answer = Some(Answer::Named(verdict));
            }
            "make" => self.make(words)?,
            "join" => self.join(words)?,
            "lower" => self.lower(words)?,
            "follow" => self.follow(words)?,
            "ticket" => self.ticket(words)?,
            "turn" => self.turn()?,
            "lanes" => {
                expect(words, "have")?;
                equal("the tickets counted", self.dispatcher.counts, eight(words)?)?;
            }
            seat => {
                let seat = seat.parse().map_err(|_| format!("`{seat}` is no command and no seat"))?;
                match words.next().unwrap_or_default() {
                    "opens" => self.open(seat),
                    "submits" => self.submit(seat, words)?,
                    "hears" => self.step(seat, words)?,
                    "notes" => self.note(seat, words)?,
                    "comes" => self.come_back(seat, words)?,
                    "has" => return self.has(seat, words),
                    verb => return Err(format!("`{verb}` isn't understood")),
                }
            }
        }
        Ok(())
    }

    fn open(&mut self, seat: u32) {
        let Fleet { n, round } = self.terms.fleet;
        let opened = self.calls.engine.open(n, seat, round, &self.terms.fleet.key_table());
        self.answer = Some(Answer::Opened(opened.number));
        if opened.number == 0 {
            let store = vec![BLANK; layout::store(n)];
            self.units.insert(seat, Unit { record: opened.record, store, notes: Vec::new() });
        }
    }

    fn submit(&mut self, seat: u32, words: &mut Words) -> Result<(), String> {
        let (value, hand) = self.terms.layout(words)?;
        let mut signature = self.terms.fleet.signature(seat, &value, hand);
        let mut value = value.to_vec();
        let mut lent = Lent::default();
        while let Some(word) = words.next() {
            match word {
                "signed" => {
                    let (other, hand) = self.terms.layout(words)?;
                    signature = self.terms.fleet.signature(seat, &other, hand);
                }
                "value" => value.resize(length(words)?, 0),
                "signature" => signature.resize(length(words)?, 0),
                word => lent.take(word, words)?,
            }
        }
        let engine = self.calls.engine;
        self.call(seat, &lent, |record, keys, store, out| engine.submit(record, keys, store, &value, &signature, out))
    }

    fn step(&mut self, seat: u32, words: &mut Words) -> Result<(), String> {
        let mut message = self.terms.message(words)?;
        let lent = self.changes(words, &mut message)?;
        let engine = self.calls.engine;
        self.call(seat, &lent, |record, keys, store, out| engine.step(record, keys, store, &message, out))
    }

    /// A call on a unit's record and store, with a test of everything that a refusal must leave as it was.
    fn call(
        &mut self,
        seat: u32,
        lent: &Lent,
        call: impl Fn(Record, &[u8], &mut [u8], &mut [u8]) -> Stepped,
    ) -> Result<(), String> {
        let n = self.terms.fleet.n;
        let mut keys = self.terms.fleet.key_table();
        keys.resize(lent.keys.unwrap_or(keys.len()), 0);
        let unit = self.units.get_mut(&seat).ok_or("the unit isn't open")?;
        let mut store = unit.store[..lent.store.unwrap_or(unit.store.len())].to_vec();
        let before = store.clone();
        let mut out = vec![BLANK; lent.out.unwrap_or(layout::out(n))];
        let answer = call(unit.record, &keys, &mut store, &mut out);
        let written = out.drain(..answer.written as usize).collect();
        if out.iter().any(|&byte| byte != BLANK) {
            return Err("bytes of out beyond those written were changed".to_string());
        }
        if answer.number != 0 && (answer.record != unit.record || store != before || answer.written != 0) {
            return Err("a refusal changed something".to_string());
        }
        if answer.number == 0 {
            (unit.record, unit.store) = (answer.record, store);
        }
        self.answer = Some(Answer::Written(answer.number, written));
        Ok(())
    }

    /// A note that isn't refused is kept, with the store.
    fn note(&mut self, seat: u32, words: &mut Words) -> Result<(), String> {
        let lent = self.changes(words, &mut Vec::new())?;
        let unit = self.units.get_mut(&seat).ok_or("the unit isn't open")?;
        let mut out = vec![BLANK; lent.out.unwrap_or(layout::NOTE)];
        let answer = self.calls.notes.write_note(unit.record, &mut out);
        let written: Vec<u8> = out.drain(..answer.written as usize).collect();
        equal("bytes of out beyond those written", out.iter().all(|&byte| byte == BLANK), true)?;
        if answer.number == 0 {
            unit.notes.push((written.clone(), unit.store.clone()));
        }
        self.answer = Some(Answer::Written(answer.number, written));
        Ok(())
    }

    /// The unit lost its record and store. From its newest note, or `from` another by number, with changes to it.
    fn come_back(&mut self, seat: u32, words: &mut Words) -> Result<(), String> {
        expect(words, "back")?;
        let unit = self.units.get(&seat).ok_or("the unit isn't open")?;
        let which = match words.next_if_eq(&"from") {
            Some(_) => number(words)? as usize,
            None => unit.notes.len(),
        };
        let (mut note, store) =
            which.checked_sub(1).and_then(|at| unit.notes.get(at)).cloned().ok_or("no such note")?;
        self.changes(words, &mut note)?;
        let Opened { number, record } = self.calls.notes.read_note(&note);
        let unit = self.units.get_mut(&seat).expect("an open unit");
        match number {
            0 => (unit.record, unit.store) = (record, store),
            _ => equal("the record of a refused note", record, Record::default())?,
        }
        self.answer = Some(Answer::Opened(number));
        Ok(())
    }

    fn make(&mut self, words: &mut Words) -> Result<(), String> {
        let making = self.calls.making;
        self.written(words, layout::evidence_out, |n, round, keys, first, second, out| {
            making.make_evidence(n, round, keys, first, second, out)
        })
    }

    fn join(&mut self, words: &mut Words) -> Result<(), String> {
        let joining = self.calls.joining;
        self.written(words, layout::joined_out, |n, round, keys, first, second, out| {
            joining.join_evidence(n, round, keys, first, second, out)
        })
    }

    /// A call over two messages in hand, with an out of the stated length or of another.
    fn written(
        &mut self,
        words: &mut Words,
        stated: fn(u32) -> usize,
        call: impl FnOnce(u32, u32, &[u8], &[u8], &[u8], &mut [u8]) -> Written,
    ) -> Result<(), String> {
        let (first, second, lent) = self.two_messages(words)?;
        let Fleet { n, round } = self.terms.fleet;
        let mut out = vec![BLANK; lent.out.unwrap_or(stated(n))];
        let answer = call(n, round, &self.terms.fleet.key_table(), &first, &second, &mut out);
        let written = out.drain(..answer.written as usize).collect();
        equal("bytes of out beyond those written", out.iter().all(|&byte| byte == BLANK), true)?;
        self.answer = Some(Answer::Written(answer.number, written));
        Ok(())
    }

    fn lower(&mut self, words: &mut Words) -> Result<(), String> {
        let (first, second, _) = self.two_messages(words)?;
        let Fleet { n, round } = self.terms.fleet;
        let mut out = vec![BLANK; first.len().max(second.len()) + 1];
        let keys = self.terms.fleet.key_table();
        equal("the number", self.calls.lower.copy_lower(n, round, &keys, &first, &second, &mut out), 0)?;
        let wholly = |bytes: &[u8]| out.strip_prefix(bytes).is_some_and(|rest| rest.iter().all(|&byte| byte == BLANK));
        let names = [("none", &[][..]), ("first", &first), ("second", &second)];
        let name = names.into_iter().find(|(_, bytes)| wholly(bytes)).map_or("something else", |(name, _)| name);
        self.answer = Some(Answer::Lower(name));
        Ok(())
    }

    /// Opens the dispatcher of eight rounds.
    fn follow(&mut self, words: &mut Words) -> Result<(), String> {
        let Dispatched { number, dispatcher } = self.calls.dispatching.open_dispatcher(Eight { round: eight(words)? });
        match number {
            0 => self.dispatcher = dispatcher,
            _ => equal("the dispatcher of a refused opening", dispatcher, Dispatcher::default())?,
        }
        self.answer = Some(Answer::Opened(number));
        Ok(())
    }

    /// `100 in 7`.
    fn ticket(&mut self, words: &mut Words) -> Result<(), String> {
        let ticket = u16::try_from(number(words)?).map_err(|_| "a ticket has 16 bits")?;
        expect(words, "in")?;
        let answer = self.calls.dispatching.add_ticket(self.dispatcher, number(words)?, ticket);
        self.answer = Some(Answer::Opened(answer.number));
        self.dispatched(answer.number != 0, answer.dispatcher)
    }

    fn turn(&mut self) -> Result<(), String> {
        let turn = self.calls.dispatching.take_turn(self.dispatcher);
        self.answer = Some(Answer::Turn(turn.number, (turn.given, turn.round, turn.ticket)));
        self.dispatched(!turn.given, turn.dispatcher)
    }

    /// The dispatcher that a call gave back: as it was where the call is refused or gives nothing.
    fn dispatched(&mut self, same: bool, dispatcher: Dispatcher) -> Result<(), String> {
        equal("a dispatcher as it was", dispatcher == self.dispatcher, same)?;
        self.dispatcher = dispatcher;
        Ok(())
    }

    fn two_messages(&self, words: &mut Words) -> Result<(Vec<u8>, Vec<u8>, Lent), String> {
        let mut first = self.terms.message(words)?;
        self.changes(words, &mut first)?;
        expect(words, "and")?;
        let mut second = self.terms.message(words)?;
        let lent = self.changes(words, &mut second)?;
        Ok((first, second, lent))
    }

    /// Changes to a message before it is heard, and to the lent buffers.
    fn changes(&self, words: &mut Words, message: &mut Vec<u8>) -> Result<Lent, String> {
        let mut lent = Lent::default();
        while let Some(word) = words.next_if(|&word| word != "and") {
            if !change(word, words, message)? {
                lent.take(word, words)?;
            }
        }
        Ok(lent)
    }

    fn compare(&self, answer: Answer, words: &mut Words) -> Result<(), String> {
        match answer {
            Answer::Opened(is) => equal("the number", is, number(words)?),
            Answer::Written(is, written) => {
                equal("the number", is, number(words)?)?;
                equal("the bytes written", written.len() as u32, number(words)?)?;
                let mut expected = Vec::new();
                if words.next_if_eq(&"bytes").is_some() {
                    expected = words.flat_map(bytes).collect();
                }
                while words.peek().is_some() {
                    expected.extend(self.terms.message(words)?);
                    words.next_if_eq(&",");
                }
                equal("the bytes", written == expected, true)
            }
            Answer::Named(verdict) => {
                let expected = number(words)?;
                let named = if words.next_if_eq(&"seats").is_some() { mask(&seats(words)) } else { 0 };
                equal("the verdict", verdict, Verdict { number: expected, mask: named })
            }
            Answer::Lower(is) => equal("the lower one", is, words.next().unwrap_or_default()),
            Answer::Turn(is, given) => {
                equal("the number", is, number(words)?)?;
                let mut expected = (false, 0, 0);
                if words.next_if_eq(&"none").is_none() {
                    expect(words, "ticket")?;
                    let ticket = number(words)?;
                    expect(words, "of")?;
                    expected = (true, number(words)?, ticket);
                }
                equal("given, round and ticket", given, expected)
            }
        }
    }

    /// Test of a whole record: parts that aren't named are unset.
    fn has(&self, seat: u32, words: &mut Words) -> Result<(), String> {
        let Fleet { n, round } = self.terms.fleet;
        let mut record = Record { n, seat, round, ..Record::default() };
        while let Some(word) = words.next() {
            match word {
                "nothing" | "," => (),
                "submitted" => record.own = Own { submitted: true, value: self.terms.layout(words)?.0, ..record.own },
                "collected" => record.own.collected = mask(&seats(words)),
                "confirmed" => record.confirmed = true,
                "heard" => {
                    let value = self.terms.layout(words)?.0;
                    record.notices = Notices { heard: 1, value };
                    if words.next_if_eq(&"and").is_some() {
                        expect(words, "another")?;
                        record.notices.heard = 2;
                    }
                }
                "first" => {
                    let value = self.terms.layout(words)?.0;
                    expect(words, "of")?;
                    record.first = First { value, seats: mask(&seats(words)) };
                }
                "sent" => record.sent = true,
                "guilty" => record.guilty = mask(&seats(words)),
                "kept" => record.kept = mask(&seats(words)),
                word => return Err(format!("a record has no `{word}`")),
            }
        }
        equal("the record", self.units.get(&seat).ok_or("the unit isn't open")?.record, record)
    }
}

fn eight(words: &mut Words) -> Result<[u32; LANES], String> {
    let numbers: Vec<u32> = (0..LANES).map(|_| number(words)).collect::<Result<_, _>>()?;
    Ok(numbers.try_into().expect("eight"))
}

impl Lent {
    fn take(&mut self, word: &str, words: &mut Words) -> Result<(), String> {
        let length = Some(length(words)?);
        match word {
            "keys" => self.keys = length,
            "store" => self.store = length,
            "out" => self.out = length,
            word => return Err(format!("`{word}` isn't understood")),
        }
        Ok(())
    }
}
