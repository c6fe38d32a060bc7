//! A boat of the demonstration: its key, made and used by the library alone, and the unit that it runs in a round.

use super::Calls;
use crate::reference::calls::TREE;
use crate::reference::layout::{self, SIGNATURE};
use crate::reference::lms::{IDENTIFIER, N, PUBLIC_KEY};
use crate::reference::messages::{signed_bytes, Submit, Value};
use crate::reference::record::{Record, Stepped, Written};
use crate::rng::Rng;

pub struct Boat {
    pub seat: u32,
    pub public: Vec<u8>,
    seed: Vec<u8>,
    identifier: Vec<u8>,
    tree: Vec<u8>,
}

impl Boat {
    pub fn make(calls: Calls, seat: u32, seed: u64) -> Boat {
        let mut rng = Rng::new(seed, &format!("boat {seat}"));
        let (seed, identifier) = (rng.bytes(N), rng.bytes(IDENTIFIER));
        let (mut tree, mut public) = (vec![0; TREE], vec![0; PUBLIC_KEY]);
        let answer = calls.signatures.make_key(&seed, &identifier, &mut tree, &mut public);
        assert_eq!(answer, Written { number: 0, written: PUBLIC_KEY as u32 });
        Boat { seat, public, seed, identifier, tree }
    }

    /// The boat's SUBMIT of a layout in a round.
    pub fn submit(&self, calls: Calls, round: u32, value: &Value) -> Submit {
        self.submit_as(self.seat, calls, round, value)
    }

    /// A SUBMIT in the name of any seat, signed with this boat's key under the leaf of the round. The randomizer follows
    /// from seed and layout, where a display takes 32 fresh random bytes.
    pub fn submit_as(&self, seat: u32, calls: Calls, round: u32, value: &Value) -> Submit {
        let message = signed_bytes(round, seat, value);
        let randomizer = Rng::new(u64::from(round), &format!("{:02x?}{:02x?}", self.seed, value)).bytes(N);
        let mut signature = vec![0; SIGNATURE];
        let Boat { seed, identifier, tree, .. } = self;
        let answer = calls.signatures.sign(round, seed, identifier, &randomizer, tree, &message, &mut signature);
        assert_eq!(answer, Written { number: 0, written: SIGNATURE as u32 });
        Submit { round, seat, value: *value, signature }
    }
}

/// A unit in a round: the record and the store, kept together, and an out buffer.
pub struct Unit<'a> {
    calls: Calls<'a>,
    keys: &'a [u8],
    pub record: Record,
    store: Vec<u8>,
    out: Vec<u8>,
}

/// Result of a call: a refusal's number or 0, the record before and after it, and the bytes to send.
pub struct Answer {
    pub number: u32,
    pub before: Record,
    pub after: Record,
    pub written: Vec<u8>,
}

impl<'a> Unit<'a> {
    pub fn open(calls: Calls<'a>, n: u32, seat: u32, round: u32, keys: &'a [u8]) -> Unit<'a> {
        let opened = calls.engine.open(n, seat, round, keys);
        assert_eq!(opened.number, 0, "the opening of boat {seat}");
        Unit { calls, keys, record: opened.record, store: vec![0; layout::store(n)], out: vec![0; layout::out(n)] }
    }

    pub fn submit(&mut self, own: &Submit) -> Answer {
        let Unit { calls, keys, record, store, out } = self;
        let answer = calls.engine.submit(*record, keys, store, &own.value, &own.signature, out);
        self.taken(answer)
    }

    pub fn hear(&mut self, message: &[u8]) -> Answer {
        let Unit { calls, keys, record, store, out } = self;
        let answer = calls.engine.step(*record, keys, store, message, out);
        self.taken(answer)
    }

    fn taken(&mut self, answer: Stepped) -> Answer {
        let before = std::mem::replace(&mut self.record, answer.record);
        let written = self.out[..answer.written as usize].to_vec();
        Answer { number: answer.number, before, after: answer.record, written }
    }
}
