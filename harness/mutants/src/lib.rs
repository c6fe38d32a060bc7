//! The reference with a fault planted, once for each fault of faults.txt. `cargo test -p mutants` tests whether the
//! batteries catch them.

use harness::confirmer::Confirmer;
use harness::subject::{Calls, Sha256};

pub struct Mutant {
    pub fault: &'static str,
    /// The battery that must catch it.
    pub battery: &'static str,
    /// The edit changes no meaning: the battery must let it pass.
    pub harmless: bool,
    pub subject: Subject,
}

#[derive(Clone, Copy)]
pub enum Subject {
    Confirmer(&'static dyn Confirmer),
    Calls(&'static dyn Calls),
    Sha256(&'static dyn Sha256),
}

/// The reference's LM-OTS for the mutants above it: each leaf's key is made once for all of them.
mod once {
    pub mod lmots {
        use harness::memo::Memo;
        use harness::reference::lmots;

        pub use harness::reference::lmots::*;

        static KEYS: Memo<(u32, u32, Vec<u8>, u32, Vec<u8>), Vec<u8>> = Memo::new();

        pub fn ots_key(types: Types, identifier: &[u8], q: u32, seed: &[u8]) -> Vec<u8> {
            let question = (types.lms, types.ots, identifier.to_vec(), q, seed.to_vec());
            KEYS.answer(question, |_| lmots::ots_key(types, identifier, q, seed))
        }
    }
}

include!(concat!(env!("OUT_DIR"), "/mutants.rs"));
