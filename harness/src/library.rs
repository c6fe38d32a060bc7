//! The proved code: libzolbine.a under the feature `zolbine`, libprobes.a under the feature `probes`.

pub struct Library;

#[cfg(feature = "zolbine")]
mod calls {
    use super::Library;
    use crate::confirmer::{Dispatching, Engine, EvidenceCheck, Framing, Joining, LentStep, Making, Notes};
    use crate::reference::record::{Dispatched, Dispatcher, Eight, Opened, Record, Stepped, Turn, Verdict, Written};
    use crate::subject::{c_calls, c_functions};

    c_calls!(Library: zolbine_check_signature, zolbine_make_key, zolbine_sign);

    c_functions! {
        fn zolbine_message_length(n: u32, bytes: &[u8]) -> u32;
        fn zolbine_check_evidence(n: u32, round: u32, keys: &[u8], evidence: &[u8]) -> Verdict;
        fn zolbine_open(n: u32, seat: u32, round: u32, keys: &[u8]) -> Opened;
        fn zolbine_submit(
            record: Record,
            keys: &[u8],
            store: &mut [u8],
            value: &[u8],
            signature: &[u8],
            out: &mut [u8]
        ) -> Stepped;
        fn zolbine_step(record: Record, keys: &[u8], store: &mut [u8], message: &[u8], out: &mut [u8]) -> Stepped;
        fn zolbine_step_lent(
            record: &mut Record,
            keys: &[u8],
            store: &mut [u8],
            message: &[u8],
            out: &mut [u8]
        ) -> Written;
        fn zolbine_write_note(record: Record, out: &mut [u8]) -> Written;
        fn zolbine_read_note(note: &[u8]) -> Opened;
        fn zolbine_make_evidence(
            n: u32,
            round: u32,
            keys: &[u8],
            first: &[u8],
            second: &[u8],
            out: &mut [u8]
        ) -> Written;
        fn zolbine_join_evidence(
            n: u32,
            round: u32,
            keys: &[u8],
            first: &[u8],
            second: &[u8],
            out: &mut [u8]
        ) -> Written;
        fn zolbine_open_dispatcher(rounds: Eight) -> Dispatched;
        fn zolbine_add_ticket(dispatcher: Dispatcher, round: u32, ticket: u16) -> Dispatched;
        fn zolbine_take_turn(dispatcher: Dispatcher) -> Turn;
    }

    extern "C" {
        fn zolbine_version() -> u32;
    }

    impl Library {
        pub fn version(&self) -> u32 {
            unsafe { zolbine_version() }
        }
    }

    impl Framing for Library {
        fn message_length(&self, n: u32, bytes: &[u8]) -> u32 {
            zolbine_message_length(n, bytes)
        }
    }

    impl EvidenceCheck for Library {
        fn check_evidence(&self, n: u32, round: u32, keys: &[u8], evidence: &[u8]) -> Verdict {
            zolbine_check_evidence(n, round, keys, evidence)
        }
    }

    impl Engine for Library {
        fn open(&self, n: u32, seat: u32, round: u32, keys: &[u8]) -> Opened {
            zolbine_open(n, seat, round, keys)
        }

        fn submit(
            &self,
            record: Record,
            keys: &[u8],
            store: &mut [u8],
            value: &[u8],
            signature: &[u8],
            out: &mut [u8],
        ) -> Stepped {
            zolbine_submit(record, keys, store, value, signature, out)
        }

        fn step(&self, record: Record, keys: &[u8], store: &mut [u8], message: &[u8], out: &mut [u8]) -> Stepped {
            zolbine_step(record, keys, store, message, out)
        }
    }

    impl LentStep for Library {
        fn step_lent(
            &self,
            record: &mut Record,
            keys: &[u8],
            store: &mut [u8],
            message: &[u8],
            out: &mut [u8],
        ) -> Written {
            zolbine_step_lent(record, keys, store, message, out)
        }
    }

    impl Notes for Library {
        fn write_note(&self, record: Record, out: &mut [u8]) -> Written {
            zolbine_write_note(record, out)
        }

        fn read_note(&self, note: &[u8]) -> Opened {
            zolbine_read_note(note)
        }
    }

    impl Making for Library {
        fn make_evidence(
            &self,
            n: u32,
            round: u32,
            keys: &[u8],
            first: &[u8],
            second: &[u8],
            out: &mut [u8],
        ) -> Written {
            zolbine_make_evidence(n, round, keys, first, second, out)
        }
    }

    impl Joining for Library {
        fn join_evidence(
            &self,
            n: u32,
            round: u32,
            keys: &[u8],
            first: &[u8],
            second: &[u8],
            out: &mut [u8],
        ) -> Written {
            zolbine_join_evidence(n, round, keys, first, second, out)
        }
    }

    impl Dispatching for Library {
        fn open_dispatcher(&self, rounds: Eight) -> Dispatched {
            zolbine_open_dispatcher(rounds)
        }

        fn add_ticket(&self, dispatcher: Dispatcher, round: u32, ticket: u16) -> Dispatched {
            zolbine_add_ticket(dispatcher, round, ticket)
        }

        fn take_turn(&self, dispatcher: Dispatcher) -> Turn {
            zolbine_take_turn(dispatcher)
        }
    }
}

#[cfg(feature = "probes")]
mod probes {
    use super::Library;
    use crate::confirmer::LowerCopy;
    use crate::subject::{c_functions, c_hashes, Constants};

    c_hashes!(Library: probe_sha256, probe_compress_many);

    c_functions! {
        fn probe_round_constants(out: &mut [u8]) -> u32;
        fn probe_signed(q: u32, identifier: &[u8], seed: &[u8], digits: &[u8], out: &mut [u8]) -> u32;
        fn probe_lower_certificate(
            n: u32,
            round: u32,
            keys: &[u8],
            first: &[u8],
            second: &[u8],
            out: &mut [u8]
        ) -> u32;
    }

    extern "C" {
        fn probe_t0(n: u32) -> u32;
        fn probe_k(n: u32) -> u32;
    }

    impl Library {
        pub fn t0(&self, n: u32) -> u32 {
            unsafe { probe_t0(n) }
        }

        pub fn k(&self, n: u32) -> u32 {
            unsafe { probe_k(n) }
        }

        /// The values of a signature of width 8 for the digits.
        pub fn signed(&self, q: u32, identifier: &[u8], seed: &[u8], digits: &[u8], out: &mut [u8]) -> u32 {
            probe_signed(q, identifier, seed, digits, out)
        }
    }

    impl Constants for Library {
        fn round_constants(&self, out: &mut [u8]) -> u32 {
            probe_round_constants(out)
        }
    }

    impl LowerCopy for Library {
        fn copy_lower(&self, n: u32, round: u32, keys: &[u8], first: &[u8], second: &[u8], out: &mut [u8]) -> u32 {
            probe_lower_certificate(n, round, keys, first, second, out)
        }
    }
}

/// The library behind a face, where the feature links its archive.
macro_rules! linked {
    ($($name:ident: $face:path, $feature:literal;)*) => {
        $(pub fn $name() -> Option<&'static dyn $face> {
            #[cfg(feature = $feature)]
            return Some(&Library);
            #[cfg(not(feature = $feature))]
            None
        })*
    };
}

linked! {
    calls: crate::subject::Calls, "zolbine";
    hashes: crate::subject::Hashes, "probes";
    evidence_check: crate::confirmer::EvidenceCheck, "zolbine";
    engine: crate::confirmer::Engine, "zolbine";
    joining: crate::confirmer::Joining, "zolbine";
}
