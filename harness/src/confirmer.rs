//! The confirmer's calls behind safe faces, and the reference behind them.

use crate::reference::record::{Dispatched, Dispatcher, Eight, Opened, Record, Stepped, Turn, Verdict, Written};

/// The length of the first message in a buffer.
pub trait Framing: Sync {
    fn message_length(&self, n: u32, bytes: &[u8]) -> u32;
}

pub trait EvidenceCheck: Sync {
    fn check_evidence(&self, n: u32, round: u32, keys: &[u8], evidence: &[u8]) -> Verdict;
}

pub trait Engine: Sync {
    fn open(&self, n: u32, seat: u32, round: u32, keys: &[u8]) -> Opened;

    fn submit(
        &self,
        record: Record,
        keys: &[u8],
        store: &mut [u8],
        value: &[u8],
        signature: &[u8],
        out: &mut [u8],
    ) -> Stepped;

    fn step(&self, record: Record, keys: &[u8], store: &mut [u8], message: &[u8], out: &mut [u8]) -> Stepped;
}

/// The step that is lent its record.
pub trait LentStep: Sync {
    fn step_lent(&self, record: &mut Record, keys: &[u8], store: &mut [u8], message: &[u8], out: &mut [u8]) -> Written;
}

/// The record as a note, and back.
pub trait Notes: Sync {
    fn write_note(&self, record: Record, out: &mut [u8]) -> Written;

    fn read_note(&self, note: &[u8]) -> Opened;
}

/// Evidence from two certificates in hand.
pub trait Making: Sync {
    fn make_evidence(&self, n: u32, round: u32, keys: &[u8], first: &[u8], second: &[u8], out: &mut [u8]) -> Written;
}

/// One pack of evidence from two.
pub trait Joining: Sync {
    fn join_evidence(&self, n: u32, round: u32, keys: &[u8], first: &[u8], second: &[u8], out: &mut [u8]) -> Written;
}

/// Eight rounds followed together.
pub trait Dispatching: Sync {
    fn open_dispatcher(&self, rounds: Eight) -> Dispatched;

    fn add_ticket(&self, dispatcher: Dispatcher, round: u32, ticket: u16) -> Dispatched;

    fn take_turn(&self, dispatcher: Dispatcher) -> Turn;
}

/// The lower of two certificates in hand.
pub trait Lower: Sync {
    fn lower_certificate<'a>(&self, n: u32, round: u32, keys: &[u8], first: &'a [u8], second: &'a [u8]) -> &'a [u8];
}

/// The same, copied to `out`: 0, or 7 where `out` is too short for it.
pub trait LowerCopy: Sync {
    fn copy_lower(&self, n: u32, round: u32, keys: &[u8], first: &[u8], second: &[u8], out: &mut [u8]) -> u32;
}

/// A subject that hands the lower one back can copy it.
impl<T: Lower> LowerCopy for T {
    fn copy_lower(&self, n: u32, round: u32, keys: &[u8], first: &[u8], second: &[u8], out: &mut [u8]) -> u32 {
        let lower = self.lower_certificate(n, round, keys, first, second);
        match out.get_mut(..lower.len()) {
            Some(part) => {
                part.copy_from_slice(lower);
                0
            }
            None => 7,
        }
    }
}

/// All of the calls.
pub trait Confirmer:
    Framing + EvidenceCheck + Engine + LentStep + Notes + Making + Joining + Dispatching + Lower + LowerCopy
{
}

impl<T: Framing + EvidenceCheck + Engine + LentStep + Notes + Making + Joining + Dispatching + Lower + LowerCopy>
    Confirmer for T
{
}

/// Gives a type the calls of a module like [`crate::reference`].
#[macro_export]
macro_rules! confirmer_of {
    ($subject:ident: $($module:tt)+) => {
        impl $crate::confirmer::Framing for $subject {
            fn message_length(&self, n: u32, bytes: &[u8]) -> u32 {
                $($module)+::messages::message_length(n, bytes)
            }
        }

        impl $crate::confirmer::EvidenceCheck for $subject {
            fn check_evidence(&self, n: u32, round: u32, keys: &[u8], evidence: &[u8]) -> $crate::reference::record::Verdict {
                $($module)+::evidence::check_evidence(n, round, keys, evidence)
            }
        }

        impl $crate::confirmer::Engine for $subject {
            fn open(&self, n: u32, seat: u32, round: u32, keys: &[u8]) -> $crate::reference::record::Opened {
                $($module)+::engine::open(n, seat, round, keys)
            }

            fn submit(
                &self,
                record: $crate::reference::record::Record,
                keys: &[u8],
                store: &mut [u8],
                value: &[u8],
                signature: &[u8],
                out: &mut [u8],
            ) -> $crate::reference::record::Stepped {
                $($module)+::engine::submit(record, keys, store, value, signature, out)
            }

            fn step(
                &self,
                record: $crate::reference::record::Record,
                keys: &[u8],
                store: &mut [u8],
                message: &[u8],
                out: &mut [u8],
            ) -> $crate::reference::record::Stepped {
                $($module)+::engine::step(record, keys, store, message, out)
            }
        }

        impl $crate::confirmer::LentStep for $subject {
            fn step_lent(
                &self,
                record: &mut $crate::reference::record::Record,
                keys: &[u8],
                store: &mut [u8],
                message: &[u8],
                out: &mut [u8],
            ) -> $crate::reference::record::Written {
                $($module)+::engine::step_lent(record, keys, store, message, out)
            }
        }

        impl $crate::confirmer::Notes for $subject {
            fn write_note(
                &self,
                record: $crate::reference::record::Record,
                out: &mut [u8],
            ) -> $crate::reference::record::Written {
                $($module)+::note::write_note(record, out)
            }

            fn read_note(&self, note: &[u8]) -> $crate::reference::record::Opened {
                $($module)+::note::read_note(note)
            }
        }

        impl $crate::confirmer::Making for $subject {
            fn make_evidence(
                &self,
                n: u32,
                round: u32,
                keys: &[u8],
                first: &[u8],
                second: &[u8],
                out: &mut [u8],
            ) -> $crate::reference::record::Written {
                $($module)+::evidence::make_evidence(n, round, keys, first, second, out)
            }
        }

        impl $crate::confirmer::Joining for $subject {
            fn join_evidence(
                &self,
                n: u32,
                round: u32,
                keys: &[u8],
                first: &[u8],
                second: &[u8],
                out: &mut [u8],
            ) -> $crate::reference::record::Written {
                $($module)+::evidence::join_evidence(n, round, keys, first, second, out)
            }
        }

        impl $crate::confirmer::Dispatching for $subject {
            fn open_dispatcher(&self, rounds: $crate::reference::record::Eight) -> $crate::reference::record::Dispatched {
                $($module)+::dispatcher::open_dispatcher(rounds)
            }

            fn add_ticket(
                &self,
                dispatcher: $crate::reference::record::Dispatcher,
                round: u32,
                ticket: u16,
            ) -> $crate::reference::record::Dispatched {
                $($module)+::dispatcher::add_ticket(dispatcher, round, ticket)
            }

            fn take_turn(
                &self,
                dispatcher: $crate::reference::record::Dispatcher,
            ) -> $crate::reference::record::Turn {
                $($module)+::dispatcher::take_turn(dispatcher)
            }
        }

        impl $crate::confirmer::Lower for $subject {
            fn lower_certificate<'a>(
                &self,
                n: u32,
                round: u32,
                keys: &[u8],
                first: &'a [u8],
                second: &'a [u8],
            ) -> &'a [u8] {
                $($module)+::evidence::lower_certificate(n, round, keys, first, second)
            }
        }
    };
}

/// The second implementation.
pub struct Reference;

confirmer_of!(Reference: crate::reference);
