//! The signature check, counted and with its verdicts kept.

use std::cell::Cell;

use super::lms;
use crate::memo::Memo;

static VERDICTS: Memo<[Vec<u8>; 3], bool> = Memo::new();

thread_local! {
    static CHECKS: Cell<usize> = const { Cell::new(0) };
}

/// The signature checks of this thread so far, those with a kept verdict too.
pub fn checks() -> usize {
    CHECKS.get()
}

/// `lms::verify`.
pub fn verify(key: &[u8], message: &[u8], signature: &[u8]) -> bool {
    CHECKS.set(CHECKS.get() + 1);
    let question = [key, message, signature].map(<[u8]>::to_vec);
    VERDICTS.answer(question, |[key, message, signature]| lms::verify(key, message, signature))
}
