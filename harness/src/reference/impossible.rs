//! The impossible records of document 01 and of document 02's item 1, test by test.

use super::calls::MAX_LEAF;
use super::quorum;
use super::record::Record;
use super::seats::{contains, list, size};

pub fn impossible(record: &Record) -> bool {
    !causes(record).is_empty()
}

/// The causes that hold. Where n is out of range the others have no meaning.
pub fn causes(record: &Record) -> Vec<&'static str> {
    let Record { n, seat, round, own, confirmed, notices, first, sent, guilty, kept } = *record;
    if !(1..=32).contains(&n) {
        return vec!["n is out of range"];
    }
    let k = quorum::k(n);
    let names_a_stranger = |mask: u32| list(mask).into_iter().any(|seat| seat >= n);
    let nothing = [0; 32];
    let tests = [
        ("the seat is out of range", seat >= n),
        ("the round is out of range", round > MAX_LEAF),
        ("collected seats name a stranger", names_a_stranger(own.collected)),
        ("the first certificate names a stranger", names_a_stranger(first.seats)),
        ("guilty seats name a stranger", names_a_stranger(guilty)),
        ("kept seats name a stranger", names_a_stranger(kept)),
        ("seats are collected without a submission", !own.submitted && own.collected != 0),
        ("collected seats lack the own", own.submitted && seat < n && !contains(own.collected, seat)),
        ("more than k seats are collected", size(own.collected) > k),
        ("k seats are collected without confirmed", size(own.collected) == k && !confirmed),
        ("confirmed without k seats collected", size(own.collected) != k && confirmed),
        ("the first certificate has neither 0 nor k seats", first.seats != 0 && size(first.seats) != k),
        ("confirmed without a first certificate", confirmed && first.seats == 0),
        ("guilty seats without a first certificate", guilty != 0 && first.seats == 0),
        ("a guilty seat is outside the first certificate", first.seats != 0 && guilty & !first.seats != 0),
        ("FULL was sent unconfirmed", sent && !confirmed),
        ("seats are kept after a submission", own.submitted && kept != 0),
        ("the own value is not zero and unset", !own.submitted && own.value != nothing),
        ("the heard value is not zero and unset", notices.heard == 0 && notices.value != nothing),
        ("the first certificate's value is not zero and unset", first.seats == 0 && first.value != nothing),
        // The three cases of notices heard are 0, 1 and 2.
        ("notices heard are no case", notices.heard > 2),
    ];
    tests.into_iter().filter(|(_, holds)| *holds).map(|(cause, _)| cause).collect()
}
