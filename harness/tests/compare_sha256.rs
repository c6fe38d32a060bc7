//! The layers below the calls against the reference and the known answers.
#![cfg(feature = "probes")]

use harness::compare::hashes;
use harness::library::Library;
use harness::reference::quorum;

#[test]
fn digests() {
    hashes::digests(&Library);
}

#[test]
fn compressions() {
    hashes::compressions(&Library);
}

#[test]
fn round_constants() {
    hashes::round_constants(&Library);
}

#[test]
fn thresholds() {
    for n in 1..=32 {
        assert_eq!((Library.t0(n), Library.k(n)), (quorum::t0(n), quorum::k(n)), "n = {n}");
    }
}
